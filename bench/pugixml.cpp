// pugixml: a compiled query, evaluated from a context node.
#include "bench.h"
#include <map>
#include <memory>
#include <pugixml.hpp>
#include <vector>

static pugi::xml_document doc;
static std::vector<pugi::xml_node> nodes;
static std::map<pugi::xml_node, size_t> numbers;
static std::unique_ptr<pugi::xpath_query> compiled;
static pugi::xpath_node_set result;

// Numbers the elements in document order.
static void number(pugi::xml_node node)
{
    numbers[node] = nodes.size();
    nodes.push_back(node);
    for (pugi::xml_node child : node.children())
        number(child);
}

static void open_document(const char *xml, const uint16_t *, size_t n)
{
    if (!doc.load_file(xml))
        give_up("pugixml could not read the document");
    number(doc.document_element());
    if (nodes.size() != n)
        give_up("pugixml counts other nodes");
}

static void compile(const struct query *query)
{
    compiled.reset(new pugi::xpath_query(query->xpath));
    if (!*compiled)
        give_up("pugixml refuses a query");
}

static void call(size_t start)
{
    result = compiled->evaluate_node_set(nodes[start]);
}

static void found(uint8_t *set)
{
    for (const pugi::xpath_node &node : result)
        set[numbers.at(node.node())] = 1;
}

#define TEXT(number) #number
#define VERSION(number) "pugixml " TEXT(number)
extern "C" const struct engine pugixml_engine = {VERSION(PUGIXML_VERSION), open_document, compile, call, found};

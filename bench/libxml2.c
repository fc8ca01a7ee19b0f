/* libxml2: a compiled expression, evaluated from a context node. */
#include "bench.h"
#include <libxml/parser.h>
#include <libxml/xpath.h>

static xmlDocPtr doc;
static xmlNodePtr *nodes;
static size_t count;
static xmlXPathContextPtr context;
static xmlXPathCompExprPtr compiled;
static xmlXPathObjectPtr result;

/* Numbers the elements in document order; the number is kept in the node. */
static void number(xmlNodePtr node)
{
    node->_private = (void *)(uintptr_t)count;
    nodes[count++] = node;
    for (xmlNodePtr child = node->children; child; child = child->next)
        number(child);
}

static void open_document(const char *xml, const uint16_t *tree, size_t n)
{
    (void)tree;
    doc = xmlReadFile(xml, NULL, 0);
    nodes = calloc(n, sizeof *nodes);
    if (!doc || !nodes)
        give_up("libxml2 could not read the document");
    number(xmlDocGetRootElement(doc));
    if (count != n)
        give_up("libxml2 counts other nodes");
    xmlXPathOrderDocElems(doc); /* libxml2 then sorts results by number, which is quicker */
    context = xmlXPathNewContext(doc);
}

static void compile(const struct query *query)
{
    xmlXPathFreeCompExpr(compiled);
    compiled = xmlXPathCompile((const xmlChar *)query->xpath);
    if (!compiled)
        give_up("libxml2 refuses a query");
}

static void call(size_t start)
{
    xmlXPathFreeObject(result);
    context->node = nodes[start];
    result = xmlXPathCompiledEval(compiled, context);
}

static void found(uint8_t *set)
{
    if (!result || result->type != XPATH_NODESET)
        give_up("libxml2 gave no node set");
    for (int i = 0; result->nodesetval && i < result->nodesetval->nodeNr; i++)
        set[(uintptr_t)result->nodesetval->nodeTab[i]->_private] = 1;
}

const struct engine libxml2_engine = {"libxml2 " LIBXML_DOTTED_VERSION, open_document, compile, call, found};

import java.io.File;
import java.util.BitSet;
import java.util.HashMap;
import java.util.Map;
import net.sf.saxon.Version;
import net.sf.saxon.s9api.Axis;
import net.sf.saxon.s9api.Processor;
import net.sf.saxon.s9api.XPathSelector;
import net.sf.saxon.s9api.XdmItem;
import net.sf.saxon.s9api.XdmNode;
import net.sf.saxon.s9api.XdmNodeKind;
import net.sf.saxon.s9api.XdmSequenceIterator;
import net.sf.saxon.s9api.XdmValue;

/** Saxon: a compiled XPath expression, evaluated from the root element. */
public class Saxon extends Timed {
    private final Processor processor = new Processor(false);
    private final Map<XdmItem, Integer> numbers = new HashMap<>();
    private XdmNode root;
    private XPathSelector compiled;
    private XdmValue result;

    String name() {
        return "Saxon-HE " + Version.getProductVersion();
    }

    /** Numbers the elements in document order. */
    void open(String file) throws Exception {
        XdmNode document = processor.newDocumentBuilder().build(new File(file));
        for (XdmSequenceIterator<XdmNode> nodes = document.axisIterator(Axis.DESCENDANT); nodes.hasNext();) {
            XdmNode node = nodes.next();
            if (node.getNodeKind() != XdmNodeKind.ELEMENT)
                throw new IllegalStateException("a node that is no element");
            if (root == null)
                root = node;
            numbers.put(node, numbers.size());
        }
    }

    void compile(String query) throws Exception {
        compiled = processor.newXPathCompiler().compile(query).load();
        compiled.setContextItem(root);
    }

    void call() throws Exception {
        result = compiled.evaluate();
    }

    BitSet found() {
        BitSet set = new BitSet();
        for (XdmItem item : result)
            set.set(numbers.get(item));
        return set;
    }

    public static void main(String[] arguments) throws Exception {
        new Saxon().run(arguments);
    }
}

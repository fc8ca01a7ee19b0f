import java.util.BitSet;
import org.basex.core.Context;
import org.basex.io.IOFile;
import org.basex.query.QueryProcessor;
import org.basex.query.value.Value;
import org.basex.query.value.item.Item;
import org.basex.query.value.node.DBNode;
import org.basex.util.Prop;

/** BaseX: a compiled query, evaluated from the root element. */
public class Basex extends Timed {
    /** without the settings and databases of a user */
    private final Context context = new Context(false);
    private Value root;
    private QueryProcessor compiled;
    private Value result;

    String name() {
        return "BaseX " + Prop.VERSION;
    }

    void open(String file) throws Exception {
        try (QueryProcessor query = new QueryProcessor("/*", context)) {
            root = query.context(new DBNode(new IOFile(file))).value();
        }
    }

    void compile(String query) throws Exception {
        compiled = new QueryProcessor(query, context).context(root);
        compiled.compile();
    }

    void call() throws Exception {
        result = compiled.value();
    }

    /** The place of an element in the database is one behind the document node's, since there is nothing but elements. */
    BitSet found() {
        BitSet set = new BitSet();
        for (Item item : result)
            set.set(((DBNode) item).pre() - 1);
        return set;
    }

    public static void main(String[] arguments) throws Exception {
        new Basex().run(arguments);
    }
}

import java.nio.file.Files;
import java.nio.file.Paths;
import java.util.BitSet;

/** Times an engine in Java on the queries of nested.txt that have one shape: a call from the root element. The document is read and the
    query compiled before the clock starts. The first call must find exactly the nodes that are due, and one difference ends the program
    with status 1; where it takes longer than LIMIT_S seconds, no deeper query is tried. Then calls are made for WARM_NS, of the first query
    three times as long, so that the machine has compiled what it compiles, and a time is the best of ROUNDS rounds of at least ROUND_NS, or
    of as many as go into WARM_NS. It prints a cell for each depth, in microseconds.

        TREE QUERIES SHAPE      the two files and the number of the shape; without arguments the engine's name is printed */
abstract class Timed {
    private static final int ROUNDS = 7, LIMIT_S = 5;
    private static final double ROUND_NS = 2e7, WARM_NS = 1e9;
    private boolean warm;

    abstract String name();

    abstract void open(String file) throws Exception;

    abstract void compile(String query) throws Exception;

    /** evaluates the query from the root element */
    abstract void call() throws Exception;

    /** the nodes that the last call found, by their numbers in document order */
    abstract BitSet found() throws Exception;

    void run(String[] arguments) throws Exception {
        if (arguments.length == 0) {
            System.out.println(name());
            return;
        }
        open(arguments[0]);
        for (String line : Files.readAllLines(Paths.get(arguments[1]))) {
            String[] fields = line.split("\t");
            if (fields[0].equals(arguments[2]))
                time(fields[2], fields[3]);
        }
    }

    private void time(String query, String due) throws Exception {
        Thread watch = new Thread(Timed::giveUp);
        watch.setDaemon(true);
        compile(query);
        watch.start();
        call();
        watch.interrupt();
        watch.join();
        compare(found(), query, due);
        for (double began = System.nanoTime(); System.nanoTime() - began < (warm ? WARM_NS : 3 * WARM_NS);)
            call();
        warm = true;
        double best = Double.MAX_VALUE, began = System.nanoTime();
        for (int round = 0; round < ROUNDS && (round == 0 || System.nanoTime() - began < WARM_NS); round++)
            best = Math.min(best, round());
        System.out.printf(" | %.1f%n", best / 1e3);
    }

    private void compare(BitSet found, String query, String due) {
        boolean same = found.length() <= due.length();
        for (int k = 0; k < due.length(); k++)
            same = same && found.get(k) == (due.charAt(k) == '1');
        if (!same) {
            System.err.println("bench: " + name() + " differs on " + query);
            System.exit(1);
        }
    }

    /** Nanoseconds a call, in one round. */
    private double round() throws Exception {
        double began = System.nanoTime(), took;
        long calls = 0;
        do {
            call();
            calls++;
            took = System.nanoTime() - began;
        } while (took < ROUND_NS);
        return took / calls;
    }

    private static void giveUp() {
        try {
            Thread.sleep(1000 * LIMIT_S);
        } catch (InterruptedException ended) {
            return;
        }
        System.out.println(" | > " + LIMIT_S + " s");
        System.out.flush();
        Runtime.getRuntime().halt(0);
    }
}

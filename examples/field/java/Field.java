import java.nio.file.Path;
import java.util.Arrays;
import java.util.Map;
import java.util.function.IntFunction;

/**
 * What the Java programs of this folder share: a search over one of their queues.
 *
 * <pre>
 * PROGRAM QUEUE SIZE THREADS PRODUCERS OPERATIONS RUNS INITIAL DRAIN FOLDER
 * </pre>
 *
 * SIZE is the capacity of a bounded queue. The others are settings of the recorder; DRAIN is 0 or 1.
 */
final class Field {
    private Field() {}

    /** Searches, and ends the program with the status of the search. A queue is made of its capacity. */
    static void run(String[] words, Map<String, IntFunction<Recorder.Queue>> queues) {
        IntFunction<Recorder.Queue> make = queues.get(words[0]);
        int[] numbers = Arrays.stream(words, 1, 8).mapToInt(Integer::parseInt).toArray();
        Recorder.Answer answer;
        try (Recorder recorder = new Recorder().first(1).keep(true)) {    // values are 1 and more
            recorder.threads(numbers[1]).producers(numbers[2]).operations(numbers[3]).runs(numbers[4]);
            recorder.initial(numbers[5]).drains(numbers[6] == 1).folder(Path.of(words[8]));
            answer = recorder.search(() -> make.apply(numbers[0]));
        }
        System.exit(answer.ordinal());
    }
}

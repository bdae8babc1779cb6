import com.google.common.collect.EvictingQueue;
import com.google.common.collect.Queues;
import java.util.ArrayDeque;
import java.util.Map;
import java.util.Queue;

/** Queues of Guava. */
final class Guava {
    private Guava() {}

    private static Recorder.Queue tries(Queue<Long> queue) {
        return Recorder.queue(queue::offer, queue::poll);
    }

    public static void main(String[] words) {
        Field.run(words, Map.of(
            "guava-synchronized", size -> tries(Queues.synchronizedQueue(new ArrayDeque<>())),
            "guava-evicting", size -> tries(Queues.synchronizedQueue(EvictingQueue.create(size)))));
    }
}

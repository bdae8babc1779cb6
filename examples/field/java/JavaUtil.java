import java.util.ArrayDeque;
import java.util.Map;
import java.util.Queue;
import java.util.concurrent.ArrayBlockingQueue;
import java.util.concurrent.BlockingQueue;
import java.util.concurrent.ConcurrentLinkedDeque;
import java.util.concurrent.ConcurrentLinkedQueue;
import java.util.concurrent.LinkedBlockingDeque;
import java.util.concurrent.LinkedBlockingQueue;
import java.util.concurrent.LinkedTransferQueue;
import java.util.concurrent.PriorityBlockingQueue;
import java.util.concurrent.SynchronousQueue;

/** Queues of java.util.concurrent, and java.util's ArrayDeque without a lock. */
final class JavaUtil {
    private JavaUtil() {}

    private static Recorder.Queue tries(Queue<Long> queue) {
        return Recorder.queue(queue::offer, queue::poll);
    }

    private static Recorder.Queue waits(BlockingQueue<Long> queue) {
        return Recorder.queue(value -> {
            queue.put(value);
            return true;
        }, queue::take);
    }

    public static void main(String[] words) {
        Field.run(words, Map.ofEntries(
            Map.entry("java-concurrent-linked-queue", size -> tries(new ConcurrentLinkedQueue<>())),
            Map.entry("java-concurrent-linked-deque", size -> tries(new ConcurrentLinkedDeque<>())),
            Map.entry("java-linked-blocking-queue", size -> tries(new LinkedBlockingQueue<>(size))),
            Map.entry("java-linked-blocking-queue-waits", size -> waits(new LinkedBlockingQueue<>(size))),
            Map.entry("java-linked-blocking-deque", size -> tries(new LinkedBlockingDeque<>(size))),
            Map.entry("java-array-blocking-queue", size -> tries(new ArrayBlockingQueue<>(size))),
            Map.entry("java-array-blocking-queue-waits", size -> waits(new ArrayBlockingQueue<>(size))),
            Map.entry("java-linked-transfer-queue", size -> tries(new LinkedTransferQueue<>())),
            Map.entry("java-synchronous-queue", size -> waits(new SynchronousQueue<>())),
            Map.entry("java-synchronous-queue-fair", size -> waits(new SynchronousQueue<>(true))),
            Map.entry("java-priority-blocking-queue", size -> tries(new PriorityBlockingQueue<>())),
            Map.entry("java-array-deque-no-lock", size -> tries(new ArrayDeque<>()))));
    }
}

import java.util.Map;
import java.util.Queue;
import org.jctools.queues.MessagePassingQueue;
import org.jctools.queues.MpmcArrayQueue;
import org.jctools.queues.MpscArrayQueue;
import org.jctools.queues.MpscChunkedArrayQueue;
import org.jctools.queues.MpscCompoundQueue;
import org.jctools.queues.MpscLinkedQueue;
import org.jctools.queues.MpscUnboundedArrayQueue;
import org.jctools.queues.SpmcArrayQueue;
import org.jctools.queues.SpscArrayQueue;
import org.jctools.queues.SpscLinkedQueue;
import org.jctools.queues.SpscUnboundedArrayQueue;

/** Queues of JCTools. */
final class Jctools {
    private Jctools() {}

    private static Recorder.Queue tries(Queue<Long> queue) {
        return Recorder.queue(queue::offer, queue::poll);
    }

    private static Recorder.Queue relaxed(MessagePassingQueue<Long> queue) {
        return Recorder.queue(queue::relaxedOffer, queue::relaxedPoll);
    }

    public static void main(String[] words) {
        Field.run(words, Map.ofEntries(
            Map.entry("jctools-mpmc-array", size -> tries(new MpmcArrayQueue<>(size))),
            Map.entry("jctools-mpmc-array-relaxed", size -> relaxed(new MpmcArrayQueue<>(size))),
            Map.entry("jctools-mpsc-array", size -> tries(new MpscArrayQueue<>(size))),
            Map.entry("jctools-mpsc-array-relaxed", size -> relaxed(new MpscArrayQueue<>(size))),
            Map.entry("jctools-mpsc-chunked", size -> tries(new MpscChunkedArrayQueue<>(4, size))),
            Map.entry("jctools-mpsc-unbounded", size -> tries(new MpscUnboundedArrayQueue<>(8))),
            Map.entry("jctools-mpsc-linked", size -> tries(MpscLinkedQueue.newMpscLinkedQueue())),
            Map.entry("jctools-mpsc-compound", size -> tries(new MpscCompoundQueue<>(size))),
            Map.entry("jctools-spmc-array", size -> tries(new SpmcArrayQueue<>(size))),
            Map.entry("jctools-spsc-array", size -> tries(new SpscArrayQueue<>(size))),
            Map.entry("jctools-spsc-linked", size -> tries(new SpscLinkedQueue<>())),
            Map.entry("jctools-spsc-unbounded", size -> tries(new SpscUnboundedArrayQueue<>(8)))));
    }
}

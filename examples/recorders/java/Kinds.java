import java.util.NoSuchElementException;
import java.util.concurrent.ArrayBlockingQueue;
import java.util.concurrent.ConcurrentLinkedQueue;
import java.util.concurrent.LinkedBlockingQueue;
import java.util.concurrent.atomic.AtomicLong;
import java.util.concurrent.atomic.AtomicLongArray;
import java.util.function.Supplier;

/** Queues of several kinds, as they are, and how the recorder calls each. The status is 0 if none has a violation. */
final class Kinds {
    private static boolean isSound = true;

    private static void search(String kind, Recorder settings, Supplier<Recorder.Queue> makeQueue) {
        System.out.print(kind + ": ");
        try (Recorder recorder = settings) {
            isSound &= recorder.runs(20).search(makeQueue) == Recorder.Answer.NO_VIOLATION;
        }
    }

    /** One thread enqueues and another dequeues: a ring of 16 places. */
    private static final class Ring implements Recorder.Queue {
        private final AtomicLongArray places = new AtomicLongArray(16);
        private final AtomicLong head = new AtomicLong();
        private final AtomicLong tail = new AtomicLong();

        @Override
        public boolean enqueue(long value) {
            long at = tail.get();
            if (at - head.get() == places.length()) {
                return false;
            }
            places.set((int) (at % places.length()), value);
            tail.set(at + 1);
            return true;
        }

        @Override
        public Long dequeue() {
            long at = head.get();
            if (at == tail.get()) {
                return null;
            }
            long value = places.get((int) (at % places.length()));
            head.set(at + 1);
            return value;
        }
    }

    private static Recorder.Queue thrown() {
        ConcurrentLinkedQueue<Long> queue = new ConcurrentLinkedQueue<>();
        return Recorder.queue(queue::add, () -> {
            try {
                return queue.remove();
            } catch (NoSuchElementException isEmpty) {
                return null;
            }
        });
    }

    // A call that waits has no answer "full" or "empty".
    private static Recorder.Queue blocking() {
        LinkedBlockingQueue<Long> queue = new LinkedBlockingQueue<>(16);
        return Recorder.queue(value -> {
            queue.put(value);
            return true;
        }, queue::take);
    }

    private record Item(String name, long number) {}

    private static Recorder.Queue objects() {
        ConcurrentLinkedQueue<Item> queue = new ConcurrentLinkedQueue<>();
        return Recorder.queue(value -> queue.offer(new Item("item " + value, value)), () -> {
            Item item = queue.poll();
            return item == null ? null : item.number;
        });
    }

    private static Recorder.Queue bounded() {
        ArrayBlockingQueue<Long> queue = new ArrayBlockingQueue<>(16);
        return Recorder.queue(queue::offer, queue::poll);
    }

    public static void main(String[] words) {
        search("an exception means empty, and 10 values are in", new Recorder().initial(10), Kinds::thrown);
        search("bounded", new Recorder(), Kinds::bounded);
        search("objects", new Recorder(), Kinds::objects);
        // As many producers as consumers, so that each dequeue finds a value, and no drain, which would wait.
        Recorder roles = new Recorder().pattern(Recorder.Pattern.ROLES).drains(false);
        search("blocking", roles, Kinds::blocking);
        // Thread 0 produces, and drains when thread 1, the consumer, has ended.
        search("one producer, one consumer", new Recorder().threads(2).producers(1), Ring::new);
        System.exit(isSound ? 0 : 1);
    }
}

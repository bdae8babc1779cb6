import java.nio.file.Path;
import java.time.Duration;
import java.util.ArrayDeque;
import java.util.LinkedHashMap;
import java.util.Map;
import java.util.concurrent.atomic.AtomicInteger;
import java.util.concurrent.atomic.AtomicLong;
import java.util.concurrent.atomic.AtomicReference;
import java.util.function.Supplier;

/**
 * Queues with a fault that shows if threads meet in one way alone, and right ones beside them.
 *
 * <pre>
 * Queues NAME [--seed S] [--runs R] [--ops N] [--strategy S] [--folder F] [--timeout SECONDS]
 * </pre>
 *
 * makes a search, with status 0, 1 or 2. {@code Queues --list} has a line for each: its name, whether it is right, and
 * the fault.
 */
final class Queues {
    private Queues() {}

    private static final class Node {
        final Long value;
        final AtomicReference<Node> next = new AtomicReference<>();

        Node(Long value) {
            this.value = value;
        }
    }

    /** A list with a first node that is empty, as Michael and Scott's. */
    private static class Linked implements Recorder.Queue {
        final AtomicReference<Node> head = new AtomicReference<>(new Node(null));
        final AtomicReference<Node> tail = new AtomicReference<>(head.get());

        @Override
        public boolean enqueue(long value) {
            Node added = new Node(value);
            while (true) {
                Schedule.point();
                Node last = tail.get();
                Schedule.point();
                Node following = last.next.get();
                Schedule.point();
                if (following != null) {
                    tail.compareAndSet(last, following);
                } else if (link(last, added)) {
                    Schedule.point();
                    tail.compareAndSet(last, added);
                    return true;
                }
            }
        }

        boolean link(Node last, Node added) {
            return last.next.compareAndSet(null, added);
        }

        @Override
        public Long dequeue() {
            while (true) {
                Schedule.point();
                Node first = head.get();
                Schedule.point();
                Node last = tail.get();
                Schedule.point();
                Node following = first.next.get();
                if (following == null) {
                    return null;
                }
                Schedule.point();
                if (first == last) {
                    tail.compareAndSet(last, following);
                } else if (moveHead(first, following)) {
                    return following.value;
                }
            }
        }

        boolean moveHead(Node first, Node following) {
            return head.compareAndSet(first, following);
        }
    }

    /** Fault: the node is stored after a look, without a compare-and-swap. */
    private static final class StoredNext extends Linked {
        @Override
        boolean link(Node last, Node added) {
            if (last.next.get() != null) {
                return false;
            }
            Schedule.point();
            last.next.set(added);
            return true;
        }
    }

    /** Fault: the head is stored after a look, without a compare-and-swap. */
    private static final class StoredHead extends Linked {
        @Override
        boolean moveHead(Node first, Node following) {
            if (head.get() != first) {
                return false;
            }
            Schedule.point();
            head.set(following);
            return true;
        }
    }

    /** A ring whose slots have sequences, as Vyukov's; it isn't empty while an earlier enqueue is pending. */
    private static class Ring implements Recorder.Queue {
        static final int SIZE = 8;
        final AtomicLong[] sequences = new AtomicLong[SIZE];
        final AtomicLong[] values = new AtomicLong[SIZE];
        final AtomicLong head = new AtomicLong();
        final AtomicLong tail = new AtomicLong();

        Ring() {
            for (int place = 0; place < SIZE; place++) {
                sequences[place] = new AtomicLong(place);
                values[place] = new AtomicLong();
            }
        }

        @Override
        public boolean enqueue(long value) {
            while (true) {
                Schedule.point();
                long at = tail.get();
                int place = (int) (at % SIZE);
                Schedule.point();
                long lag = sequences[place].get() - at;
                Schedule.point();
                if (lag == 0 && tail.compareAndSet(at, at + 1)) {
                    set(place, at, value);
                    return true;
                }
                if (lag < 0 && at == tail.get() && at - head.get() >= SIZE) {
                    return false;
                }
                if (lag < 0) {
                    Schedule.relax();
                }
            }
        }

        void set(int place, long at, long value) {
            Schedule.point();
            values[place].set(value);
            Schedule.point();
            sequences[place].set(at + 1);
        }

        @Override
        public Long dequeue() {
            while (true) {
                Schedule.point();
                long at = head.get();
                int place = (int) (at % SIZE);
                Schedule.point();
                long lag = sequences[place].get() - (at + 1);
                Schedule.point();
                if (lag == 0 && head.compareAndSet(at, at + 1)) {
                    return take(place, at);
                }
                if (lag < 0 && isEmpty(at)) {
                    return null;
                }
                if (lag < 0) {
                    Schedule.relax();
                }
            }
        }

        boolean isEmpty(long at) {
            return tail.get() == at;
        }

        long take(int place, long at) {
            Schedule.point();
            long value = values[place].get();
            Schedule.point();
            sequences[place].set(at + SIZE);
            return value;
        }
    }

    /** Fault: the sequence is set before the value. */
    private static final class EarlySequence extends Ring {
        @Override
        void set(int place, long at, long value) {
            Schedule.point();
            sequences[place].set(at + 1);
            Schedule.point();
            values[place].set(value);
        }
    }

    /** Fault: the slot is freed before its value is read. */
    private static final class EarlyFree extends Ring {
        @Override
        long take(int place, long at) {
            Schedule.point();
            sequences[place].set(at + SIZE);
            Schedule.point();
            return values[place].get();
        }
    }

    /** Fault: a later enqueue may have returned though this slot's is pending. */
    private static final class EmptyEarly extends Ring {
        @Override
        boolean isEmpty(long at) {
            return true;
        }
    }

    /** A list under a lock. */
    private static class Locked implements Recorder.Queue {
        final Schedule.Lock lock = new Schedule.Lock();
        final ArrayDeque<Long> values = new ArrayDeque<>();

        @Override
        public boolean enqueue(long value) {
            lock.lock();
            try {
                values.addLast(value);
            } finally {
                lock.unlock();
            }
            return true;
        }

        @Override
        public Long dequeue() {
            lock.lock();
            try {
                return values.pollFirst();
            } finally {
                lock.unlock();
            }
        }
    }

    /** Fault: the length is counted beside the list. */
    private static final class Counted extends Locked {
        private final AtomicInteger count = new AtomicInteger();

        @Override
        public boolean enqueue(long value) {
            super.enqueue(value);
            Schedule.point();
            count.incrementAndGet();
            return true;
        }

        @Override
        public Long dequeue() {
            Schedule.point();
            if (count.get() <= 0) {
                return null;
            }
            Long value = super.dequeue();
            if (value != null) {
                count.decrementAndGet();
            }
            return value;
        }
    }

    /** Fault: the first value is looked at under the lock, and taken under it once more. */
    private static final class Peeked extends Locked {
        @Override
        public Long dequeue() {
            lock.lock();
            Long value = values.peekFirst();
            lock.unlock();
            if (value != null) {
                super.dequeue();
            }
            return value;
        }
    }

    /** Fault: a place is claimed by a load and a store. */
    private static final class SplitClaim implements Recorder.Queue {
        private final AtomicReference<Long[]> values = new AtomicReference<>(new Long[1 << 10]);
        private final AtomicInteger head = new AtomicInteger();
        private final AtomicInteger tail = new AtomicInteger();

        @Override
        public boolean enqueue(long value) {
            Schedule.point();
            int at = tail.get();
            values.get()[at] = value;
            Schedule.point();
            tail.set(at + 1);
            return true;
        }

        @Override
        public Long dequeue() {
            while (true) {
                Schedule.point();
                int at = head.get();
                Schedule.point();
                if (at >= tail.get()) {
                    return null;
                }
                Long value = values.get()[at];
                Schedule.point();
                if (head.compareAndSet(at, at + 1)) {
                    return value;
                }
            }
        }
    }

    /** Two locks, taken in two orders. */
    private static final class Deadlock extends Locked {
        private final Schedule.Lock second = new Schedule.Lock();

        @Override
        public boolean enqueue(long value) {
            second.lock();
            try {
                return super.enqueue(value);
            } finally {
                second.unlock();
            }
        }

        @Override
        public Long dequeue() {
            lock.lock();
            second.lock();
            try {
                return values.pollFirst();
            } finally {
                second.unlock();
                lock.unlock();
            }
        }
    }

    /** A dequeue waits in a loop, under the lock, for a value. */
    private static final class Livelock extends Locked {
        @Override
        public Long dequeue() {
            lock.lock();
            try {
                while (values.isEmpty()) {
                    Schedule.relax();
                }
                return values.pollFirst();
            } finally {
                lock.unlock();
            }
        }
    }

    /** A monitor, which doesn't give way, with a point inside. */
    private static final class Blocking extends Locked {
        @Override
        public boolean enqueue(long value) {
            synchronized (values) {
                Schedule.point();
                return super.enqueue(value);
            }
        }
    }

    private record Entry(String kind, String fault, Supplier<Recorder.Queue> make) {}

    private static final Map<String, Entry> ENTRIES = new LinkedHashMap<>();

    static {
        ENTRIES.put("linked", new Entry("right", "", Linked::new));
        ENTRIES.put("ring", new Entry("right", "", Ring::new));
        ENTRIES.put("locked", new Entry("right", "", Locked::new));
        ENTRIES.put("stored-next",
                new Entry("wrong", "the node is stored after a look, without a compare-and-swap", StoredNext::new));
        ENTRIES.put("stored-head",
                new Entry("wrong", "the head is stored after a look, without a compare-and-swap", StoredHead::new));
        ENTRIES.put("early-sequence", new Entry("wrong", "the sequence is set before the value", EarlySequence::new));
        ENTRIES.put("early-free", new Entry("wrong", "the slot is freed before its value is read", EarlyFree::new));
        ENTRIES.put("empty-early", new Entry("wrong",
                "empty while the first enqueue is pending, though a later one has returned", EmptyEarly::new));
        ENTRIES.put("counted", new Entry("wrong", "the length is counted beside the list", Counted::new));
        ENTRIES.put("peeked", new Entry("wrong", "the first value is looked at, and taken later", Peeked::new));
        ENTRIES.put("split-claim", new Entry("wrong", "a place is claimed by a load and a store", SplitClaim::new));
        ENTRIES.put("deadlock", new Entry("hung", "two locks in two orders", Deadlock::new));
        ENTRIES.put("livelock", new Entry("hung", "a loop under a lock", Livelock::new));
        ENTRIES.put("blocking", new Entry("hung", "a monitor with a point inside", Blocking::new));
    }

    private static void set(Recorder recorder, Schedule schedule, String name, String word) {
        switch (name) {
            case "--seed" -> recorder.seed(Long.parseLong(word));
            case "--runs" -> recorder.runs(Long.parseLong(word));
            case "--ops" -> recorder.operations(Integer.parseInt(word));
            case "--strategy" -> schedule.strategy(word);
            case "--folder" -> recorder.folder(Path.of(word));
            case "--timeout" -> recorder.timeout(Duration.ofSeconds(Long.parseLong(word)));
            default -> throw new IllegalArgumentException("no option " + name);
        }
    }

    public static void main(String[] words) {
        if (words.length == 1 && words[0].equals("--list")) {
            ENTRIES.forEach((name, entry) -> System.out.println(name + "\t" + entry.kind + "\t" + entry.fault));
            return;
        }
        if (words.length % 2 == 0 || !ENTRIES.containsKey(words[0])) {
            System.err.println("queues: a name of --list, and options with their values");
            System.exit(2);
        }
        Schedule schedule = new Schedule();
        try (Recorder recorder = new Recorder().schedule(schedule)) {
            for (int place = 1; place < words.length; place += 2) {
                set(recorder, schedule, words[place], words[place + 1]);
            }
            System.exit(recorder.search(ENTRIES.get(words[0]).make).ordinal());
        }
    }
}

import java.math.BigInteger;
import java.nio.file.Path;
import java.time.Duration;
import java.util.ArrayDeque;
import java.util.Arrays;
import java.util.List;
import java.util.concurrent.atomic.AtomicInteger;

/**
 * An ArrayDeque under a lock, and the same made wrong on purpose in some ways, recorded.
 *
 * <pre>
 * Queue QUEUE                                        searches for a violation, status 0, 1 or 2
 * Queue QUEUE [--runs R] [--threads T] [--producers N] [--ops N] [--pattern P] [--percent K] [--seed S]
 *     [--initial N] [--condition C] [--overtaken-at-most N] [--folder F] [--keep 0|1] [--timeout SECONDS]
 *                                                                the same with settings
 * Queue QUEUE THREADS OPERATIONS [PATTERN [SEED [INITIAL]]]      one run, written to standard output
 * </pre>
 *
 * Without a pattern, or with {@code loop}, the one run is a loop of one's own.
 *
 * QUEUE is {@code good}, {@code wrong} (every 4th value that is found stays), {@code stack} (last in, first out),
 * {@code shards} (values of two producers overtake each other), {@code early} (says empty too early), {@code hang} (a
 * dequeue never returns) or {@code throw} (a dequeue throws).
 */
final class Queue {
    private static final List<String> KINDS = List.of("good", "wrong", "stack", "shards", "early", "hang", "throw");

    private static final class Tested implements Recorder.Queue {
        private final String kind;
        private final ArrayDeque<Long> list = new ArrayDeque<>();
        private long found;
        // Counted beside the list and outside of the lock, for `early`.
        private final AtomicInteger size = new AtomicInteger();
        private final AtomicInteger dequeues = new AtomicInteger();

        Tested(String kind) {
            this.kind = kind;
        }

        @Override
        public boolean enqueue(long value) {
            synchronized (list) {
                list.addLast(value);
            }
            if (kind.equals("early")) {
                if (value % 8 == 0) {
                    Thread.yield();
                }
                size.incrementAndGet();
            }
            return true;
        }

        @Override
        public Long dequeue() throws InterruptedException {
            switch (kind) {
                case "early" -> {
                    return takeCounted();
                }
                case "hang" -> {
                    if (dequeues.incrementAndGet() == 100) {
                        Thread.sleep(Long.MAX_VALUE);
                    }
                }
                case "throw" -> {
                    if (dequeues.incrementAndGet() == 100) {
                        throw new IllegalStateException("the 100th dequeue");
                    }
                }
                default -> {}
            }
            return take();
        }

        private Long take() {
            synchronized (list) {
                if (kind.equals("stack")) {
                    return list.pollLast();
                }
                // The first value of the last one's producer: the order of each producer is kept.
                if (kind.equals("shards") && !list.isEmpty()) {
                    long producer = list.getLast() >> 32;
                    Long value = list.stream().filter(each -> each >> 32 == producer).findFirst().orElseThrow();
                    list.remove(value);
                    return value;
                }
                Long value = list.peekFirst();
                // The fault of `wrong`: every 4th value that is found is left in place.
                if (value != null && (++found % 4 != 0 || !kind.equals("wrong"))) {
                    list.pollFirst();
                }
                return value;
            }
        }

        // The fault of `early`: a value is in the list before it is counted, and another thread may take it meanwhile.
        private Long takeCounted() {
            if (size.get() <= 0) {
                return null;
            }
            Long value = take();
            if (value != null) {
                size.decrementAndGet();
            }
            return value;
        }
    }

    /** What is wrong with the words. */
    private static final class Refused extends Exception {
        private static final long serialVersionUID = 1;

        Refused(String told) {
            super(told);
        }
    }

    private static long number(String name, String word, long least, long most) throws Refused {
        if (!word.matches("[0-9]+")) {
            throw new Refused(name + " is a number, and not \"" + word + "\"");
        }
        BigInteger number = new BigInteger(word);
        if (number.compareTo(BigInteger.valueOf(least)) < 0 || number.compareTo(BigInteger.valueOf(most)) > 0) {
            throw new Refused(name + " is " + least + " to " + most + ", and not " + word);
        }
        return number.longValue();
    }

    private static Recorder.Pattern pattern(String word) throws Refused {
        for (Recorder.Pattern pattern : Recorder.Pattern.values()) {
            if (pattern.toString().equals(word)) {
                return pattern;
            }
        }
        throw new Refused("no pattern \"" + word + "\": alternate, mix, bursts or roles");
    }

    private static Recorder.Condition condition(String word) throws Refused {
        for (Recorder.Condition condition : Recorder.Condition.values()) {
            if (condition.toString().equals(word)) {
                return condition;
            }
        }
        throw new Refused("no condition \"" + word + "\": linearizable, local, weak-empty or both");
    }

    // One setting of the recorder.
    private static void set(Recorder recorder, String name, String word) throws Refused {
        switch (name) {
            case "--runs" -> recorder.runs(number(name, word, 1, 1_000_000));
            case "--threads" -> recorder.threads((int) number(name, word, 1, 64));
            case "--ops" -> recorder.operations((int) number(name, word, 1, 1_000_000));
            case "--pattern" -> recorder.pattern(pattern(word));
            case "--percent" -> recorder.percent((int) number(name, word, 0, 100));
            case "--seed" -> recorder.seed(number(name, word, 0, 4_294_967_295L));
            case "--initial" -> recorder.initial((int) number(name, word, 0, Recorder.MAX_INITIAL));
            case "--condition" -> recorder.condition(condition(word));
            case "--overtaken-at-most" -> recorder.overtakenAtMost(number(name, word, 0, 1_000_000));
            case "--folder" -> recorder.folder(Path.of(word));
            case "--producers" -> recorder.producers((int) number(name, word, 0, 63));
            case "--keep" -> recorder.keep(number(name, word, 0, 1) == 1);
            case "--timeout" -> recorder.timeout(Duration.ofSeconds(number(name, word, 1, 86_400)));
            default -> throw new Refused("no option \"" + name + "\"");
        }
    }

    private static void setAll(Recorder recorder, String[] words) throws Refused {
        for (int place = 0; place < words.length; place += 2) {
            if (place + 1 == words.length) {
                throw new Refused(words[place] + " has no value");
            }
            set(recorder, words[place], words[place + 1]);
        }
    }

    // Which operations are enqueues if no pattern is named; a thread begins at its number and goes round.
    private static final String STEPS = "EEDDDEED";

    // A loop of one's own, recorded.
    private static Recorder.History recordSteps(Recorder recorder, int operations, Tested queue) {
        recorder.initialValues().forEach(queue::enqueue);
        return recorder.record(worker -> {
            for (int n = 0; n < operations; n++) {
                if (STEPS.charAt((n + worker.number()) % STEPS.length()) == 'E') {
                    worker.enqueue(queue::enqueue);
                } else {
                    worker.dequeue(queue::dequeue);
                }
            }
        });
    }

    private static int oneRun(Recorder recorder, String[] words, Tested queue) throws Exception {
        String[] names = {"--threads", "--ops", "--pattern", "--seed", "--initial"};
        if (words.length < 2 || words.length > names.length) {
            throw new Refused("one run is QUEUE THREADS OPERATIONS [PATTERN [SEED [INITIAL]]]");
        }
        boolean hasPattern = words.length > 2 && !words[2].equals("loop");
        for (int place = 0; place < words.length; place++) {
            if (place != 2 || hasPattern) {
                set(recorder, names[place], words[place]);
            }
        }
        recorder.drains(false);
        Recorder.History history =
                hasPattern ? recorder.run(queue) : recordSteps(recorder, Integer.parseInt(words[1]), queue);
        if (history.isGivenUp()) {
            return Recorder.Answer.WRONG.ordinal();
        }
        history.failures().forEach(failure -> System.err.println("fifobench: " + failure));
        history.write(System.out);
        if (System.out.checkError()) {
            return 3;
        }
        return history.failures().isEmpty() ? 0 : Recorder.Answer.WRONG.ordinal();
    }

    private static int statusOf(String[] words) throws Exception {
        if (words.length == 0 || !KINDS.contains(words[0])) {
            String what = words.length == 0 ? "which queue?" : "no queue \"" + words[0] + "\":";
            throw new Refused(what + " good, wrong, stack, shards, early, hang or throw");
        }
        String kind = words[0];
        String[] rest = Arrays.copyOfRange(words, 1, words.length);
        try (Recorder recorder = new Recorder()) {
            if (rest.length > 0 && !rest[0].startsWith("--")) {
                return oneRun(recorder, rest, new Tested(kind));
            }
            setAll(recorder, rest);
            return recorder.search(() -> new Tested(kind)).ordinal();
        }
    }

    public static void main(String[] words) throws Exception {
        int status = Recorder.Answer.WRONG.ordinal();
        try {
            status = statusOf(words);
        } catch (Refused | IllegalArgumentException refused) {
            System.err.println("queue: " + refused.getMessage());
        }
        System.exit(status);
    }
}

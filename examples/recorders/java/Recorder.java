import static java.util.stream.Collectors.joining;

import java.io.BufferedWriter;
import java.io.ByteArrayOutputStream;
import java.io.IOException;
import java.io.OutputStream;
import java.io.OutputStreamWriter;
import java.io.Writer;
import java.math.BigDecimal;
import java.nio.charset.StandardCharsets;
import java.nio.file.Path;
import java.time.Duration;
import java.util.ArrayList;
import java.util.Arrays;
import java.util.Comparator;
import java.util.List;
import java.util.Locale;
import java.util.concurrent.atomic.AtomicInteger;
import java.util.concurrent.atomic.AtomicLong;
import java.util.function.BooleanSupplier;
import java.util.function.Supplier;
import java.util.stream.LongStream;

/**
 * Records what threads do with a FIFO queue, and searches for a run that no FIFO queue can have made. Java 17 with its
 * own library; RecorderJudge.java lies beside this file. In a test:
 *
 * <pre>{@code
 * @Test
 * void myQueueIsLinearizable() {
 *     try (Recorder recorder = new Recorder()) {
 *         assertEquals(Recorder.Answer.NO_VIOLATION, recorder.search(() -> {
 *             MyQueue queue = new MyQueue();
 *             return Recorder.queue(queue::offer, queue::poll);    // false: the queue is full; null: it is empty
 *         }));
 *     }
 * }
 * }</pre>
 *
 * With the environment variable {@code FIFOBENCH=/path/to/fifobench} this makes 100 short runs, each over a fresh
 * queue, and judges each. A loop of your own is recorded by {@link #record}. docs/RECORDING.md has the rules that
 * this class keeps. A recorder is used by one thread.
 */
public final class Recorder implements AutoCloseable {
    public static final int MAX_THREADS = 64;
    public static final int MAX_OPERATIONS = 1_000_000;
    public static final int MAX_EVENTS = 2_000_000;
    public static final int MAX_INITIAL = 100_000;

    /** A queue that is tested. An exception in a call ends the thread that called. */
    public interface Queue {
        /** Whether the queue took the value: false if it was full. */
        boolean enqueue(long value) throws Exception;

        /** The value that the queue gave, or null if it said that it is empty. */
        Long dequeue() throws Exception;

        /** Puts an initial value in, before the threads start. It is no operation of the run. */
        default boolean preload(long value) throws Exception {
            return enqueue(value);
        }

        /** Called in each thread before the common start, for queues whose threads register. */
        default void enter(int thread) throws Exception {}

        /** Called in each thread after its last operation. */
        default void leave(int thread) throws Exception {}
    }

    /** One call of enqueue. */
    public interface Enqueue { boolean call(long value) throws Exception; }

    /** One call of dequeue. */
    public interface Dequeue { Long call() throws Exception; }

    /** What chooses how threads interleave: a {@code Schedule}, if Schedule.java is beside this file. */
    public interface Chooser { Answer search(Recorder recorder, Supplier<Queue> makeQueue) throws Exception; }

    /** What one thread does in a loop of your own. */
    public interface Work { void make(Worker worker) throws Exception; }

    /** The value of operation n, from 0, of a thread. */
    public interface Values { long value(int thread, long n); }

    /** Which operations a thread makes. */
    public enum Pattern {
        /** Enqueue, dequeue, enqueue, .. */
        ALTERNATE,
        /** Each operation by chance, {@link #percent} of a hundred of them enqueues. */
        MIX,
        /** 1 to 32 enqueues, by chance, and then as many dequeues. */
        BURSTS,
        /** Threads of even number enqueue and the others dequeue; one thread alone alternates. */
        ROLES;

        @Override
        public String toString() {
            return name().toLowerCase(Locale.ROOT);
        }
    }

    /** What a history has to meet. docs/RECORDING.md says which queues promise no more than the weaker ones. */
    public enum Condition {
        LINEARIZABLE,
        /** The values of each producer alone are in order. */
        LOCAL,
        /** An empty dequeue promises nothing. */
        WEAK_EMPTY,
        BOTH;

        @Override
        public String toString() {
            return name().toLowerCase(Locale.ROOT).replace('_', '-');
        }
    }

    /** What a search found. Its ordinal is the status that a program ends with. */
    public enum Answer {
        NO_VIOLATION,
        VIOLATION,
        /** No program, a refused history, a hang, an exception: what is wrong is said on standard error. */
        WRONG
    }

    int threads = 4;
    int operations;
    private Pattern pattern;
    private int producers;
    private int percent = 50;
    long seed = 1;
    long runs;
    Duration timeout = Duration.ofSeconds(30);
    private Values values = (thread, n) -> ((long) thread << 32) + n;
    private long first;
    int initial;
    boolean drains = true;
    boolean hasJournal;
    boolean keepsAll;
    Condition condition = Condition.LINEARIZABLE;
    long overtakenAtMost = -1;
    Path folder = Path.of("fifobench-runs");
    String program;
    private Chooser chooser;
    final RecorderJudge judge = new RecorderJudge(this);
    boolean isQuiet;    // what was said once isn't said again
    private final List<Thread> hanging = new ArrayList<>();

    /** 1 to 64; 4 unless set. */
    public Recorder threads(int threads) {
        this.threads = threads;
        return this;
    }

    /** Operations of each thread; unless set, or if 0, 500, 100 or 2,500 by the seed. */
    public Recorder operations(int operations) {
        this.operations = operations;
        return this;
    }

    /** Unless set, or if it is null, the four take turns by seed. */
    public Recorder pattern(Pattern pattern) {
        this.pattern = pattern;
        return this;
    }

    /** Threads 0 to {@code producers} - 1 enqueue, and the others dequeue; unless set, or if 0, by the pattern. */
    public Recorder producers(int producers) {
        this.producers = producers;
        return this;
    }

    /** Enqueues of a hundred operations, for the pattern {@code MIX}; 50 unless set. */
    public Recorder percent(int percent) {
        this.percent = percent;
        return this;
    }

    /** That of the run, or of the first run of a search; 1 unless set. */
    public Recorder seed(long seed) {
        this.seed = seed;
        return this;
    }

    /** How many runs a search makes at most; unless set 100, or 300 with chosen schedules. */
    public Recorder runs(long runs) {
        this.runs = runs;
        return this;
    }

    /** A run without an event for so long is given up as hanging; 30 seconds unless set. */
    public Recorder timeout(Duration timeout) {
        this.timeout = timeout;
        return this;
    }

    /** The value of each thread's operation n; values have to differ. Unless set, thread * 2^32 + n. */
    public Recorder values(Values values) {
        this.values = values;
        return this;
    }

    /** Added to n; 1 for a queue that takes 0 for "nothing". */
    public Recorder first(long first) {
        this.first = first;
        return this;
    }

    /** How many values the queue is given before: those of a thread 64, as a rule 2^38, 2^38 + 1, ..; 0 unless set. */
    public Recorder initial(int initial) {
        this.initial = initial;
        return this;
    }

    /** Whether values are taken out after the threads have ended, until the queue says that it is empty; as a rule. */
    public Recorder drains(boolean drains) {
        this.drains = drains;
        return this;
    }

    /** Whether events reach FOLDER/SEED.pending while the run goes on, so that a killed run leaves them. */
    public Recorder journal(boolean hasJournal) {
        this.hasJournal = hasJournal;
        return this;
    }

    /** Whether a search keeps the histories without a violation too. */
    public Recorder keep(boolean keepsAll) {
        this.keepsAll = keepsAll;
        return this;
    }

    /** What a history has to meet; unless set, linearizability. */
    public Recorder condition(Condition condition) {
        this.condition = condition;
        return this;
    }

    /** More values that one dequeue overtakes are a violation; unless set, or below 0, by the condition alone. */
    public Recorder overtakenAtMost(long overtakenAtMost) {
        this.overtakenAtMost = overtakenAtMost;
        return this;
    }

    /** Where histories and reports are kept; {@code fifobench-runs} unless set. */
    public Recorder folder(Path folder) {
        this.folder = folder;
        return this;
    }

    /** The program {@code fifobench}; unless set, that of the variable FIFOBENCH, else that on the PATH. */
    public Recorder program(String program) {
        this.program = program;
        return this;
    }

    /** What chooses how threads interleave; unless set, a Schedule if the environment has FIFOBENCH_SCHEDULE=1. */
    public Recorder schedule(Chooser chooser) {
        this.chooser = chooser;
        return this;
    }

    /** A queue of two calls. */
    public static Queue queue(Enqueue enqueue, Dequeue dequeue) {
        return new Queue() {
            @Override
            public boolean enqueue(long value) throws Exception {
                return enqueue.call(value);
            }

            @Override
            public Long dequeue() throws Exception {
                return dequeue.call();
            }
        };
    }

    // What an event is: a place in the list of its words.
    private static final String[] WORDS = {"call-enq", "ret-enq", "ret-not", "call-deq", "ret-deq", "ret-empty"};
    static final int CALL_ENQ = 0, RET_ENQ = 1, RET_NOT = 2, CALL_DEQ = 3, RET_DEQ = 4, RET_EMPTY = 5;

    record Event(long ticket, int thread, int what, long value) {
        boolean isCall() {
            return what == CALL_ENQ || what == CALL_DEQ;
        }

        String line() {
            String text = ticket + " " + thread + " " + WORDS[what];
            return what == CALL_ENQ || what == RET_DEQ ? text + " " + Long.toUnsignedString(value) : text;
        }
    }

    /** What one thread records. Only that thread may use it. */
    public final class Worker {
        private final AtomicLong tickets;
        final int number;
        long asked;
        // Of each event the ticket times 8 plus its word, and the value. Who reads takes the count first.
        private volatile long[] noted;
        private final AtomicInteger count = new AtomicInteger();
        private volatile Throwable failure;

        private Worker(AtomicLong tickets, int number, int operations) {
            this.tickets = tickets;
            this.number = number;
            this.noted = new long[Math.max(128, 4 * operations)];
        }

        /** Its number, from 0. */
        public int number() {
            return number;
        }

        /**
         * Calls {@code call} with a value that no other call has. It says whether the queue took the value: false if
         * the queue was full.
         */
        public boolean enqueue(Enqueue call) throws Exception {
            long value = values.value(number, asked + first);
            asked++;
            note(CALL_ENQ, value);
            boolean taken = call.call(value);
            note(taken ? RET_ENQ : RET_NOT, 0);
            return taken;
        }

        /** Calls {@code call}, which gives the value that the queue gave, or null if it said that it is empty. */
        public Long dequeue(Dequeue call) throws Exception {
            asked++;
            note(CALL_DEQ, 0);
            Long found = call.call();
            note(found == null ? RET_EMPTY : RET_DEQ, found == null ? 0 : found);
            return found;
        }

        // The ticket is drawn first: of a call before the queue is asked, of a return after it has answered. What came
        // before a return is seen by every call of a greater ticket, since the order is sequentially consistent.
        private void note(int what, long value) {
            long ticket = tickets.getAndIncrement();
            if (ticket >= MAX_EVENTS) {
                throw new IllegalStateException("a history has at most " + MAX_EVENTS + " events");
            }
            int place = 2 * count.getPlain();
            long[] to = noted;
            if (place == to.length) {
                to = Arrays.copyOf(to, 2 * place);
                noted = to;
            }
            to[place] = ticket << 3 | what;
            to[place + 1] = value;
            count.setRelease(place / 2 + 1);
        }

        // Appends the events from a place on that are published.
        void read(int from, List<Event> events) {
            int published = count.getAcquire();
            long[] words = noted;
            for (int place = 2 * from; place < 2 * published; place += 2) {
                events.add(new Event(words[place] >>> 3, number, (int) (words[place] & 7), words[place + 1]));
            }
        }
    }

    // The common start: threads wait, for a bounded time, until all are there and two are seen to run at once.
    private static final class Start {
        private static final int LOOKS = 1_000, PASSES = 64;
        private static final long ARRIVAL_NANOS = 1_000_000_000, RUNNING_NANOS = 100_000_000, TURN_NANOS = 3_000_000;
        private final int threads;
        private final AtomicInteger arrived = new AtomicInteger();
        private final AtomicInteger lastBy = new AtomicInteger();
        private volatile boolean isOpen;

        Start(int threads) {
            this.threads = threads;
            this.isOpen = threads == 1;
        }

        void meet(int number) {
            arrived.incrementAndGet();
            if (turns(ARRIVAL_NANOS, () -> arrived.get() >= threads, 1)) {
                turns(RUNNING_NANOS, () -> lastBy.getAndSet(number) != number, PASSES);
            }
            isOpen = true;
        }

        // Takes turns of looks until the start is open or enough was seen in one turn; false if the time is used up.
        // Who looks for one that runs at the same time gives way after three milliseconds only: it can't choose its
        // core, and beside other programs it comes to none again for long.
        private boolean turns(long nanos, BooleanSupplier isSeen, int often) {
            long begin = System.nanoTime(), turn = begin, length = often == 1 ? 0 : TURN_NANOS;
            for (long now = begin; now - begin < nanos; now = System.nanoTime()) {
                if (isSeenIn(LOOKS, isSeen, often)) {
                    return true;
                }
                if (now - turn >= length) {
                    Thread.yield();
                    turn = System.nanoTime();
                }
            }
            return false;
        }

        private boolean isSeenIn(int looks, BooleanSupplier isSeen, int often) {
            int seen = 0;
            for (int look = 0; look < looks && seen < often && !isOpen; look++) {
                seen += isSeen.getAsBoolean() ? 1 : 0;
            }
            return isOpen || seen >= often;
        }
    }

    /** What was recorded: the events of all threads, by ticket. */
    public static final class History {
        final long seed;
        final List<Event> events;
        final List<Long> initial;
        final List<String> failures;
        final String ending;    // null, or how the run ended early: hang, exception, deadlock or livelock
        final Answer answer;    // null, or what was said of a run that hung

        private History(Run run, List<Event> events) {
            this.seed = run.seed;
            this.events = events;
            this.initial = run.initials;
            this.failures = run.failures;
            this.ending = run.ending;
            this.answer = run.answer;
        }

        /** Whether every call has its return. If one has none, {@link #write} writes a pending text. */
        public boolean isComplete() {
            return openCalls().isEmpty();
        }

        /** Whether the run hung. What there was is kept in the folder; standard error says where. */
        public boolean isGivenUp() {
            return "hang".equals(ending);
        }

        /** What went wrong: exceptions in threads, or that the run hung. */
        public List<String> failures() {
            return failures;
        }

        List<Event> openCalls() {
            Event[] open = new Event[MAX_THREADS];
            for (Event event : events) {
                open[event.thread] = event.isCall() ? event : null;
            }
            return Arrays.stream(open).filter(event -> event != null).toList();
        }

        /** Writes the text of the history: bytes of ASCII. */
        public void write(OutputStream to) throws IOException {
            Writer text = new BufferedWriter(new OutputStreamWriter(to, StandardCharsets.US_ASCII));
            text.append(head(isComplete() ? "fifo-history " : "fifo-pending ", initial));
            for (Event event : events) {
                text.append(event.line() + "\n");
            }
            text.append(isComplete() ? "" : "open " + openCalls().size() + "\n");
            text.append("end " + events.size() + "\n");
            text.flush();
        }

        byte[] text() throws IOException {
            ByteArrayOutputStream text = new ByteArrayOutputStream();
            write(text);
            return text.toByteArray();
        }

        // Returns the lines before the events of a text.
        static String head(String name, List<Long> initial) {
            String values = initial.stream().map(value -> Long.toUnsignedString(value) + "\n").collect(joining());
            return name + (initial.isEmpty() ? "1\n" : "2\ninitial " + initial.size() + "\n" + values);
        }
    }

    /**
     * Runs {@code work} in each thread, all of which begin together, and gives what they recorded; there is no drain
     * and no pattern. Memory is taken ahead for the operations of each thread; more are recorded too. With initial
     * values the history says that the queue holds {@link #initialValues} first: put them in before.
     *
     * <p>If a call throws, its thread ends and the others go on; if the run hangs, what there is is kept in the
     * folder. In both cases the history has failures.
     *
     * @throws IllegalArgumentException if a setting is out of its range
     */
    public History record(Work work) {
        Run run = new Run(seed);
        run.go(work, queue(value -> false, () -> null), false);
        return run.history();
    }

    /**
     * One run over this queue, by the pattern of the seed.
     *
     * @throws IllegalArgumentException if a setting is out of its range
     * @throws IllegalStateException if the queue has no room for an initial value
     * @throws Exception if the queue throws it at an initial value
     */
    public History run(Queue queue) throws Exception {
        return run(seed, queue);
    }

    private History run(long seed, Queue queue) throws Exception {
        Run run = new Run(seed);
        for (long value : run.initials) {
            if (!queue.preload(value)) {
                throw new IllegalStateException("no room for the initial value " + Long.toUnsignedString(value));
            }
        }
        run.go(worker -> makeOperations(worker, seed, queue), queue, drains);
        return run.history();
    }

    private void checkSettings() {
        if (threads < 1 || threads > MAX_THREADS) {
            throw new IllegalArgumentException("1 to " + MAX_THREADS + " threads");
        }
        if (operations < 0 || (long) threads * operationsOf(seed) > MAX_OPERATIONS) {
            throw new IllegalArgumentException("at most " + MAX_OPERATIONS + " operations of all threads");
        }
        boolean hasRoles = producers == 0 || patternOf(0) == Pattern.ROLES;
        if (producers < 0 || producers >= threads || !hasRoles) {
            throw new IllegalArgumentException("fewer producers than threads, with the pattern roles");
        }
        if (percent < 0 || percent > 100) {
            throw new IllegalArgumentException("at most 100 percent are enqueues");
        }
        if (initial < 0 || initial > MAX_INITIAL) {
            throw new IllegalArgumentException("at most " + MAX_INITIAL + " initial values");
        }
    }

    // One run: its workers, and what went wrong.
    final class Run {
        final long seed;
        final AtomicLong tickets = new AtomicLong();
        final Worker[] workers;
        final List<Long> initials;
        final List<String> failures = new ArrayList<>();
        private final AtomicInteger ended = new AtomicInteger();
        private volatile boolean hasFailed;
        String ending;
        private Answer answer;

        Run(long seed) {
            checkSettings();
            this.seed = seed;
            initials = initialValues();
            workers = new Worker[threads];
            for (int number = 0; number < threads; number++) {
                workers[number] = new Worker(tickets, number, operationsOf(seed));
            }
        }

        // What one thread does; the first one drains when all have ended.
        private void makeSteps(Worker worker, Start start, Work work, Queue queue, boolean drains) {
            try {
                queue.enter(worker.number);
                start.meet(worker.number);
                work.make(worker);
                ended.incrementAndGet();
                if (worker.number == 0 && drains && haveAllEnded()) {
                    drain(queue);
                }
                queue.leave(worker.number);
            } catch (Throwable failure) {
                worker.failure = failure;
                hasFailed = true;
            }
        }

        // Stays until all threads have made their operations; false if one failed.
        private boolean haveAllEnded() throws InterruptedException {
            while (ended.get() < workers.length && !hasFailed) {
                Thread.sleep(0, 50_000);
            }
            return !hasFailed;
        }

        // Runs the threads, and waits until they have ended or the time is over.
        void go(Work work, Queue queue, boolean drains) {
            RecorderJudge.Journal journal = judge.journal(this);    // there before the first call
            Start start = new Start(threads);
            List<Thread> running = new ArrayList<>();
            for (Worker worker : workers) {
                Thread thread = new Thread(() -> makeSteps(worker, start, work, queue, drains));
                thread.setDaemon(true);
                running.add(thread);
                thread.start();
            }
            waitForEnd(running, journal);
            hanging.addAll(running);
            hasFailed = hasFailed || !running.isEmpty();
            for (Worker worker : workers) {
                if (worker.failure != null) {
                    fail("exception", "thread " + worker.number + " threw " + worker.failure);
                }
            }
            if (!running.isEmpty()) {
                endHung("");
            }
        }

        // Notes what went wrong.
        void fail(String ending, String told) {
            this.ending = ending;
            failures.add(ending + ": " + told);
        }

        // Judges at once what there is of a run that hangs: its threads go on.
        void endHung(String where) {
            BigDecimal seconds = BigDecimal.valueOf(timeout.toMillis(), 3).stripTrailingZeros();
            fail("hang", "no event for " + seconds.toPlainString() + " s" + where);
            answer = judge.endEarly(history());
        }

        // Stays until all have ended, or no ticket is drawn for the time of the settings. Who hangs stays in the list.
        private void waitForEnd(List<Thread> running, RecorderJudge.Journal journal) {
            boolean isInterrupted = false;
            long seen = 0, since = System.nanoTime();
            while (!running.isEmpty() && System.nanoTime() - since < timeout.toNanos()) {
                try {
                    running.get(0).join(journal == null ? 50 : 5);
                } catch (InterruptedException interrupted) {
                    isInterrupted = true;
                }
                if (journal != null) {
                    journal.write();
                }
                running.removeIf(thread -> !thread.isAlive());
                since = tickets.get() == seen ? since : System.nanoTime();
                seen = tickets.get();
            }
            if (journal != null) {
                journal.remove();
            }
            if (isInterrupted) {
                Thread.currentThread().interrupt();
            }
        }

        // While threads run, the events up to the first that isn't there yet.
        History history() {
            List<Event> events = new ArrayList<>();
            for (Worker worker : workers) {
                worker.read(0, events);
            }
            events.sort(Comparator.comparingLong(Event::ticket));
            // Tickets are drawn from 0 on, so a ticket is its event's place.
            int whole = 0;
            while (whole < events.size() && events.get(whole).ticket == whole) {
                whole++;
            }
            return new History(this, events.subList(0, whole));
        }

        // Takes out what is left, until the queue says that it is empty or has given more values than went in.
        void drain(Queue queue) throws Exception {
            List<Event> events = history().events;
            long taken = events.stream().filter(event -> event.what == RET_ENQ).count();
            long given = events.stream().filter(event -> event.what == RET_DEQ).count();
            long left = Math.max(0, initials.size() + taken - given);
            long room = MAX_OPERATIONS - events.size() / 2;
            for (long n = 0; n < Math.min(left + 1, room); n++) {
                if (workers[0].dequeue(queue::dequeue) == null) {
                    return;
                }
            }
            if (!isQuiet) {
                String limit = "a history has at most " + MAX_EVENTS + " events, and the drain stopped there";
                String told = room > left ? "the queue gave more values than went in" : limit;
                RecorderJudge.say("seed " + seed + ": " + told);
            }
        }
    }

    // SplitMix64.
    static final class Words {
        private long state;

        Words(long state) {
            this.state = state;
        }

        int below(int number) {
            state += 0x9e3779b97f4a7c15L;
            long z = state;
            z = (z ^ z >>> 30) * 0xbf58476d1ce4e5b9L;
            z = (z ^ z >>> 27) * 0x94d049bb133111ebL;
            return (int) Long.remainderUnsigned(z ^ z >>> 31, number);
        }
    }

    /** The pattern of a seed. */
    public Pattern patternOf(long seed) {
        Pattern inTurn = Pattern.values()[(int) Long.remainderUnsigned(seed + 3, 4)];
        return pattern != null ? pattern : producers > 0 ? Pattern.ROLES : inTurn;
    }

    /**
     * The number of operations of each thread for a seed: unless set, 500 for seeds 1 to 4, 100 for 5 to 8, 500 for 9
     * to 12 and 2,500 for 13 to 16, which let a ring of 1,024 places go round; and so on.
     */
    public int operationsOf(long seed) {
        return operations != 0 ? operations : new int[] {2_500, 500, 100, 500}[(int) ((seed + 3 >>> 2) % 4)];
    }

    /** The values that the queue holds first. Before a loop of your own you put them in, in this order. */
    public List<Long> initialValues() {
        return LongStream.range(0, initial).mapToObj(place -> values.value(MAX_THREADS, place)).toList();
    }

    // What one thread does: true is an enqueue.
    boolean[] plan(long seed, int thread) {
        Words words = new Words(seed * MAX_THREADS + thread);
        boolean[] plan = new boolean[operationsOf(seed)];
        Pattern pattern = patternOf(seed);
        int length = 0;
        int burst = 0;
        for (int n = 0; n < plan.length; n++) {
            if (burst == 0) {
                length = pattern == Pattern.BURSTS ? 1 + words.below(32) : 1;
                burst = 2 * length;
            }
            plan[n] = switch (pattern) {
                case ALTERNATE, BURSTS -> burst > length;
                case MIX -> words.below(100) < percent;
                case ROLES -> producers > 0 ? thread < producers : threads == 1 ? burst > length : thread % 2 == 0;
            };
            burst--;
        }
        return plan;
    }

    private void makeOperations(Worker worker, long seed, Queue queue) throws Exception {
        for (boolean isEnqueue : plan(seed, worker.number)) {
            if (isEnqueue) {
                worker.enqueue(queue::enqueue);
            } else {
                worker.dequeue(queue::dequeue);
            }
        }
    }

    /**
     * Makes runs from the first seed on, each over a fresh queue, and judges each with {@code fifobench check}, until
     * one is a violation.
     *
     * <p>What it found is said on standard output. The first violation is kept in the folder: the history, and the
     * report of {@code fifobench shrink}. If no program is found, nothing is judged, and every history is kept.
     */
    public Answer search(Supplier<Queue> makeQueue) {
        try {
            return searchRuns(makeQueue);
        } catch (Exception failure) {
            boolean isNamed = failure.getMessage() == null || failure instanceof ReflectiveOperationException;
            RecorderJudge.say(isNamed ? failure.toString() : failure.getMessage());
            return Answer.WRONG;
        }
    }

    private Answer searchRuns(Supplier<Queue> makeQueue) throws Exception {
        if (chooser == null && "1".equals(System.getenv("FIFOBENCH_SCHEDULE"))) {
            String name = Recorder.class.getName().replaceAll("Recorder$", "Schedule");
            chooser = (Chooser) Class.forName(name).getDeclaredConstructor().newInstance();
        }
        if (chooser != null) {
            return chooser.search(this, makeQueue);
        }
        long ofRun = seed, end = seed + (runs == 0 ? 100 : runs);
        RecorderJudge.Found found = judge.new Found(end - seed);
        Answer answer = Answer.NO_VIOLATION;
        judge.nameKilled(end);
        RecorderJudge.Progress progress = new RecorderJudge.Progress();
        for (; ofRun < end && answer == Answer.NO_VIOLATION; ofRun++) {
            long of = ofRun;
            progress.show(of - seed, end - of);
            answer = found.answer(() -> run(of, makeQueue.get()));
        }
        if (answer == Answer.NO_VIOLATION) {
            answer = judge.tellNone(found.isJudged, seed, end, found.told());
        }
        judge.tellKept(answer, found.isJudged, ofRun - seed, found.events);
        return answer;
    }

    /** Interrupts the threads of runs that were given up as hanging. They are daemons, and hold no program up. */
    @Override
    public void close() {
        hanging.forEach(Thread::interrupt);
    }
}

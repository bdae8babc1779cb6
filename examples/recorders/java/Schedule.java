import java.util.ArrayList;
import java.util.HashMap;
import java.util.HashSet;
import java.util.List;
import java.util.Map;
import java.util.Set;
import java.util.concurrent.Semaphore;
import java.util.concurrent.atomic.AtomicLong;
import java.util.concurrent.locks.ReentrantLock;
import java.util.function.Predicate;
import java.util.function.Supplier;

/**
 * Chooses how the threads of a recorded run interleave, so that a seed fixes the run and not its plan alone. Beside
 * Recorder.java, with ScheduleStrategies.java and ScheduledSearch.java; {@code FIFOBENCH_SCHEDULE=1} in the
 * environment, or {@code recorder.schedule(new Schedule())}.
 *
 * <p>One thread runs at a time. At a point another one may go on: between two operations, and where the queue calls
 *
 * <pre>
 * Schedule.point();             before an access to what threads share
 * Schedule.relax();             in a loop that waits for another thread
 * new Schedule.Lock()           in place of a ReentrantLock: who can't lock it lets others go on
 * </pre>
 *
 * These do nothing, and the lock is a ReentrantLock, outside of such a run. Without any of them operations run whole,
 * in an order by chance. The seed draws a strategy, its rates, and the number of operations of a thread, at most 100.
 *
 * <ul>
 * <li>naps: operations run whole, in an order by chance; now and then a thread is stopped at a point, and sleeps until
 *     1 to 32 operations of others have ended
 * <li>walk: at 1 point of 3 to 300, by chance, another thread goes on
 * <li>pct: threads have priorities by chance, and at depth - 1 points of a round the running one becomes the last
 *     (Burckhardt, Kothari, Musuvathi, Nagarakatte, ASPLOS 2010, here in rounds of some operations)
 * </ul>
 *
 * If no thread can run the run is a deadlock; if a bound of points passes without an operation that ends, it is a
 * livelock. Not covered: what blocks otherwise within a call ({@code synchronized}, a BlockingQueue, a monitor's wait)
 * while another thread was stopped at a point inside; such a run is given up after the timeout, with a line that says
 * where it blocks. Threads that the queue starts run free.
 */
public final class Schedule implements Recorder.Chooser {
    static final int MOST_OPERATIONS = 100;
    static final int MOST_SPINS = 200;    // points within an operation after which others have their turn
    static final int REPLAY_SPINS = 1000;    // the same while given switches are made again
    private static final int[] RATES = {3, 5, 10, 20, 50, 100, 300};
    private static final List<String> STRATEGIES =
            List.of("naps", "naps", "naps", "naps", "walk", "walk", "pct", "pct");

    private String strategy = System.getenv("FIFOBENCH_STRATEGY");
    private int oneIn;
    private int depth;
    private int operations;
    private int patience = Integer.parseInt(System.getenv().getOrDefault("FIFOBENCH_PATIENCE", "100000"));

    /** naps, walk or pct; unless set, drawn from the seed. */
    public Schedule strategy(String strategy) {
        this.strategy = strategy;
        return this;
    }

    /** Of walk: another thread goes on at 1 point of this number. Unless set, drawn from the seed. */
    public Schedule oneIn(int oneIn) {
        this.oneIn = oneIn;
        return this;
    }

    /** Of pct; unless set, drawn from the seed. */
    public Schedule depth(int depth) {
        this.depth = depth;
        return this;
    }

    /** Of each thread; unless set, drawn from the seed. */
    public Schedule operations(int operations) {
        this.operations = operations;
        return this;
    }

    /** Points without an operation that ends, after which a run is a livelock; 100,000 unless set. */
    public Schedule patience(int patience) {
        this.patience = patience;
        return this;
    }

    @Override
    public Recorder.Answer search(Recorder recorder, Supplier<Recorder.Queue> makeQueue) throws Exception {
        if (strategy != null && !STRATEGIES.contains(strategy)) {
            throw new IllegalArgumentException("no strategy \"" + strategy + "\": naps, walk or pct");
        }
        return new ScheduledSearch(this, recorder, makeQueue).answer();
    }

    int patience() {
        return patience;
    }

    /** A point at which another thread may go on, before an access to what threads share. */
    public static void point() {
        if (Thread.currentThread() instanceof Seat seat) {
            seat.touch();
        }
    }

    /** A point in a loop that waits for another thread. */
    public static void relax() {
        if (Thread.currentThread() instanceof Seat seat) {
            seat.relaxes = true;
            seat.scheduler.leaveTurn(seat, Why.SPINS);
        } else {
            Thread.onSpinWait();
        }
    }

    /** A lock that is reentrant; a thread of a run that can't lock it lets others go on. */
    public static final class Lock {
        private final ReentrantLock lock = new ReentrantLock();

        /** Locks it. */
        public void lock() {
            if (!(Thread.currentThread() instanceof Seat seat)) {
                Scheduler run = now;
                if (run != null && Thread.currentThread() != run.maker) {
                    run.hasForeign = true;
                }
                lock.lock();
                return;
            }
            seat.touch();
            while (!lock.tryLock()) {
                seat.waitsFor = this;
                seat.scheduler.leaveTurn(seat, Why.WAITS);
            }
        }

        /** Tries to lock it, and says whether it did. */
        public boolean tryLock() {
            point();
            return lock.tryLock();
        }

        /** Unlocks it. */
        public void unlock() {
            lock.unlock();
            if (Thread.currentThread() instanceof Seat seat) {
                seat.scheduler.released(this);
            }
        }
    }

    /** Ends a thread of a run that is over. */
    private static final class Abandoned extends Error {
        private static final long serialVersionUID = 1;

        Abandoned() {
            super("the run is over", null, false, false);
        }
    }

    /** Why a thread stopped. */
    enum Why { POINT, BETWEEN, SPINS, WAITS, LEAVES }

    /** Which operation of a thread, from 0, and the point within it; 0 is before its call. */
    record Key(int thread, int operation, int point) {}

    /** One thread stopped at its point, and another went on. */
    record Switch(Key key, int to, Why why, String where, long ticket) {}

    /** What the seed has drawn. */
    record Drawn(String strategy, int oneIn, int depth, int operations) {}

    Drawn draw(long seed, int operations) {
        Recorder.Words words = new Recorder.Words(~seed * Recorder.MAX_THREADS);    // no thread's plan begins there
        String of = STRATEGIES.get(words.below(STRATEGIES.size()));
        int rate = RATES[words.below(RATES.length)];
        int deep = 2 + words.below(9);
        int most = operations == 0 ? MOST_OPERATIONS : Math.min(operations, MOST_OPERATIONS);
        // 1/8, 1/4, 1/2 or all of the most.
        int share = Math.max(Math.min(most, 4), most >> words.below(4));
        return new Drawn(strategy != null ? strategy : of, oneIn != 0 ? oneIn : rate, depth != 0 ? depth : deep,
                this.operations != 0 ? this.operations : share);
    }

    private static volatile Scheduler now;    // that of the run that goes on

    /** One thread of a run. */
    static final class Seat extends Thread {
        final Scheduler scheduler;
        final int number;
        final Semaphore gate = new Semaphore(0);
        int operation;
        int point;
        int seen;    // points of the operation that are counted
        int since;    // the point at which it went on
        int stopAt;
        boolean relaxes;
        boolean dozes;    // of naps: it spins
        Object waitsFor;
        int wakesAt;
        long priority;
        int quota = 1;
        volatile boolean hasEnded;
        Throwable failure;
        private final ScheduledSearch.Steps steps;

        Seat(Scheduler scheduler, int number, ScheduledSearch.Steps steps) {
            this.scheduler = scheduler;
            this.number = number;
            this.steps = steps;
            setDaemon(true);
        }

        @Override
        public void run() {
            try {
                scheduler.take(this);
                scheduler.setStop(this);
                steps.make(this);
            } catch (Throwable thrown) {
                failure = thrown instanceof Abandoned ? null : thrown;
            } finally {
                scheduler.leave(this);
            }
        }

        void touch() {
            point++;
            if (point >= stopAt) {
                scheduler.stop(this);
            }
        }

        Key key() {
            return new Key(number, operation, point);
        }
    }

    /** Who goes on at a stop, and how many points there are until the next. */
    interface Strategy {
        int gap(Seat seat);

        /** Null if nobody can go on. */
        Seat next(Seat seat, Why why);
    }

    /** The schedule of one run. */
    static final class Scheduler {
        final Thread maker = Thread.currentThread();
        final List<Seat> seats = new ArrayList<>();
        final List<Switch> made = new ArrayList<>();
        final boolean isReplay;
        final Set<Key> skipped;    // operations that aren't made
        private final int patience;
        private final AtomicLong tickets;
        private final Recorder.Words words;
        private final Strategy strategy;
        private final int mostSpins;
        int steps;
        int ended;
        private int progress;    // steps when an operation last ended
        String outcome;    // deadlock or livelock
        final Map<Integer, String> places = new HashMap<>();
        volatile boolean isOver;
        volatile boolean hasForeign;

        Scheduler(int patience, Drawn drawn, long seed, AtomicLong tickets, int threads, ScheduledSearch.Steps does,
                ScheduledSearch.Variant variant) {
            this.patience = patience;
            this.tickets = tickets;
            this.words = new Recorder.Words(~seed * Recorder.MAX_THREADS + 1);
            this.skipped = variant.skipped();
            this.isReplay = variant.switches() != null;
            this.mostSpins = isReplay ? REPLAY_SPINS : MOST_SPINS;
            for (int number = 0; number < threads; number++) {
                seats.add(new Seat(this, number, does));
            }
            this.strategy = isReplay ? new ScheduleStrategies.Replay(this, variant.switches())
                    : ScheduleStrategies.of(this, drawn);
        }

        int below(int bound) {
            return words.below(bound);
        }

        /** Starts the threads, and lets the first one go. */
        void open() {
            now = this;
            seats.forEach(Thread::start);
            Seat first = strategy.next(null, Why.LEAVES);
            made.add(new Switch(new Key(-1, 0, 0), first.number, Why.LEAVES, "", 0));
            first.gate.release();
        }

        void close() {
            now = null;
        }

        /** Those that can go on. The seat itself is among them if it may stay, or if no other is. */
        List<Seat> candidates(Seat self, boolean mayStay) {
            List<Seat> able = those(one -> !one.relaxes && (mayStay || one != self));
            if (able.isEmpty()) {
                able = those(one -> one != self);
            }
            return able.isEmpty() ? those(one -> true) : able;
        }

        private List<Seat> those(Predicate<Seat> are) {
            List<Seat> found = new ArrayList<>();
            for (Seat one : seats) {
                if (!one.hasEnded && one.waitsFor == null && are.test(one)) {
                    found.add(one);
                }
            }
            return found;
        }

        // A thread of the queue's own may unlock what the others wait for.
        private Seat next(Seat seat, Why why) {
            Seat other = strategy.next(seat, why);
            while (other == null && hasForeign && !isOver) {
                try {
                    Thread.sleep(0, 50_000);
                } catch (InterruptedException interrupted) {
                    throw new Abandoned();
                }
                seats.stream().filter(one -> one.waitsFor instanceof Lock).forEach(one -> one.waitsFor = null);
                other = strategy.next(seat, why);
            }
            return other;
        }

        private void count(Seat seat) {
            steps += seat.point - seat.seen;
            seat.seen = seat.point;
            if (isOver) {
                throw new Abandoned();
            }
            if (steps - progress > patience) {
                end("livelock", seat);
            }
        }

        /** A point at which the strategy may let another thread go on. */
        void stop(Seat seat) {
            count(seat);
            Why why = seat.point - seat.since >= mostSpins ? Why.SPINS : Why.POINT;
            goOn(seat, strategy.next(seat, why), why);
            setStop(seat);
        }

        private void setStop(Seat seat) {
            seat.stopAt = seat.point + Math.min(strategy.gap(seat), seat.since + mostSpins - seat.point);
        }

        /** The thread can't go on now, or lets others go first. */
        void leaveTurn(Seat seat, Why why) {
            seat.point++;
            count(seat);
            Seat other = next(seat, why);
            if (other == null) {
                end("deadlock", seat);
            }
            goOn(seat, other, why);
            seat.relaxes = false;
            setStop(seat);
        }

        void released(Object what) {
            for (Seat one : seats) {
                one.waitsFor = one.waitsFor == what ? null : one.waitsFor;
            }
        }

        /** Between two operations. */
        void operationEnded(Seat seat) {
            count(seat);
            ended++;
            progress = steps;
            seat.operation++;
            seat.point = seat.seen = seat.since = 0;
            seats.forEach(one -> one.dozes = false);
            goOn(seat, strategy.next(seat, Why.BETWEEN), Why.BETWEEN);
            setStop(seat);
        }

        private void goOn(Seat seat, Seat other, Why why) {
            if (other == seat) {
                seat.since = why == Why.SPINS ? seat.point : seat.since;
                return;
            }
            note(seat, other, why);
            if (!seat.relaxes) {
                seats.forEach(one -> one.relaxes = false);
            }
            other.gate.release();
            take(seat);
        }

        private void note(Seat seat, Seat other, Why why) {
            boolean isWithin = why != Why.BETWEEN && why != Why.LEAVES;
            String where = isWithin ? placeIn(Thread.currentThread().getStackTrace()) : "";
            made.add(new Switch(seat.key(), other.number, why, where, tickets.get()));
        }

        // Stays until it is the thread's turn.
        private void take(Seat seat) {
            seat.gate.acquireUninterruptibly();
            if (isOver) {
                throw new Abandoned();
            }
            seat.since = seat.point;
        }

        /** Stays until all other threads have left. */
        void waitForOthers(Seat seat) {
            while (seats.stream().anyMatch(one -> one != seat && !one.hasEnded)) {
                seat.waitsFor = this;
                leaveTurn(seat, Why.LEAVES);
            }
        }

        private void leave(Seat seat) {
            seat.hasEnded = true;
            if (isOver) {
                return;
            }
            if (seats.stream().allMatch(one -> one.hasEnded || one.waitsFor == this)) {
                released(this);
            }
            if (seats.stream().allMatch(one -> one.hasEnded)) {
                return;
            }
            seat.point++;
            Seat other = next(seat, Why.LEAVES);
            if (other == null) {
                end("deadlock", null);
                return;
            }
            note(seat, other, Why.LEAVES);
            other.gate.release();
        }

        // Ends a run in which no thread gets on.
        private void end(String how, Seat seat) {
            outcome = how;
            findPlaces();
            abandon(seat);
            if (seat != null) {
                throw new Abandoned();
            }
        }

        void findPlaces() {
            for (Seat one : seats) {
                if (!one.hasEnded) {
                    places.put(one.number, placeIn(one.getStackTrace()));
                }
            }
        }

        /** Ends the threads that wait for their turn. */
        void abandon(Seat running) {
            isOver = true;
            seats.stream().filter(one -> one != running && !one.hasEnded).forEach(one -> one.gate.release());
        }
    }

    private static final Set<String> OWN = new HashSet<>();

    static {
        for (Class<?> one : List.of(Schedule.class, ScheduledSearch.class, ScheduleStrategies.class, Recorder.class)) {
            OWN.add(one.getName());
        }
    }

    // The innermost line that is the queue's.
    private static String placeIn(StackTraceElement[] stack) {
        for (StackTraceElement one : stack) {
            String name = one.getClassName();
            String outer = name.indexOf('$') < 0 ? name : name.substring(0, name.indexOf('$'));
            if (!OWN.contains(outer) && !name.startsWith("java.") && !name.startsWith("jdk.")) {
                return one.getFileName() + ":" + one.getLineNumber() + " (" + one.getMethodName() + ")";
            }
        }
        return "the recorder's call";
    }
}

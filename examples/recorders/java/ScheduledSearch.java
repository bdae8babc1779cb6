import java.io.IOException;
import java.nio.file.Files;
import java.nio.file.Path;
import java.util.ArrayList;
import java.util.Arrays;
import java.util.Comparator;
import java.util.HashSet;
import java.util.List;
import java.util.Map;
import java.util.Set;
import java.util.function.Supplier;
import java.util.stream.Collectors;

/** Searches with chosen schedules, and traces a violation to the few switches that it needs. */
final class ScheduledSearch {
    private static final int MOST_RUNS = 300;    // of a search, unless its settings say more or fewer
    private static final int MOST_REPLAYS = 150;    // in each of four rounds that leave out operations or switches
    private static final int MOST_LIVELOCKS = 10;    // the same of a livelock, which takes long
    private static final int MOST_SWITCHES = 6;    // a trace with more is tried to be had with fewer
    private static final int MOST_FEW = 200;    // tries
    private final Schedule schedule;
    private final Recorder recorder;
    private final Supplier<Recorder.Queue> makeQueue;
    private final int operations;

    ScheduledSearch(Schedule schedule, Recorder recorder, Supplier<Recorder.Queue> makeQueue) {
        this.schedule = schedule;
        this.recorder = recorder;
        this.makeQueue = makeQueue;
        this.operations = recorder.operations;
    }

    /** What one thread does. */
    interface Steps {
        void make(Schedule.Seat seat) throws Exception;
    }

    /**
     * Another run than that of the seed: with given switches, if they aren't null, or a schedule of few of this number
     * from 1 on, and without some operations.
     */
    record Variant(List<Schedule.Switch> switches, int few, Set<Schedule.Key> skipped) {
        static final Variant NONE = new Variant(null, 0, Set.of());
    }

    /** A run that was made. */
    private record Made(Schedule.Scheduler scheduler, Recorder.History history, int operations,
            Set<Schedule.Key> wanted) {
        List<Schedule.Switch> switches() {
            return scheduler.made;
        }
    }

    Recorder.Answer answer() throws Exception {
        Map<String, String> environment = System.getenv();
        long first = Long.parseLong(environment.getOrDefault("FIFOBENCH_SEED", "" + recorder.seed));
        long runs = Long.parseLong(environment.getOrDefault("FIFOBENCH_RUNS", "" + MOST_RUNS));
        long end = first + (recorder.runs == 0 ? runs : recorder.runs);
        boolean isJudged = recorder.judge.isFound();
        RecorderJudge.Progress progress = new RecorderJudge.Progress();
        long seed = first, events = 0;
        Recorder.Answer answer = Recorder.Answer.NO_VIOLATION;
        try {
            for (; seed < end && answer == Recorder.Answer.NO_VIOLATION; seed++) {
                progress.show(seed - first, end - seed);
                Made made = make(seed, Variant.NONE);
                answer = judge(made, isJudged);
                events += made.history.events.size();
            }
        } finally {
            recorder.operations = operations;
            recorder.judge.tellAgain = null;
            recorder.isQuiet = false;
        }
        if (answer == Recorder.Answer.NO_VIOLATION) {
            answer = recorder.judge.tellNone(isJudged, first, end, ", with chosen schedules");
        }
        recorder.judge.tellKept(answer, isJudged, seed - first, events);
        return answer;
    }

    private Made make(long seed, Variant variant) throws Exception {
        Schedule.Drawn drawn = schedule.draw(seed, operations);
        recorder.operations = drawn.operations();
        Recorder.Queue queue = makeQueue.get();
        Recorder.Run run = recorder.new Run(seed);
        for (long value : run.initials) {
            if (!queue.preload(value)) {
                throw new IllegalStateException("no room for the initial value " + Long.toUnsignedString(value));
            }
        }
        Schedule.Drawn of = variant.few == 0 ? drawn : new Schedule.Drawn("few", 0, 0, drawn.operations());
        long by = variant.few == 0 ? seed : variant.few;
        Schedule.Scheduler scheduler = new Schedule.Scheduler(schedule.patience(), of, by, run.tickets,
                recorder.threads, seat -> makeSteps(run, seat, queue), variant);
        scheduler.open();
        waitForEnd(run, scheduler);
        scheduler.close();
        return new Made(scheduler, run.history(), drawn.operations(), new HashSet<>());
    }

    // What one thread does; the first one drains when all others have left.
    private void makeSteps(Recorder.Run run, Schedule.Seat seat, Recorder.Queue queue) throws Exception {
        Recorder.Worker worker = run.workers[seat.number];
        queue.enter(seat.number);
        int n = 0;
        for (boolean isEnqueue : recorder.plan(run.seed, seat.number)) {
            if (seat.scheduler.skipped.contains(new Schedule.Key(seat.number, n++, 0))) {
                worker.asked++;
                seat.operation++;
                continue;
            }
            if (isEnqueue) {
                worker.enqueue(queue::enqueue);
            } else {
                worker.dequeue(queue::dequeue);
            }
            seat.scheduler.operationEnded(seat);
        }
        if (seat.number == 0 && recorder.drains) {
            seat.scheduler.waitForOthers(seat);
            if (seat.scheduler.seats.stream().allMatch(one -> one.failure == null)) {
                run.drain(queue);
            }
        }
        queue.leave(seat.number);
    }

    // Stays until all threads have ended, or no ticket is drawn for the time of the settings.
    private void waitForEnd(Recorder.Run run, Schedule.Scheduler scheduler) throws InterruptedException, IOException {
        List<Schedule.Seat> running = new ArrayList<>(scheduler.seats);
        long seen = 0, since = System.nanoTime();
        while (!running.isEmpty() && System.nanoTime() - since < recorder.timeout.toNanos()) {
            running.get(0).join(50);
            running.removeIf(thread -> !thread.isAlive());
            since = run.tickets.get() == seen ? since : System.nanoTime();
            seen = run.tickets.get();
        }
        for (Schedule.Seat seat : scheduler.seats) {
            if (seat.failure != null) {
                run.fail("exception", "thread " + seat.number + " threw " + seat.failure);
            }
        }
        if (scheduler.outcome != null) {
            run.fail(scheduler.outcome, toldOutcome(scheduler, run.history().openCalls()));
        } else if (!running.isEmpty()) {
            scheduler.findPlaces();
            String places = running.stream().filter(one -> one.gate.getQueueLength() == 0)
                    .map(one -> "thread " + one.number + " at " + scheduler.places.get(one.number))
                    .collect(Collectors.joining(", "));
            scheduler.abandon(null);
            run.endHung(": blocked outside of the schedule, as by synchronized or a BlockingQueue: " + places);
        }
    }

    private String toldOutcome(Schedule.Scheduler scheduler, List<Recorder.Event> calls) {
        String why = scheduler.outcome.equals("deadlock") ? "no thread can run"
                : "no operation ends in " + schedule.patience() + " points";
        return why + ": " + calls.stream()
                .map(call -> RecorderJudge.toldCall(call) + " at " + scheduler.places.get(call.thread()))
                .collect(Collectors.joining(", "));
    }

    private Recorder.Answer judge(Made made, boolean isJudged) throws Exception {
        Exception[] failure = {null};
        recorder.judge.tellAgain = !isJudged ? null : kind -> {
            try {
                tellAgain(made, kind);
            } catch (Exception thrown) {
                failure[0] = thrown;
            }
        };
        Recorder.Answer answer = recorder.judge.answer(made.history, isJudged);
        if (failure[0] != null) {
            throw failure[0];
        }
        return answer;
    }

    // What is wrong with a run, in few words; YES if nothing is.
    private String kind(Made made) throws IOException {
        if (made.scheduler.outcome != null) {
            return made.scheduler.outcome;
        }
        if (made.history.ending != null) {
            return made.history.isGivenUp() ? "a hang" : "an exception";
        }
        return recorder.judge.verdict(made.history.seed, made.history.text(), false);
    }

    // Makes the run again, leaves out operations and switches, and prints what is left.
    private void tellAgain(Made first, String kind) throws Exception {
        long seed = first.history.seed;
        recorder.isQuiet = true;
        if (!Arrays.equals(make(seed, Variant.NONE).history.text(), first.history.text())) {
            System.out.println("  again:   seed " + seed + " made another run the second time: something but the "
                    + "schedule plays a part, as clocks, identity hashes, input, or threads of the queue's own");
            return;
        }
        Smallest small = new Smallest(first, kind);
        small.leaveOut();
        if (small.switches.size() > MOST_SWITCHES && !kind.equals("livelock")) {
            small.tryFew();
        }
        List<String> told = trace(small.best, kind);
        Path path = recorder.folder.resolve(seed + ".trace");
        Files.writeString(path, String.join("\n", told) + "\n");
        System.out.println("  trace:   " + path + "\n    " + String.join("\n    ", told));
        System.out.println("  again:   FIFOBENCH_SEED=" + seed + " in the environment, or --seed " + seed
                + " replays this very run");
    }

    private interface Shows<T> {
        boolean test(List<T> some) throws Exception;
    }

    /** Leaves out operations and switches of a run, while the same kind of violation is left. */
    private final class Smallest {
        private final String kind;
        private final Set<Integer> waiting;
        private Made best;
        private List<Schedule.Key> operations = List.of();
        private List<Schedule.Switch> switches;
        private final int most;    // replays of a round
        private int left;

        Smallest(Made made, String kind) {
            this.kind = kind;
            this.waiting = waiting(made);
            this.best = made;
            this.switches = made.switches();
            this.most = kind.equals("livelock") ? MOST_LIVELOCKS : MOST_REPLAYS;
        }

        void leaveOut() throws Exception {
            for (int round = 0; round < 2; round++) {
                List<Schedule.Switch> all = switches;
                List<Schedule.Key> fixed = operationsOf(best, waiting, true);
                operations = fewest(operationsOf(best, waiting, false),
                        some -> shows(new Variant(all, 0, without(joined(some, fixed)))));
                operations = joined(operations, fixed);
                switches = fewest(best.switches(), some -> shows(new Variant(some, 0, without(operations))));
            }
            best.wanted.clear();
            switches.forEach(one -> best.wanted.add(one.key()));
        }

        // Tries schedules of few switches over the operations that are left, and takes the first that shows it.
        void tryFew() throws Exception {
            Made before = best;
            List<Schedule.Switch> than = switches;
            for (int number = 1; number <= MOST_FEW; number++) {
                if (shows(new Variant(null, number, without(operations)))) {
                    switches = best.switches();
                    leaveOut();
                    break;
                }
            }
            if (switches.size() > than.size()) {
                best = before;
                switches = than;
            }
        }

        private Set<Schedule.Key> without(List<Schedule.Key> some) {
            Set<Schedule.Key> skipped = new HashSet<>();
            for (int thread = 0; thread < recorder.threads; thread++) {
                for (int n = 0; n < best.operations; n++) {
                    skipped.add(new Schedule.Key(thread, n, 0));
                }
            }
            skipped.removeAll(new HashSet<>(some));
            return skipped;
        }

        private boolean shows(Variant variant) throws Exception {
            left--;
            Made made = make(best.history.seed, variant);
            boolean isSame = kind(made).equals(kind) && waiting(made).equals(waiting);
            best = isSame ? made : best;
            return isSame;
        }

        // Leaves out items from the last to the first, many at once and then fewer.
        private <T> List<T> fewest(List<T> items, Shows<T> shows) throws Exception {
            left = most;
            if (shows.test(List.of())) {
                return List.of();
            }
            for (int size = items.size(); size > 0; size /= 2) {
                for (int end = items.size(); end > 0 && left > 0; end -= size) {
                    List<T> rest = new ArrayList<>(items.subList(0, Math.max(0, end - size)));
                    rest.addAll(items.subList(end, items.size()));
                    if (!rest.isEmpty() && shows.test(rest)) {
                        items = rest;
                    }
                }
            }
            return items;
        }
    }

    private static <T> List<T> joined(List<T> some, List<T> others) {
        List<T> all = new ArrayList<>(some);
        all.addAll(others);
        return all;
    }

    // The kinds of the calls that are open if no thread gets on; two runs that show the same have the same kinds.
    private static Set<Integer> waiting(Made made) {
        List<Recorder.Event> open = made.scheduler.outcome == null ? List.of() : made.history.openCalls();
        return open.stream().map(Recorder.Event::what).collect(Collectors.toSet());
    }

    // The planned operations of a run by the tickets of their calls. A drain's aren't planned. Where dequeues alone
    // wait, each enqueue is fixed, and the other way round: else a run would be left in which they wait for nothing.
    private static List<Schedule.Key> operationsOf(Made made, Set<Integer> waiting, boolean areFixed) {
        List<Schedule.Key> found = new ArrayList<>();
        int[] counts = new int[Recorder.MAX_THREADS];
        for (Recorder.Event event : made.history.events) {
            if (!event.isCall()) {
                continue;
            }
            int thread = event.thread();
            while (made.scheduler.skipped.contains(new Schedule.Key(thread, counts[thread], 0))) {
                counts[thread]++;
            }
            boolean isFixed = waiting.size() == 1 && !waiting.contains(event.what());
            if (counts[thread] < made.operations && isFixed == areFixed) {
                found.add(new Schedule.Key(thread, counts[thread], 0));
            }
            counts[thread]++;
        }
        return found;
    }

    /** A line of a trace; a switch comes before the event of its ticket. */
    private record Line(long ticket, boolean isEvent, String text) {}

    // The switches of a run as sentences, between the calls and returns of the operations that `shrink` keeps.
    private List<String> trace(Made made, String kind) throws IOException {
        List<Recorder.Event> events = keptEvents(made);
        long first = events.isEmpty() ? 0 : events.get(0).ticket();
        boolean hasLast = !events.isEmpty() && made.history.isComplete();
        long last = hasLast ? events.get(events.size() - 1).ticket() : Long.MAX_VALUE;
        List<Line> lines = new ArrayList<>();
        events.forEach(event -> lines.add(new Line(event.ticket(), true, toldEvent(event))));
        int count = 0;
        for (Schedule.Switch one : busySwitches(made)) {
            if (made.wanted.contains(one.key()) || first < one.ticket() && one.ticket() <= last) {
                lines.add(new Line(one.ticket(), false, toldSwitch(one)));
                count += one.why() == Schedule.Why.LEAVES ? 0 : 1;
            }
        }
        lines.sort(Comparator.comparingLong(Line::ticket).thenComparing(Line::isEvent));
        List<String> told = new ArrayList<>();
        told.add(kind + " with " + count + (count == 1 ? " switch" : " switches") + ", in a run of "
                + (made.history.events.size() + 1) / 2 + " operations that is left of seed " + made.history.seed + ":");
        lines.forEach(line -> told.add("  " + line.text));
        return told;
    }

    // The events of the operations that `shrink` keeps; of a run without an end the calls that have no return.
    private List<Recorder.Event> keptEvents(Made made) throws IOException {
        List<Recorder.Event> events = new ArrayList<>();
        if (!made.history.isComplete()) {
            events.addAll(made.history.openCalls());
            events.sort(Comparator.comparingLong(Recorder.Event::ticket));
            return events;
        }
        for (String line : recorder.judge.ask("shrink", made.history.text()).lines()) {
            String[] words = line.split(" ");
            if (words[0].equals("end")) {
                break;
            }
            if (words.length > 2 && words[0].matches("[0-9]+")) {
                events.add(made.history.events.get(Integer.parseInt(words[0])));
            }
        }
        return events;
    }

    // The switches, without those to and from threads that make no operation.
    private static List<Schedule.Switch> busySwitches(Made made) {
        Set<Integer> busy = made.history.events.stream().map(Recorder.Event::thread).collect(Collectors.toSet());
        List<Schedule.Switch> kept = new ArrayList<>();
        Schedule.Switch from = null;
        for (Schedule.Switch one : made.switches()) {
            from = busy.contains(one.key().thread()) ? one : from;
            if (from != null && busy.contains(one.to())) {
                if (one.to() != from.key().thread()) {
                    kept.add(new Schedule.Switch(from.key(), one.to(), from.why(), from.where(), from.ticket()));
                }
                from = null;
            }
        }
        return kept;
    }

    private static final Map<Integer, String> DOES = Map.of(Recorder.CALL_DEQ, "calls dequeue",
            Recorder.RET_ENQ, "returns: the value is enqueued", Recorder.RET_EMPTY, "returns: the queue is empty",
            Recorder.RET_NOT, "returns: the enqueue has failed");

    private static String toldEvent(Recorder.Event event) {
        String value = Long.toUnsignedString(event.value());
        String does = event.what() == Recorder.CALL_ENQ ? "calls enqueue of " + value
                : event.what() == Recorder.RET_DEQ ? "returns: " + value + " is dequeued" : DOES.get(event.what());
        return "thread " + event.thread() + " " + does;
    }

    private static String toldSwitch(Schedule.Switch one) {
        String does = switch (one.why()) {
            case BETWEEN -> "is between two operations";
            case LEAVES -> "has made its operations";
            case POINT -> "stops before " + one.where();
            case SPINS -> "spins at " + one.where();
            case WAITS -> "waits at " + one.where();
        };
        return "thread " + one.key().thread() + " " + does + ": thread " + one.to() + " goes on";
    }
}

import java.io.BufferedWriter;
import java.io.IOException;
import java.io.OutputStream;
import java.io.UncheckedIOException;
import java.lang.ProcessBuilder.Redirect;
import java.nio.charset.StandardCharsets;
import java.nio.file.Files;
import java.nio.file.Path;
import java.nio.file.StandardCopyOption;
import java.nio.file.StandardOpenOption;
import java.util.ArrayDeque;
import java.util.ArrayList;
import java.util.Deque;
import java.util.List;
import java.util.concurrent.Callable;
import java.util.concurrent.atomic.AtomicBoolean;
import java.util.function.Consumer;

/**
 * What a search asks of the program, and the files of its runs: histories, reports, the texts of runs that end early.
 * Beside Recorder.java.
 */
final class RecorderJudge {
    private static final int MAX_DRAWN = 400;    // operations or initial values in a picture
    private final Recorder recorder;
    Consumer<String> tellAgain;    // the last lines of a verdict, with chosen schedules

    RecorderJudge(Recorder recorder) {
        this.recorder = recorder;
    }

    /** How far a search is, on a terminal: from two seconds on, until something else is printed. */
    static final class Progress {
        private static final AtomicBoolean IS_SHOWN = new AtomicBoolean();
        private final boolean isTerminal = isTerminal();
        private long next = System.nanoTime() + 2_000_000_000L;

        // Standard error is one. Elsewhere than on Linux what can be asked is whether input and output are.
        private static boolean isTerminal() {
            try {
                return Files.readSymbolicLink(Path.of("/proc/self/fd/2")).toString().matches("/dev/(pts/|tty).*");
            } catch (IOException noLinux) {
                return System.console() != null;
            }
        }

        void show(long done, long left) {
            if (isTerminal && System.nanoTime() - next >= 0) {
                next = System.nanoTime() + 200_000_000;
                IS_SHOWN.set(true);
                System.err.print("\rfifobench: " + done + " runs done, " + left + " left, 0 found\033[K");
                System.err.flush();
            }
        }

        static void erase() {
            if (IS_SHOWN.getAndSet(false)) {
                System.err.print("\r\033[K");
                System.err.flush();
            }
        }
    }

    static void say(String line) {
        Progress.erase();
        System.err.println("fifobench: " + line);
    }

    private String program() {
        String set = recorder.program != null ? recorder.program : System.getenv("FIFOBENCH");
        return set != null ? set : "fifobench";
    }

    // Whether the program can be started; if it can't, a line says so.
    boolean isFound() {
        try {
            ProcessBuilder help = new ProcessBuilder(program(), "help");
            help.redirectOutput(Redirect.DISCARD).redirectError(Redirect.DISCARD).start();
            return true;
        } catch (IOException failure) {
            say("no program '" + program() + "': nothing is judged; the histories are kept in " + recorder.folder);
            return false;
        }
    }

    record Told(byte[] text, int status) {
        List<String> lines() {
            return new String(text, StandardCharsets.US_ASCII).lines().toList();
        }

        String firstLine() {
            return lines().stream().findFirst().orElse("");
        }
    }

    // The condition of a search and its bound, as its answer has them; empty if they are the default.
    private String toldCondition() {
        boolean isDefault = recorder.condition == Recorder.Condition.LINEARIZABLE;
        return (isDefault ? "" : ", condition " + recorder.condition)
                + (recorder.overtakenAtMost < 0 ? "" : ", overtaken-at-most " + recorder.overtakenAtMost);
    }

    // A command, with the flags that are the condition of the settings.
    private String withFlags(String command) {
        List<String> flags = List.of("", " --local", " --weak-empty", " --local --weak-empty");
        boolean hasFlags = List.of("check", "shrink", "draw").contains(command.split(" ")[0]);
        return hasFlags ? command + flags.get(recorder.condition.ordinal()) : command;
    }

    // Returns what the program writes about this text, and its status.
    Told ask(String command, byte[] text) throws IOException {
        List<String> words = new ArrayList<>(List.of(program()));
        words.addAll(List.of(withFlags(command).split(" ")));
        Process judge = new ProcessBuilder(words).redirectError(Redirect.DISCARD).start();
        try (OutputStream input = judge.getOutputStream()) {
            input.write(text);
        } catch (IOException refused) {
            // The program reads all before it writes, unless it refuses the text; then its answer says why.
        }
        byte[] told = judge.getInputStream().readAllBytes();
        try {
            return new Told(told, judge.waitFor());
        } catch (InterruptedException interrupted) {
            Thread.currentThread().interrupt();
            throw new IOException("interrupted", interrupted);
        }
    }

    private Path path(long seed, String kind) {
        return recorder.folder.resolve(seed + "." + kind);
    }

    Path keep(long seed, String kind, byte[] text) throws IOException {
        Files.createDirectories(recorder.folder);
        return Files.write(path(seed, kind), text);
    }

    // Returns the answer of a search to one run.
    Recorder.Answer answer(Recorder.History history, boolean isJudged) throws IOException {
        if (history.answer != null) {
            return history.answer;
        }
        if (history.ending != null) {
            return endEarly(history);
        }
        if (!isJudged || recorder.keepsAll) {
            keep(history.seed, "history", history.text());
        }
        return isJudged ? judge(history.seed, history.text(), false) : Recorder.Answer.NO_VIOLATION;
    }

    /** What the runs of a search have shown: of each seed the last one that was made. */
    final class Found {
        final boolean isJudged = isFound();
        private final long runs;
        long events;
        private long overlapping, withoutOverlap, again;

        Found(long runs) {
            this.runs = runs;
        }

        /**
         * Returns the answer to the run of a seed. Threads that haven't met have shown little, so a run without overlap
         * is made again: three times, and in a search no more often than it has runs.
         */
        Recorder.Answer answer(Callable<Recorder.History> run) throws Exception {
            for (int left = recorder.threads == 1 ? 0 : 3;; left--, again++) {
                Recorder.History history = run.call();
                Recorder.Answer answer = RecorderJudge.this.answer(history, isJudged);
                long met = overlapping(history);
                if (answer != Recorder.Answer.NO_VIOLATION || met > 0 || left == 0 || again == runs) {
                    events += history.events.size();
                    overlapping += met;
                    withoutOverlap += met == 0 ? 1 : 0;
                    return answer;
                }
            }
        }

        // How many operations overlap another.
        private static long overlapping(Recorder.History history) {
            long open = 0, met = 0, overlapping = 0;
            for (Recorder.Event event : history.events) {
                long thread = 1L << event.thread();
                if (event.isCall()) {
                    met |= open == 0 ? 0 : open | thread;
                    open |= thread;
                } else {
                    overlapping += (met & thread) == 0 ? 0 : 1;
                    met &= ~thread;
                    open &= ~thread;
                }
            }
            return overlapping;
        }

        String told() {
            long share = events == 0 ? 0 : 200 * overlapping / events;    // an operation has two events
            return "; " + share + " of 100 operations overlap another; runs without overlap: " + withoutOverlap;
        }
    }

    // Says that no run is a violation, and what else there is to say.
    Recorder.Answer tellNone(boolean isJudged, long seed, long end, String more) {
        Progress.erase();
        System.out.printf("%s %d runs (seeds %d to %d)%s%s%n", isJudged ? "no violation in" : "nothing judged in",
                end - seed, seed, end - 1, toldCondition(), more);
        return isJudged ? Recorder.Answer.NO_VIOLATION : Recorder.Answer.WRONG;
    }

    void tellKept(Recorder.Answer answer, boolean isJudged, long made, long events) {
        if (recorder.keepsAll && isJudged && answer != Recorder.Answer.WRONG) {
            System.out.printf("  kept:    %d judged runs with %d events in %s%n", made, events, recorder.folder);
        }
    }

    // Returns what `check` says of a history, by the condition of the settings, and unless it completes pending calls
    // by their bound on overtaking: YES, or NO and what is violated. A bound judges the order of values in place of
    // `check`, but for that of each producer's own.
    String verdict(long seed, byte[] text, boolean isCompleted) throws IOException {
        Told check = ask("check", text);
        String verdict = check.firstLine();
        if (check.status != 0 && check.status != 1) {
            keep(seed, "history", text);
            throw new IOException(program() + " says '" + verdict + "' of " + path(seed, "history"));
        }
        Recorder.Condition condition = recorder.condition;
        boolean isLocal = condition == Recorder.Condition.LOCAL || condition == Recorder.Condition.BOTH;
        boolean isOrdered = check.status == 1 && (isLocal || !verdict.equals("NO VOrd"));
        if (recorder.overtakenAtMost < 0 || isCompleted || isOrdered) {
            return verdict;
        }
        for (String line : ask("stats", text).lines()) {
            if (line.matches("overtaken-at-most [0-9]+")) {
                boolean isMet = Long.parseLong(line.split(" ")[1]) <= recorder.overtakenAtMost;
                return isMet ? "YES" : "NO overtaken-at-most " + recorder.overtakenAtMost;
            }
        }
        throw new IOException(program() + " has no overtaken-at-most in stats, which a later version has");
    }

    // Judges a history, which may be a completion of pending calls, and says of a violation where it is kept.
    private Recorder.Answer judge(long seed, byte[] text, boolean isCompleted) throws IOException {
        String verdict = verdict(seed, text, isCompleted);
        if (verdict.equals("YES")) {
            return Recorder.Answer.NO_VIOLATION;
        }
        if (isCompleted && !toldCondition().isEmpty()) {
            throw new IOException(verdict + " of one completion" + toldCondition() + ": another one may be a YES");
        }
        Path kept = keep(seed, "history", text);
        String seen = toldViolation(seed, text, verdict, kept);
        Recorder.Pattern pattern = recorder.patternOf(seed);
        String why = isCompleted ? ": the queue is wrong, whatever the pending calls do" : "";
        Progress.erase();
        System.out.printf("%s: seed %d, %s%s%n  history: %s%n%s", verdict, seed, pattern, why, kept, seen);
        if (tellAgain != null) {
            tellAgain.accept(verdict);
        } else {
            System.out.println("  again:   seed " + seed + ", pattern " + pattern
                    + ": the same plan, though threads may meet in another way");
        }
        return Recorder.Answer.VIOLATION;
    }

    // The lines of a violation after its history: the report and its pictures, or the dequeue that overtakes most.
    private String toldViolation(long seed, byte[] text, String verdict, Path kept) throws IOException {
        if (verdict.startsWith("NO overtaken-at-most ")) {
            String told = "not named by " + program();
            long most = 0;
            for (String line : ask("stats --overtakes", text).lines()) {
                if (line.matches("[0-9]+ [0-9]+ [0-9]+")) {
                    String[] row = line.split(" ");
                    if (Long.parseLong(row[0]) > most) {
                        most = Long.parseLong(row[0]);
                        told = String.format("that of %s, called at ticket %s, overtakes %s values", row[2], row[1], row[0]);
                    }
                }
            }
            return String.format("  dequeue: %s%n  see it:  %s stats --overtakes < %s%n", told, program(), kept);
        }
        Path report = keep(seed, "report", ask("shrink", text).text);
        return String.format("  report:  %s%n  see it:  %s %s < %s%n%s", report, program(), withFlags("draw --text"),
                report, drawnIn(text, kept));
    }

    // The second command of `see it:`, which draws the violation with what runs beside it: the report leaves that out.
    // `draw` refuses more than 400 operations; then there is none.
    private String drawnIn(byte[] text, Path kept) throws IOException {
        for (String command : List.of("draw --text --around 20", "draw --text")) {
            if (ask(command, text).status == 0) {
                return String.format("           %s %s < %s%n", program(), withFlags(command), kept);
            }
        }
        return "";
    }

    static String toldCall(Recorder.Event call) {
        String value = Long.toUnsignedString(call.value());
        return "thread " + call.thread() + " is inside "
                + (call.what() == Recorder.CALL_DEQ ? "dequeue" : "enqueue of " + value);
    }

    // Keeps what there is of a run that ended early, says how it ended, and judges it.
    Recorder.Answer endEarly(Recorder.History history) {
        String told = String.join("; ", history.failures);
        if (history.ending.equals("hang") || history.ending.equals("exception")) {    // else said with the places
            List<String> calls = history.openCalls().stream().map(RecorderJudge::toldCall).toList();
            told += "; " + (calls.isEmpty() ? "no thread is inside a call" : String.join(", ", calls));
        }
        say("seed " + history.seed + ": " + told);
        try {
            Path pending = keep(history.seed, "pending", history.text());
            System.err.println("  pending: " + pending);
            return judgePending(history, pending);
        } catch (IOException failure) {
            say(failure.getMessage());
            return Recorder.Answer.WRONG;
        }
    }

    // Judges the completion of a pending text, or prints the command that does.
    private Recorder.Answer judgePending(Recorder.History history, Path pending) throws IOException {
        Told completed;
        try {
            completed = ask("complete", history.text());
        } catch (IOException noProgram) {
            tellJudge("complete", pending);
            return Recorder.Answer.WRONG;
        }
        if (completed.status == 0) {
            if (judge(history.seed, completed.text, true) == Recorder.Answer.VIOLATION) {
                return Recorder.Answer.VIOLATION;
            }
            String promise = history.ending.equals("exception") ? "not to throw" : "to return";
            System.err.println("YES: a right queue can have behaved so until then. If the queue promises " + promise
                    + ", the " + history.ending + " itself is the fault.");
            int ends = history.events.size() + history.openCalls().size();
            boolean isDrawn = Math.max(ends, 2 * history.initial.size()) <= 2 * MAX_DRAWN;
            String drawn = program() + " draw --text < " + pending;
            System.err.println("  see it:  " + (isDrawn ? drawn : "tail -n 40 < " + pending));
            if (tellAgain != null) {
                tellAgain.accept(history.ending);
            }
            return Recorder.Answer.WRONG;
        }
        boolean isRefused = completed.firstLine().startsWith("REFUSED ");
        say(program() + (isRefused ? " says '" + completed.firstLine() + "' of " + pending
                : " has no command complete, which a later version has"));
        tellJudge("complete", pending);
        return Recorder.Answer.WRONG;
    }

    private void tellJudge(String command, Path text) {
        String check = program() + " " + withFlags("check");
        System.err.println("  judge:   " + program() + " " + command + " < " + text + " | " + check);
    }

    // Names the texts that killed runs of an earlier search have left: they lack the last line.
    void nameKilled(long end) throws IOException {
        for (long seed = recorder.seed; seed < end; seed++) {
            Path pending = path(seed, "pending"), killed = path(seed, "killed");
            String text = Files.exists(pending) ? Files.readString(pending, StandardCharsets.US_ASCII) : "end 0\n";
            String last = text.substring(text.lastIndexOf('\n', text.length() - 2) + 1);
            if (!last.startsWith("end ") || !last.endsWith("\n")) {
                Files.move(pending, killed, StandardCopyOption.REPLACE_EXISTING);
                say("seed " + seed + " was killed in an earlier search");
                tellJudge("complete --cut", killed);
            }
        }
    }

    /** Returns the journal of a run, or null if the settings ask for none. */
    Journal journal(Recorder.Run run) {
        try {
            return recorder.hasJournal ? new Journal(run) : null;
        } catch (IOException failure) {
            say("can't write " + failure.getMessage());
            return null;
        }
    }

    /** The events of a run in a file, a few milliseconds after they are noted, so that a killed run leaves them. */
    final class Journal {
        private final Recorder.Run run;
        private final Path path;
        private final BufferedWriter file;
        private final List<Deque<Recorder.Event>> read = new ArrayList<>();    // by thread, not written yet
        private final int[] places;    // how many events of each thread have been read
        private long ticket;    // of the next event

        private Journal(Recorder.Run run) throws IOException {
            this.run = run;
            byte[] head = Recorder.History.head("fifo-pending ", run.initials).getBytes(StandardCharsets.US_ASCII);
            path = keep(run.seed, "pending", head);
            file = Files.newBufferedWriter(path, StandardCharsets.US_ASCII, StandardOpenOption.APPEND);
            places = new int[run.workers.length];
            for (int number = 0; number < places.length; number++) {
                read.add(new ArrayDeque<>());
            }
        }

        // Writes the next event if it is published. Tickets have no gap, so some thread has it next.
        private boolean writeNext() throws IOException {
            for (Deque<Recorder.Event> events : read) {
                if (!events.isEmpty() && events.getFirst().ticket() == ticket) {
                    file.write(events.removeFirst().line() + "\n");
                    ticket++;
                    return true;
                }
            }
            return false;
        }

        void write() {
            for (int number = 0; number < places.length; number++) {
                List<Recorder.Event> fresh = new ArrayList<>();
                run.workers[number].read(places[number], fresh);
                read.get(number).addAll(fresh);
                places[number] += fresh.size();
            }
            try {
                while (writeNext()) {
                    // writes
                }
                file.flush();
            } catch (IOException failure) {
                throw new UncheckedIOException(failure);
            }
        }

        void remove() {
            try {
                file.close();
                Files.deleteIfExists(path);
            } catch (IOException failure) {
                throw new UncheckedIOException(failure);
            }
        }
    }
}

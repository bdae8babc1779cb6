import java.nio.file.Files;
import java.nio.file.Path;
import java.time.Duration;
import java.util.ArrayDeque;
import java.util.Deque;
import java.util.List;
import java.util.concurrent.CountDownLatch;
import java.util.concurrent.Semaphore;

/**
 * A queue that ends a run early: see run, which says what a search of it has to say.
 *
 * <pre>PendingQueue ORDER END FOLDER</pre>
 *
 * ORDER is fifo or lifo. END is what the second dequeue does: lock, wait, throw, kill, or fine;
 * or, with late, what the 250th does: it waits.
 */
public final class PendingQueue implements Recorder.Queue {
    private final String order;
    private final String end;
    private final Path journal;
    private final Deque<Long> values = new ArrayDeque<>();
    private final Semaphore lock = new Semaphore(1);
    private int dequeues;

    private PendingQueue(String order, String end, String folder) {
        this.order = order;
        this.end = end;
        this.journal = Path.of(folder, "3.pending");
    }

    @Override
    public boolean enqueue(long value) {
        values.addLast(value);
        return true;
    }

    @Override
    public Long dequeue() throws Exception {
        dequeues++;
        if (dequeues == (end.equals("late") ? 250 : 2)) {
            endEarly();
        }
        return order.equals("lifo") ? values.pollLast() : values.pollFirst();
    }

    private void endEarly() throws Exception {
        switch (end) {
            case "lock" -> {
                lock.acquire();
                lock.acquire();
            }
            case "wait", "late" -> new CountDownLatch(1).await();
            case "throw" -> throw new IllegalStateException("no value today");
            case "kill" -> {
                while (!Files.readString(journal).endsWith("\n52 0 call-deq\n")) {    // the call that is pending
                    Thread.sleep(1);
                }
                String process = Long.toString(ProcessHandle.current().pid());
                new ProcessBuilder("kill", "-9", process).start().waitFor();
            }
            default -> { }
        }
    }

    public static void main(String[] words) {
        String order = words[0], end = words[1];
        try (Recorder recorder = new Recorder()) {
            boolean isLate = end.equals("late");
            recorder.threads(1).operations(isLate ? 600 : 60).runs(1);
            recorder.seed(isLate ? 1 : 3);    // alternate; bursts, the first of 25
            boolean hangs = List.of("lock", "wait", "late").contains(end);
            recorder.timeout(Duration.ofSeconds(hangs ? 1 : 30)).journal(end.equals("kill")).folder(Path.of(words[2]));
            System.exit(recorder.search(() -> new PendingQueue(order, end, words[2])).ordinal());
        }
    }
}

import java.util.ArrayList;
import java.util.Collections;
import java.util.HashMap;
import java.util.List;
import java.util.Map;
import java.util.TreeSet;

/** Who goes on at a stop: the strategies of {@link Schedule}. */
final class ScheduleStrategies {
    private static final int MOST_NAP = 6;    // a nap lasts until at most 2^5 operations of others have ended
    private static final int MOST_QUOTA = 8;    // operations in a round of pct

    private ScheduleStrategies() {}

    static Schedule.Strategy of(Schedule.Scheduler scheduler, Schedule.Drawn drawn) {
        return switch (drawn.strategy()) {
            case "naps" -> new Naps(scheduler);
            case "walk" -> new Walk(scheduler, drawn.oneIn());
            case "pct" -> new Pct(scheduler, drawn.depth());
            default -> new Few(scheduler);
        };
    }

    private static Schedule.Seat any(Schedule.Scheduler scheduler, List<Schedule.Seat> of) {
        return of.isEmpty() ? null : of.get(scheduler.below(of.size()));
    }

    private static class Naps implements Schedule.Strategy {
        final Schedule.Scheduler scheduler;
        private final int factor;

        Naps(Schedule.Scheduler scheduler) {
            this.scheduler = scheduler;
            this.factor = 1 << scheduler.below(3);
        }

        // Points until a thread falls asleep: on average once in this many operations.
        @Override
        public int gap(Schedule.Seat seat) {
            int oneIn = Math.max(4, factor * scheduler.steps / (scheduler.ended + 1));
            return 1 + scheduler.below(2 * oneIn);
        }

        @Override
        public Schedule.Seat next(Schedule.Seat seat, Schedule.Why why) {
            if (why == Schedule.Why.BETWEEN && scheduler.below(2) != 0) {
                return seat;
            }
            return sleep(seat, why);
        }

        Schedule.Seat sleep(Schedule.Seat seat, Schedule.Why why) {
            if (why == Schedule.Why.POINT) {
                seat.wakesAt = scheduler.ended + 1 + scheduler.below(1 << scheduler.below(MOST_NAP));
            } else if (why == Schedule.Why.SPINS) {
                seat.dozes = true;
            }
            return awake(scheduler.candidates(seat, why == Schedule.Why.BETWEEN));
        }

        // One that is awake; if all sleep, the one that wakes up first, and those that spin last.
        private Schedule.Seat awake(List<Schedule.Seat> candidates) {
            List<Schedule.Seat> awake = new ArrayList<>();
            Schedule.Seat first = null;
            for (Schedule.Seat one : candidates) {
                if (!one.dozes && one.wakesAt <= scheduler.ended) {
                    awake.add(one);
                } else if (!one.dozes && (first == null || one.wakesAt < first.wakesAt)) {
                    first = one;
                }
            }
            if (!awake.isEmpty()) {
                return any(scheduler, awake);
            }
            if (first != null) {
                first.wakesAt = 0;
                return first;
            }
            candidates.forEach(one -> one.dozes = false);
            return any(scheduler, candidates);
        }
    }

    /** Threads make all their operations one after another, but for 1 to 3 naps: for a trace that a person can read. */
    private static final class Few extends Naps {
        private int left;
        private final int length;

        Few(Schedule.Scheduler scheduler) {
            super(scheduler);
            this.left = 1 + scheduler.below(3);
            this.length = 1 + scheduler.below(1 << 2 + scheduler.below(9));
        }

        @Override
        public int gap(Schedule.Seat seat) {
            return left == 0 ? Schedule.MOST_SPINS : 1 + scheduler.below(length);
        }

        @Override
        public Schedule.Seat next(Schedule.Seat seat, Schedule.Why why) {
            boolean isOver = scheduler.seats.stream()
                    .anyMatch(one -> one.wakesAt > 0 && one.wakesAt <= scheduler.ended && !one.hasEnded);
            if (why == Schedule.Why.POINT && left == 0 || why == Schedule.Why.BETWEEN && !isOver) {
                return seat;
            }
            left -= why == Schedule.Why.POINT ? 1 : 0;
            scheduler.seats.forEach(one -> one.wakesAt = one.wakesAt <= scheduler.ended ? 0 : one.wakesAt);
            return sleep(seat, why == Schedule.Why.BETWEEN ? Schedule.Why.WAITS : why);
        }
    }

    private record Walk(Schedule.Scheduler scheduler, int oneIn) implements Schedule.Strategy {
        @Override
        public int gap(Schedule.Seat seat) {
            return 1 + scheduler.below(2 * oneIn - 1);
        }

        @Override
        public Schedule.Seat next(Schedule.Seat seat, Schedule.Why why) {
            if (why == Schedule.Why.BETWEEN && scheduler.below(oneIn) != 0) {
                return seat;
            }
            return any(scheduler, scheduler.candidates(seat, why == Schedule.Why.BETWEEN));
        }
    }

    /** Priorities in rounds, in which each thread makes 1 to 8 operations. */
    private static final class Pct implements Schedule.Strategy {
        private final Schedule.Scheduler scheduler;
        private final int depth;
        private int began;
        private long lowest;
        private int length;
        private final List<Integer> changes = new ArrayList<>();

        Pct(Schedule.Scheduler scheduler, int depth) {
            this.scheduler = scheduler;
            this.depth = depth;
            this.length = 10 * MOST_QUOTA * scheduler.seats.size();
            begin();
        }

        // A round as long as the last one, by guess.
        private void begin() {
            length = scheduler.steps > began ? scheduler.steps - began : length;
            began = scheduler.steps;
            for (Schedule.Seat one : scheduler.seats) {
                one.priority = scheduler.below(1 << 30);
                one.quota = 1 + scheduler.below(MOST_QUOTA);
            }
            changes.clear();
            for (int n = 1; n < depth; n++) {
                changes.add(began + 1 + scheduler.below(length));
            }
            Collections.sort(changes);
        }

        @Override
        public int gap(Schedule.Seat seat) {
            return changes.isEmpty() ? Schedule.MOST_SPINS : Math.max(1, changes.get(0) - scheduler.steps);
        }

        @Override
        public Schedule.Seat next(Schedule.Seat seat, Schedule.Why why) {
            if (why == Schedule.Why.POINT && (changes.isEmpty() || changes.get(0) > scheduler.steps)) {
                return seat;
            }
            if (why == Schedule.Why.POINT || why == Schedule.Why.SPINS) {
                changes.removeIf(change -> change <= scheduler.steps);
                seat.priority = --lowest;
            } else if (why == Schedule.Why.BETWEEN) {
                seat.quota--;
            }
            boolean mayStay = why == Schedule.Why.BETWEEN || why == Schedule.Why.POINT;
            List<Schedule.Seat> candidates = scheduler.candidates(seat, mayStay);
            Schedule.Seat best = best(candidates);
            if (best == null && !candidates.isEmpty()) {
                begin();
                best = best(candidates);
            }
            return best;
        }

        private static Schedule.Seat best(List<Schedule.Seat> candidates) {
            Schedule.Seat best = null;
            for (Schedule.Seat one : candidates) {
                if (one.quota > 0 && (best == null || one.priority > best.priority)) {
                    best = one;
                }
            }
            return best;
        }
    }

    /** Makes given switches again. Where a thread can't go on and none is given, the next one by number does. */
    static final class Replay implements Schedule.Strategy {
        private final Schedule.Scheduler scheduler;
        private final Map<Schedule.Key, Integer> to = new HashMap<>();
        // Of an operation, whose key has the point 0.
        private final Map<Schedule.Key, TreeSet<Integer>> points = new HashMap<>();

        Replay(Schedule.Scheduler scheduler, List<Schedule.Switch> switches) {
            this.scheduler = scheduler;
            for (Schedule.Switch one : switches) {
                Schedule.Key key = one.key();
                to.put(key, one.to());
                Schedule.Key operation = new Schedule.Key(key.thread(), key.operation(), 0);
                points.computeIfAbsent(operation, unused -> new TreeSet<>()).add(key.point());
            }
        }

        @Override
        public int gap(Schedule.Seat seat) {
            TreeSet<Integer> of = points.get(new Schedule.Key(seat.number, seat.operation, 0));
            Integer next = of == null ? null : of.higher(seat.point);
            return next == null ? Schedule.REPLAY_SPINS : next - seat.point;
        }

        @Override
        public Schedule.Seat next(Schedule.Seat seat, Schedule.Why why) {
            Integer wanted = to.get(seat == null ? new Schedule.Key(-1, 0, 0) : seat.key());
            boolean isFree = why == Schedule.Why.POINT || why == Schedule.Why.BETWEEN;
            if (wanted == null && isFree) {
                return seat;
            }
            boolean mayStay = isFree || wanted != null && why == Schedule.Why.SPINS;
            Schedule.Seat next = null;
            Schedule.Seat first = null;
            for (Schedule.Seat one : scheduler.candidates(seat, mayStay)) {
                if (wanted != null && one.number == wanted) {
                    return one;
                }
                first = first == null ? one : first;
                next = next == null && (seat == null || one.number > seat.number) ? one : next;
            }
            return isFree ? seat : next == null ? first : next;
        }
    }
}

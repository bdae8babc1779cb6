"""Searches with chosen schedules, and traces a violation to the few switches that it needs.

Beside `recorder.py` and `schedule.py`; the recorder loads both if chosen schedules are asked for.
"""

import dataclasses
import os

# schedule.py and schedule_locks.py, under the names that the recorder gives them.
import fifobench_schedule as schedule
import fifobench_schedule_locks as locks

MOST_RUNS = 300    # of a search, unless its options say more or fewer
MOST_REPLAYS = 150    # in each of four rounds in which operations or switches are left out
MOST_SWITCHES = 6    # a trace with more is tried to be had with fewer
MOST_FEW = 200    # tries
MOST_LIVELOCKS = 10    # the same of a livelock, which takes long


@dataclasses.dataclass
class Made:
    """A run that was made."""

    options: object
    history: object
    switches: list
    outcome: str    # deadlock, livelock or None
    planned: dict    # its operations in their order, by thread and number, and whether they are enqueues
    wanted: set = dataclasses.field(default_factory=set)    # the keys of switches that were left

    def text(self):
        return self.history.text()


def run(recorder, options, queue):
    """Makes one run over a queue, or over one that is made."""
    with locks.Patches():
        if isinstance(queue, type) or not hasattr(queue, "enqueue"):
            with locks.making():
                queue = queue()
        return recorder._run_with(options, queue, schedule.scheduler_of(options))


class Search:
    """One search: the runs of its seeds, and the same runs with given switches."""

    def __init__(self, recorder, options, make_queue):
        self.recorder = recorder
        self.options = options
        self.make_queue = make_queue
        self.settings = schedule.settings_of(options.schedule)

    def answer(self):
        """Makes the runs until one isn't right, and says what was found."""
        options, recorder = self.options, self.recorder
        options.check()
        runs = options.runs or int(os.environ.get("FIFOBENCH_RUNS") or MOST_RUNS)
        first = int(os.environ.get("FIFOBENCH_SEED") or options.seed)
        is_judged = recorder._judge.is_found(options)
        events = 0
        progress = recorder._judge.Progress()
        with locks.Patches():
            for seed in range(first, first + runs):
                progress.show(seed - first, first + runs - seed)
                made = self.make(seed)
                events += 2 * len(made.history.operations())
                try:
                    answer = self._judge(made, is_judged)
                except OSError as error:
                    recorder._judge.say(str(error))
                    answer = recorder.Answer.WRONG
                if answer != recorder.Answer.NO_VIOLATION:
                    break
            else:
                answer = recorder._judge.tell_none(options, is_judged, first, runs, ", with chosen schedules")
        recorder._judge.tell_kept(options, answer, is_judged, seed + 1 - first, events)
        return answer

    def make(self, seed, switches=None, skipped=(), few=None, is_again=False):
        """Makes the run of a seed, perhaps again; with given switches or a number of another schedule that has few, and
        without some operations."""
        drawn = schedule.draw(self.settings, seed, self.options.operations)
        options = dataclasses.replace(self.options, seed=seed, operations=drawn.operations)
        with locks.making():
            queue = self.make_queue()
        if few is not None:
            drawn, seed = dataclasses.replace(drawn, strategy="few"), few
        scheduler = schedule.Scheduler(self.settings, drawn, seed, options.threads, switches)
        scheduler.is_again = is_again
        scheduler.skipped = skipped
        history = self.recorder._run_with(options, queue, scheduler)
        return Made(options, history, scheduler.made, scheduler.outcome, scheduler.planned)

    def _judge(self, made, is_judged):
        recorder, history = self.recorder, made.history
        if history.answer is not None:    # its threads are left where they block
            return history.answer
        if history.failures:
            ending = self.kind(made)
            tell_again = (lambda _: self._tell_again(made, ending)) if is_judged else None
            return recorder._judge.end_early(made.options, history, tell_again)
        if not is_judged or self.options.keep:
            recorder._judge.keep(made.options, "history", history.text())
        if not is_judged:
            return recorder.Answer.NO_VIOLATION
        return recorder._judge.judge_text(made.options, history.text(), lambda kind: self._tell_again(made, kind))

    def kind(self, made):
        """What is wrong with a run, in few words; YES if nothing is."""
        if made.outcome:
            return made.outcome
        if made.history.failures:
            return "an exception" if made.history.has_ended else "a hang"
        return self.recorder._judge.verdict_on(made.options, made.text())

    def signature(self, made):
        """The kind of a run, and if no thread gets on, which calls are open: equal if two runs show the same."""
        return self.kind(made), frozenset(call[2] for call in made.history._open_calls()) if made.outcome else None

    def _tell_again(self, made, kind):
        """Makes the run again, leaves out switches, and prints what is left."""
        seed = made.options.seed
        if self.make(seed, is_again=True).text() != made.text():
            print(f"  again:   seed {seed} made another run the second time: something but the schedule plays a part, "
                  "as clocks, addresses (id, hash), input, or threads of the queue's own", flush=True)
            return
        small = self.smallest(made, kind)
        lines = Trace(self, small, kind).lines()
        path = os.path.join(made.options.folder, f"{seed}.trace")
        with open(path, "w", encoding="utf-8", newline="\n") as to:
            to.writelines(f"{line}\n" for line in lines)
        print(f"  trace:   {path}")
        for line in lines:
            print(f"    {line}")
        print(f"  again:   FIFOBENCH_SEED={seed} in the environment, or --seed {seed} replays this very run",
              flush=True)

    def smallest(self, made, kind):
        """The run with as few of its operations, and then of its switches, as show the same kind of violation."""
        small = _Smallest(self, made, kind)
        small.leave_out()
        if len(small.switches) > MOST_SWITCHES:
            small.try_few()
        return small.best


class _Smallest:
    """Leaves out operations and switches of a run, while the same kind of violation is left."""

    def __init__(self, search, made, kind):
        self.search = search
        self.kind = kind
        self.signature = search.signature(made)
        self.best = made
        self.switches = made.switches
        self.operations = list(made.planned)
        self.planned = set(self.operations)
        self.most = MOST_REPLAYS if kind != "livelock" else MOST_LIVELOCKS
        self.left = 0    # replays of the round

    def leave_out(self):
        for _ in range(2):
            self.leave_out_operations()
            self.leave_out_switches()

    def try_few(self):
        """Tries schedules of few switches over the operations that are left, and takes the first that shows it."""
        best, switches = self.best, self.switches
        for number in range(MOST_FEW if self.kind != "livelock" else 0):
            if self._shows(self.operations, None, number):
                self.switches = self.best.switches
                self.leave_out()
                break
        if len(self.switches) > len(switches):
            self.best, self.switches = best, switches

    def _shows(self, operations, switches, few=None):
        self.left -= 1
        skipped = self.planned.difference(operations)
        made = self.search.make(self.best.options.seed, switches, skipped, few, is_again=True)
        if self.search.signature(made) != self.signature:
            return False
        self.best = made
        return True

    def leave_out_operations(self):
        """What comes last is left out first.

        Where dequeues alone wait, each enqueue stays, and the other way round: else a run would be left in which they
        wait for nothing.
        """
        waiting = self.signature[1] or ()
        stays = {"call-deq": True, "call-enq": False}[min(waiting)] if len(waiting) == 1 else None
        fixed = [key for key, is_enqueue in self.best.planned.items() if is_enqueue is stays]
        free = [key for key, is_enqueue in self.best.planned.items() if is_enqueue is not stays]
        self.operations = fixed + self._fewest(free, lambda some: self._shows(fixed + some, self.switches))

    def leave_out_switches(self):
        self.switches = self._fewest(self.best.switches, lambda switches: self._shows(self.operations, switches))
        self.best.wanted = {switch.key for switch in self.switches}

    def _fewest(self, items, shows):
        """Leaves out items from the last to the first, many at once and then fewer."""
        self.left = self.most
        if shows([]):
            return []
        size = len(items)
        while size > 0:
            end = len(items)
            while end > 0 and self.left > 0:
                rest = items[:max(0, end - size)] + items[end:]
                if rest and shows(rest):
                    items = rest
                end -= size
            size //= 2
        return items


_TELLS = {"call-deq": "calls dequeue", "ret-enq": "returns: the value is enqueued",
          "ret-not": "returns: the enqueue has failed", "ret-empty": "returns: the queue is empty"}


class Trace:
    """The switches of a run as sentences, between the calls and returns of the operations that `shrink` keeps."""

    def __init__(self, search, made, kind):
        self.search = search
        self.made = made
        self.kind = kind

    def _events(self):
        """The kept events. Of a run without an end the calls that have no return."""
        made = self.made
        if not made.history.is_complete:
            return [(ticket, thread, what, value) for ticket, thread, what, value in made.history._open_calls()]
        report, _ = self.search.recorder._judge.ask(made.options, "shrink", made.text())
        events = []
        for line in report.splitlines():
            words = line.split()
            if words[0] == "end":
                break
            if len(words) > 2 and words[2].startswith(("call-", "ret-")):
                events.append((int(words[0]), int(words[1]), words[2], words[3] if len(words) > 3 else None))
        return events

    def _switches(self):
        """The switches, without those to and from threads that make no operation."""
        busy = {thread for thread, _ in self.made.history.operations()}
        kept, came_from = [], None
        for switch in self.made.switches:
            if switch.thread in busy:
                came_from = switch
            if came_from is not None and switch.to in busy:
                if switch.to != came_from.thread:
                    came_from.to = switch.to
                    kept.append(came_from)
                came_from = None
        return kept

    def lines(self):
        events = self._events()
        first = min((event[0] for event in events), default=0)
        last = max((event[0] for event in events), default=0) if self.made.history.is_complete else float("inf")
        told = [((ticket, 1), self._told_event(thread, what, value)) for ticket, thread, what, value in events]
        kept = [switch for switch in self._switches()
                if switch.key in self.made.wanted or first < switch.ticket <= last]
        told += [((switch.ticket, 0), self._told_switch(switch)) for switch in kept]
        told.sort(key=lambda one: one[0])
        count = sum(switch.why != "leaves" for switch in kept)
        count = f"{count} switch{'es' if count != 1 else ''}"
        operations, seed = len(self.made.history.operations()), self.made.options.seed
        head = f"{self.kind} with {count}, in a run of {operations} operations that is left of seed {seed}:"
        return [head] + [f"  {line}" for _, line in told]

    @staticmethod
    def _told_event(thread, what, value):
        if what == "call-enq":
            return f"thread {thread} calls enqueue of {value}"
        if what == "ret-deq":
            return f"thread {thread} returns: {value} is dequeued"
        return f"thread {thread} {_TELLS[what]}"

    def _told_switch(self, switch):
        then = f"thread {switch.to} goes on"
        where = schedule.told_place(switch.where)
        if switch.why == "waits" and switch.where is None:
            return f"thread {switch.thread} has made its operations: {then}"
        if switch.why == "between":
            return f"thread {switch.thread} is between two operations: {then}"
        if switch.why == "leaves":
            return f"thread {switch.thread} has made its operations: {then}"
        does = {"point": "stops before", "waits": "waits at", "spins": "spins at"}[switch.why]
        return f"thread {switch.thread} {does} {where}: {then}"

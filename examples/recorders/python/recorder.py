"""Records what threads do with a FIFO queue, and searches for a run that no FIFO queue can have made.

Python 3.8 or later with its standard library, this file and recorder_judge.py beside it. In a test:

    import recorder

    class Mine:
        def __init__(self):
            self.queue = MyQueue()

        def enqueue(self, value):
            return self.queue.push(value)    # False: the queue is full; anything else: it took the value

        def dequeue(self):
            return self.queue.pop()    # None: the queue is empty

    def test_my_queue_is_linearizable():
        assert recorder.search(recorder.Options(), Mine) == recorder.Answer.NO_VIOLATION

With the environment variable FIFOBENCH=/path/to/fifobench this makes 100 short runs, each over a fresh queue, and
judges each. A loop of your own is recorded by `record`. docs/RECORDING.md has the rules that this module keeps.

The interpreter's lock lets one thread run at a time, and hides most faults: threads change places between two steps of
the interpreter alone, which this module lets them do often. It pays on a build without that lock (3.13's free-threaded
build and later), and over a queue in another language that gives the lock up. With `schedule.py` beside this file and
FIFOBENCH_SCHEDULE=1 in the environment the seed chooses where threads change places; that file says how.

A queue may also have `preload(value)`, which puts an initial value in (else `enqueue` does), and `enter(thread)` and
`leave(thread)`, which are called in each thread before the common start and after its last operation.
"""

import contextlib
import dataclasses
import importlib.util
import itertools
import os
import sys
import threading
import time

MAX_THREADS = 64
MAX_OPERATIONS = 1_000_000
MAX_EVENTS = 2_000_000
MAX_INITIAL = 100_000
PATTERNS = ("alternate", "mix", "bursts", "roles")


def _beside(name):
    """The module of this name that lies beside this file."""
    path = os.path.join(os.path.dirname(os.path.abspath(__file__)), f"{name}.py")
    spec = importlib.util.spec_from_file_location(f"fifobench_{name}", path)
    module = sys.modules[spec.name] = importlib.util.module_from_spec(spec)
    spec.loader.exec_module(module)
    return module


_judge = _beside("recorder_judge")
Answer = _judge.Answer


@dataclasses.dataclass
class Options:
    """The settings of a run and of a search."""

    threads: int = 4    # 1 to 64
    operations: int = 0    # of each thread; 0: by the seed, 500, 100 or 2,500
    # alternate: enqueue, dequeue, ..; mix: by chance; bursts: 1 to 32 enqueues and then as many dequeues; roles: those
    # of even number enqueue and the others dequeue. None: the four take turns by seed.
    pattern: str = None
    producers: int = 0    # threads 0 to producers - 1 enqueue and the others dequeue; 0: by the pattern
    percent: int = 50    # enqueues of a hundred operations, for mix
    seed: int = 1    # of the run, or of the first run of a search
    runs: int = None    # how many a search makes at most; None: 100, or 300 with chosen schedules
    timeout: float = 30.0    # seconds; a run without an event for so long is given up as hanging
    first: int = 0    # added to n; 1 for a queue that takes 0 for "nothing"
    value: object = None    # the value of a thread's operation n, a function (thread, n); None: thread * 2**32 + n
    initial: int = 0    # how many values the queue is given before: those of a thread 64, as a rule 2**38, ..
    drain: bool = True    # take values out after the threads have ended, until the queue says that it is empty
    # Whether events reach FOLDER/SEED.pending while the run goes on, so that a killed run leaves them.
    journal: bool = False
    keep: bool = False    # a search keeps the histories without a violation too
    # What a history has to meet: linearizable; local: the values of each producer alone are in order; weak-empty: an
    # empty dequeue promises nothing; both.
    condition: str = "linearizable"
    overtaken_at_most: int = None    # more values that one dequeue overtakes are a violation; None: by the condition
    folder: str = "fifobench-runs"    # where histories and reports are kept
    program: str = None    # else that of the environment variable FIFOBENCH, else fifobench on the PATH
    # Whether the seed chooses how threads interleave, by schedule.py beside this file: True, False, or a dict of its
    # settings. None: yes if the environment has FIFOBENCH_SCHEDULE=1.
    schedule: object = None

    def pattern_of(self, seed):
        """The pattern of a seed."""
        return self.pattern or ("roles" if self.producers else PATTERNS[(seed + 3) % 4])

    def operations_of(self, seed):
        """The number of operations of each thread for a seed.

        Unless it is set, seeds 1 to 4 have 500, 5 to 8 have 100, 9 to 12 have 500, and 13 to 16 have 2,500, which let a
        ring of 1,024 places go round; and so on.
        """
        return self.operations or (2_500, 500, 100, 500)[(seed + 3) // 4 % 4]

    def of_run(self, seed):
        """The settings of the run of a seed."""
        return dataclasses.replace(self, seed=seed, operations=self.operations_of(seed))

    def initial_values(self):
        """The values that the queue holds first. Before a loop of your own you put them in, in this order."""
        return [self.value_of(MAX_THREADS, place) for place in range(self.initial)]

    def value_of(self, thread, n):
        """The value of operation n of a thread, and initial value n with the thread 64."""
        return self.value(thread, n) if self.value else (thread << 32) + n

    def check(self):
        """Raises ValueError if a setting is out of its range."""
        if not 1 <= self.threads <= MAX_THREADS:
            raise ValueError(f"1 to {MAX_THREADS} threads")
        if self.operations < 0 or self.threads * self.operations_of(self.seed) > MAX_OPERATIONS:
            raise ValueError(f"at most {MAX_OPERATIONS} operations of all threads")
        if not 0 <= self.producers < self.threads or self.producers and self.pattern_of(0) != "roles":
            raise ValueError("fewer producers than threads, with the pattern roles")
        if not 0 <= self.percent <= 100:
            raise ValueError("at most 100 percent are enqueues")
        if not 0 <= self.initial <= MAX_INITIAL:
            raise ValueError(f"at most {MAX_INITIAL} initial values")
        if self.pattern is not None and self.pattern not in PATTERNS:
            raise ValueError(f'no pattern "{self.pattern}": alternate, mix, bursts or roles')
        if self.condition not in _judge.FLAGS:
            raise ValueError(f'no condition "{self.condition}": linearizable, local, weak-empty or both')


def _tickets():
    """A function that draws the next ticket, atomic with the interpreter's lock and without it."""
    count = itertools.count()
    if getattr(sys, "_is_gil_enabled", lambda: True)():
        return count.__next__
    lock = threading.Lock()

    def draw():
        with lock:
            return next(count)

    return draw


class Thread:
    """What one thread records. Only that thread may use it."""

    def __init__(self, options, draw, number):
        self.number = number    # from 0
        self.failure = None
        self.seat = None    # with chosen schedules, what schedule.py knows of the thread
        self._options = options
        self._draw = draw
        self._asked = 0
        self._events = []

    # The ticket is drawn first: of a call that is before the queue is asked, of a return after it has answered.
    def _note(self, what, value):
        ticket = self._draw()
        if ticket >= MAX_EVENTS:
            raise ValueError(f"a history has at most {MAX_EVENTS} events")
        self._events.append((ticket, self.number, what, value))

    def enqueue(self, call):
        """Calls `call(value)` with a value that no other call has. If that gives False, the queue was full."""
        value = self._options.value_of(self.number, self._asked + self._options.first)
        self._asked += 1
        self._note("call-enq", value)
        taken = self._call(call, value) is not False
        self._note("ret-enq" if taken else "ret-not", None)
        self._end_operation()
        return taken

    def dequeue(self, call):
        """Calls `call()`, which gives the value that the queue gave, or None if it said that it is empty."""
        self._asked += 1
        self._note("call-deq", None)
        found = self._call(call)
        self._note("ret-empty" if found is None else "ret-deq", found)
        self._end_operation()
        return found

    def _call(self, call, *words):
        return call(*words) if self.seat is None else self.seat.inside(call, *words)

    def _end_operation(self):
        if self.seat is not None:
            self.seat.ended()

    def _skips(self, is_enqueue):
        """Whether a run that is made again does without this operation."""
        is_skipped = self.seat is not None and self.seat.scheduler.skips(self.seat, is_enqueue)
        self._asked += is_skipped
        return is_skipped


@contextlib.contextmanager
def _on_a_core(number):
    """Keeps the calling thread on one core, on Linux: thread 0 on the first that it may run on, and so on."""
    before = os.sched_getaffinity(0) if hasattr(os, "sched_setaffinity") else ()
    if len(before) > 1:
        os.sched_setaffinity(0, {sorted(before)[number % len(before)]})
    try:
        yield
    finally:
        if len(before) > 1:
            os.sched_setaffinity(0, before)


class _Start:
    """The common start: threads wait, for a bounded time, until all are there and two are seen to run at once.

    Each waits on a core of its own; then all begin, on any core. Under the interpreter's lock these are two that take
    turns within a few looks.
    """

    LOOKS = 200
    PASSES = 4
    ARRIVAL = 1.0    # seconds
    RUNNING = 0.1

    def __init__(self, threads):
        self.threads = threads
        self.arrived = set()
        self.last_by = 0
        self.is_open = threads == 1

    def meet(self, number):
        self.arrived.add(number)
        if self._turns(self.ARRIVAL, lambda: len(self.arrived) == self.threads, 1):
            self._turns(self.RUNNING, lambda: self._passes(number), self.PASSES)
        self.is_open = True

    def _passes(self, number):
        other, self.last_by = self.last_by, number
        return other != number

    def _turns(self, seconds, is_seen, often):
        """Whether the start is open, or what is looked for was seen so often in one turn of looks."""
        end = time.monotonic() + seconds
        while time.monotonic() < end:
            if self._is_seen_in_a_turn(is_seen, often):
                return True
            time.sleep(0)
        return False

    def _is_seen_in_a_turn(self, is_seen, often):
        seen = 0
        for _ in range(self.LOOKS):
            seen += is_seen()
            if self.is_open or seen >= often:
                return True
        return False


def _is_call(event):
    return event[2] in ("call-enq", "call-deq")


def _head(name, initial):
    """Returns the lines before the events of a text."""
    if not initial:
        return f"{name} 1\n"
    return f"{name} 2\ninitial {len(initial)}\n" + "".join(f"{value}\n" for value in initial)


def _line(event):
    ticket, thread, what, value = event
    return f"{ticket} {thread} {what}\n" if value is None else f"{ticket} {thread} {what} {value}\n"


class History:
    """What was recorded: the events of all threads, by ticket."""

    def __init__(self, events, initial, failures, ending):
        self._events = events
        self._initial = initial
        self.failures = failures    # what went wrong: exceptions in threads, or that the run hung
        self.ending = ending    # None, or how the run ended early: hang, exception, deadlock or livelock
        self.has_ended = ending != "hang"    # False: it hung, and what there was is kept in the folder
        self.is_complete = not self._open_calls()    # False: `write` writes a pending text
        self.answer = None    # what was said of a run that hung

    def _open_calls(self):
        calls = {}
        for event in self._events:
            calls[event[1]] = event if _is_call(event) else None
        return [calls[thread] for thread in sorted(calls) if calls[thread]]

    def _lines(self):
        yield _head("fifo-history" if self.is_complete else "fifo-pending", self._initial)
        yield from map(_line, self._events)
        if not self.is_complete:
            yield f"open {len(self._open_calls())}\n"
        yield f"end {len(self._events)}\n"

    def text(self):
        """Returns the text of the history."""
        return "".join(self._lines())

    def write(self, to):
        """Writes the text of the history to a text file."""
        to.writelines(self._lines())
        to.flush()

    def operations(self):
        """The thread of each operation, and its number there from 0 on, in the order of the calls."""
        made = {}
        return [(event[1], made.setdefault(event[1], itertools.count()).__next__()) for event in self._events
                if _is_call(event)]

    def overlapping(self):
        """How many operations there are, and how many of them overlap another."""
        open_now, met, overlapping = set(), set(), 0
        for event in self._events:
            thread = event[1]
            if _is_call(event):
                if open_now:
                    met |= open_now | {thread}
                open_now.add(thread)
            else:
                overlapping += thread in met
                met.discard(thread)
                open_now.discard(thread)
        return len(self._events) // 2, overlapping

class _Journal:
    """The events of a run in a file, a few milliseconds after they are noted."""

    def __init__(self, run_of):
        self.threads = run_of.threads
        self.places = [0] * len(self.threads)    # the next event of each thread
        self.ticket = 0    # of the next event
        self.path = _judge.keep(run_of.options, "pending", _head("fifo-pending", run_of.initial))
        self.file = open(self.path, "a", encoding="ascii", newline="\n")

    def _next(self):
        """Returns the next event, or None if it isn't there yet. Tickets have no gap, so some thread has it next."""
        for number, thread in enumerate(self.threads):
            place = self.places[number]
            if place < len(thread._events) and thread._events[place][0] == self.ticket:
                self.places[number] += 1
                self.ticket += 1
                return thread._events[place]
        return None

    def write(self):
        self.file.writelines(map(_line, iter(self._next, None)))
        self.file.flush()

    def remove(self):
        self.file.close()
        os.remove(self.path)


def _nothing(number):
    """What is called in each thread if the queue asks for nothing."""


class _Run:
    """One run: its threads, and what went wrong."""

    def __init__(self, options, initial, scheduler=None):
        options.check()
        self.options = options
        self.initial = initial
        self.draw = _tickets()
        self.threads = [Thread(options, self.draw, number) for number in range(options.threads)]
        self.scheduler = scheduler    # with chosen schedules
        self.start = _Start(len(self.threads))
        self.ended = set()
        self.failures = []
        self.has_failed = False
        self.ending = None
        self.journal = None

    def _make_steps(self, thread, work, queue):
        """What one thread does; the first one drains when all have ended."""
        try:
            if self.scheduler is not None:
                self.scheduler.enter(thread)
            getattr(queue, "enter", _nothing)(thread.number)
            if self.scheduler is None:
                with _on_a_core(thread.number):
                    self.start.meet(thread.number)
            work(thread)
            self.ended.add(thread.number)
            if queue and thread.number == 0 and self.options.drain and self._have_all_ended():
                self._drain(queue)
            getattr(queue, "leave", _nothing)(thread.number)
        except BaseException as failure:
            thread.failure = failure
            self.has_failed = True
        finally:
            if self.scheduler is not None:
                self.scheduler.leave(thread)

    def _have_all_ended(self):
        """Stays until all threads have made their operations; False if one failed."""
        if self.scheduler is not None:
            self.scheduler.wait_for_others(self.threads[0].seat)
        while len(self.ended) < len(self.threads) and not self.has_failed:
            time.sleep(5e-5)
        return not self.has_failed

    def go(self, work, queue):
        """Runs the threads, waits until they have ended or the time is over, and returns what they recorded."""
        running = [threading.Thread(target=self._make_steps, args=(thread, work, queue), daemon=True)
                   for thread in self.threads]
        self.journal = _Journal(self) if self.options.journal else None
        with self._taking_turns() if self.scheduler is None else self.scheduler.going_on(self):
            self._wait(running)
        if self.journal is not None:
            self.journal.remove()
        self.failures = [f"exception: thread {thread.number} raised {thread.failure!r}" for thread in self.threads
                         if thread.failure and (self.scheduler is None or not self.scheduler.is_over)]
        if self.failures:
            self.ending = self.ending or "exception"
        if self.scheduler is not None and self.scheduler.outcome:
            self.ending = self.scheduler.outcome
            self.failures.append(self.scheduler.told_outcome(self.history()._open_calls()))
        if self.ending == "hang":
            self.has_failed = True
            self.failures.insert(0, f"hang: no event for {self.options.timeout:g} s")
            if self.scheduler is not None:
                self.failures.append(self.scheduler.told_block())
        history = self.history()
        if self.ending == "hang":
            history.answer = _judge.end_early(self.options, history)
        return history

    @contextlib.contextmanager
    def _taking_turns(self):
        """Lets the interpreter's threads take turns as often as it can."""
        interval = sys.getswitchinterval()
        sys.setswitchinterval(1e-5)
        try:
            yield
        finally:
            sys.setswitchinterval(interval)

    def _wait(self, running):
        """Stays until all have ended, or no event comes for the time of the options."""
        for thread in running:
            thread.start()
        if self.scheduler is not None:
            self.scheduler.open()
        seen, since = 0, time.monotonic()
        while running and time.monotonic() - since < self.options.timeout:
            running[0].join(0.05 if self.journal is None else 0.005)
            if self.journal is not None:
                self.journal.write()
            running = [thread for thread in running if thread.is_alive()]
            events = sum(len(thread._events) for thread in self.threads)
            if events != seen:
                seen, since = events, time.monotonic()
        self.ending = "hang" if running else None

    def history(self):
        """While threads run, the events up to the first that isn't there yet."""
        events = [event for thread in self.threads for event in list(thread._events)]
        events.sort(key=lambda event: event[0])
        # Tickets are drawn from 0 on, so a ticket is its event's place.
        whole = [event for place, event in enumerate(events) if event[0] == place]
        return History(whole, self.initial, self.failures, self.ending)

    def _drain(self, queue):
        """Takes out what is left, until the queue says that it is empty or has given more values than went in."""
        kinds = [event[2] for thread in self.threads for event in thread._events]
        left = max(0, len(self.initial) + kinds.count("ret-enq") - kinds.count("ret-deq"))
        room = MAX_OPERATIONS - len(kinds) // 2
        for _ in range(min(left + 1, room)):
            if self.threads[0].dequeue(queue.dequeue) is None:
                return
        told = "the queue gave more values than went in"
        if room <= left:
            told = f"a history has at most {MAX_EVENTS} events, and the drain stopped there"
        if self.scheduler is None or not self.scheduler.is_again:
            _judge.say(f"seed {self.options.seed}: {told}")


def record(threads, operations, work, **settings):
    """Runs `work(thread)` in each of the threads, which begin together, and gives what they recorded.

    There is no drain, no pattern and no chosen schedule. `settings` are those of Options; with initial values the
    history says that the queue holds `Options.initial_values` first: put them in before. If a call raises an exception,
    its thread ends and the others go on; if the run hangs, what there is is kept in the folder, and the threads that
    hang are left. In both cases the history has failures.
    """
    options = Options(threads=threads, operations=operations, **settings)
    return _Run(options, options.initial_values()).go(work, None)


def run(options, queue):
    """One run over this queue, by the pattern of the seed.

    With chosen schedules it may be what makes the queue, so that the locks which are made then give way.
    """
    chosen = _chosen(options)
    if chosen is not None:
        return chosen.run(sys.modules[__name__], options, queue)
    return _run_with(options, queue, None)


def _run_with(options, queue, scheduler):
    options = options.of_run(options.seed)
    run_of = _Run(options, options.initial_values(), scheduler)
    for value in run_of.initial:
        if getattr(queue, "preload", queue.enqueue)(value) is False:
            raise ValueError(f"the queue has no room for the initial value {value}")

    def make_operations(thread):
        for is_enqueue in _plan(options, thread.number):
            if thread._skips(is_enqueue):
                continue
            if is_enqueue:
                thread.enqueue(queue.enqueue)
            else:
                thread.dequeue(queue.dequeue)

    return run_of.go(make_operations, queue)


def _words(state):
    """SplitMix64."""
    mask = 2**64 - 1
    while True:
        state = (state + 0x9E3779B97F4A7C15) & mask
        z = ((state ^ (state >> 30)) * 0xBF58476D1CE4E5B9) & mask
        z = ((z ^ (z >> 27)) * 0x94D049BB133111EB) & mask
        yield z ^ (z >> 31)


def _plan(options, thread):
    """What one thread does: True is an enqueue."""
    words = _words((options.seed * MAX_THREADS + thread) & (2**64 - 1))
    pattern = options.pattern_of(options.seed)
    if pattern == "mix":
        return [next(words) % 100 < options.percent for _ in range(options.operations)]
    if pattern == "bursts":
        plan = []
        while len(plan) < options.operations:
            length = 1 + next(words) % 32
            plan += [True] * length + [False] * length
        return plan[:options.operations]
    if options.producers:
        return [thread < options.producers] * options.operations
    if pattern == "roles" and options.threads > 1:
        return [thread % 2 == 0] * options.operations
    return [n % 2 == 0 for n in range(options.operations)]


_modules = {}    # those of the schedule, once they are loaded


def _chosen(options):
    """The module schedule_search.py beside this one, if chosen schedules are asked for; else None."""
    is_asked = options.schedule
    if is_asked is None:
        is_asked = os.environ.get("FIFOBENCH_SCHEDULE", "") not in ("", "0")
    if is_asked is False:
        return None
    for name in () if _modules else ("schedule_locks", "schedule", "schedule_search"):
        _modules[name] = _beside(name)
    files = (module.__file__ for module in (_judge, *_modules.values()))
    _modules["schedule"].leave_out(*files, _chosen.__code__.co_filename)
    return _modules["schedule_search"]


def search(options, make_queue):
    """Makes runs, each over a fresh queue, and judges each with `fifobench check`, until one is a violation.

    What it found is said on standard output. The first violation is kept in the folder: the history, and the report of
    `fifobench shrink`. If no program is found, nothing is judged, and every history is kept.
    """
    chosen = _chosen(options)
    if chosen is not None:
        return chosen.Search(sys.modules[__name__], options, make_queue).answer()
    options.check()
    found = _judge.Found(options.runs or 100, _judge.is_found(options))
    _judge.name_killed(options, found.runs)
    progress = _judge.Progress()
    for seed in range(options.seed, options.seed + found.runs):
        progress.show(seed - options.seed, options.seed + found.runs - seed)
        answer = found.answer(options.of_run(seed), lambda of_run: run(of_run, make_queue()))
        if answer != Answer.NO_VIOLATION:
            break
    else:
        answer = _judge.tell_none(options, found.is_judged, options.seed, found.runs, found.told())
    _judge.tell_kept(options, answer, found.is_judged, seed + 1 - options.seed, 2 * found.operations)
    return answer

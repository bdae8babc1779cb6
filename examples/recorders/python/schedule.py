"""Chooses how the threads of a recorded run interleave, so that a seed fixes the run and not its plan alone.

Put this file, `schedule_locks.py` and `schedule_search.py` beside `recorder.py`, and set FIFOBENCH_SCHEDULE=1 or
`Options(schedule=True)`. The queue stays as it is. One thread runs at a time. Before each step of the interpreter that
can touch what threads share (an attribute, an item, a global, a call) a thread may be stopped, and another one goes on:
by `sys.settrace` or, from 3.12 on, by `sys.monitoring`. The seed draws a strategy, its rates, and the number of
operations of each thread, at most 64.

    naps    operations run whole, in an order by chance; now and then a thread is stopped within one, and sleeps until
            1 to 32 operations of others have ended
    walk    at 1 point of 3 to 300, by chance, another thread goes on
    pct     threads have priorities by chance, and at depth - 1 points of a round the running one becomes the last
            (Burckhardt, Kothari, Musuvathi, Nagarakatte, ASPLOS 2010, here in rounds of some operations)

`Options(schedule={"strategy": "pct", "depth": 3})` fixes what `Settings` has; what isn't fixed is drawn.

Locks that are made while the queue is made or called give way: threading.Lock and RLock, and with them Condition,
Event, Semaphore, Barrier and queue.Queue, under any name by which a module has imported them. time.sleep and waits with
a timeout go by a clock of the run: a wait is over when no other thread can run, or by the draw. If no thread can run
the run is a deadlock; if a bound of points passes without an operation that ends, it is a livelock.

Not covered: what an extension module does is one step, and if it blocks (queue.SimpleQueue.get, a socket, a process)
the run is given up after the timeout of the options, with a line that says where. So do locks that were made before the
search: at the import of a module that was imported before the recorder. Threads of the queue's own run free. Code of
the module threading itself is one step between its locks. A debugger or coverage sees nothing of the queue's calls.
"""

import contextlib
import dataclasses
import dis
import gc
import os
import sys
import threading

import fifobench_schedule_locks as locks    # schedule_locks.py, under the name that the recorder gives it

STRATEGIES = ("naps", "walk", "pct")
RATES = (3, 5, 10, 20, 50, 100, 300)    # walk: one of this many points
MOST_OPERATIONS = 64
MOST_NAP = 6    # a nap lasts until at most 2**5 operations of others have ended
SPINS = 200    # points of one thread within an operation after which others have their turn
REPLAY_SPINS = 1000    # the same while given switches are made again
EXPIRES = 16    # a timed wait is over early at one of this many choices


@dataclasses.dataclass
class Settings:
    """Settings of the schedules; None or 0: drawn from the seed."""

    strategy: str = None    # naps, walk or pct
    one_in: int = 0    # walk: another thread goes on at 1 point of this number
    depth: int = 0    # pct
    operations: int = 0    # of each thread
    patience: int = 100_000    # points without an operation that ends: the run is a livelock


class Chance:
    """Draws from a seed, by SplitMix64."""

    def __init__(self, state):
        self.state = state & (2**64 - 1)

    def below(self, bound):
        mask = 2**64 - 1
        self.state = (self.state + 0x9E3779B97F4A7C15) & mask
        z = ((self.state ^ (self.state >> 30)) * 0xBF58476D1CE4E5B9) & mask
        z = ((z ^ (z >> 27)) * 0x94D049BB133111EB) & mask
        return (z ^ (z >> 31)) % bound


def settings_of(asked):
    """The settings that the options name, or the environment."""
    patience = os.environ.get("FIFOBENCH_PATIENCE") or Settings.patience
    settings = Settings(strategy=os.environ.get("FIFOBENCH_STRATEGY") or None, patience=int(patience))
    if isinstance(asked, dict):
        settings = dataclasses.replace(settings, **asked)
    if settings.strategy not in (None,) + STRATEGIES:
        raise ValueError(f'no strategy "{settings.strategy}": naps, walk or pct')
    return settings


@dataclasses.dataclass(frozen=True)
class Drawn:
    """What a seed has drawn."""

    strategy: str
    one_in: int
    depth: int
    operations: int


def draw(settings, seed, operations):
    """Draws the strategy of a seed, and how many operations each thread makes: 1/8, 1/4, 1/2 or all of the most."""
    chance = Chance(~seed * 64)    # no thread's plan begins there
    strategy = ("naps", "naps", "naps", "naps", "walk", "walk", "pct", "pct")[chance.below(8)]
    one_in = RATES[chance.below(len(RATES))]
    depth = 2 + chance.below(9)
    most = min(operations or MOST_OPERATIONS, MOST_OPERATIONS)
    share = max(min(most, 4), most >> chance.below(4))
    return Drawn(settings.strategy or strategy, settings.one_in or one_in, settings.depth or depth,
                 settings.operations or share)


class Abandoned(BaseException):
    """Ends a thread of a run that is over."""


class Switch:
    """One thread stopped at its point, and another went on."""

    __slots__ = ("key", "thread", "to", "why", "where", "ticket")

    def __init__(self, seat, to, why, where=None, ticket=0):
        self.thread = seat.number if seat else -1    # -1: the first thread began
        # Which operation of the thread, from 0, and the point within it; 0 is before its call.
        self.key = (self.thread, seat.operation, seat.point) if seat else (-1, 0, 0)
        self.to = to
        self.why = why    # point, between, spins, waits or leaves
        self.where = where    # file, line and function
        self.ticket = ticket    # of the event that came next


class _Naps:
    def __init__(self, scheduler, drawn):
        self.scheduler = scheduler
        self.factor = (1, 2, 4)[scheduler.chance.below(3)]

    def gap(self, seat):
        """Points until a thread falls asleep: on average once in `factor` operations."""
        scheduler = self.scheduler
        one_in = max(4, self.factor * scheduler.steps // (scheduler.ended + 1))
        return 1 + scheduler.chance.below(2 * one_in)

    def next(self, seat, why):
        scheduler = self.scheduler
        if why == "between" and scheduler.chance.below(2):
            return seat
        if why == "point":
            seat.wakes_at = scheduler.ended + 1 + scheduler.chance.below(1 << scheduler.chance.below(MOST_NAP))
        elif why == "spins":
            seat.spins = True
        return self._awake(scheduler.candidates(seat, why))

    def _awake(self, candidates):
        """One that is awake; if all sleep, the one that wakes up first, and those that spin last."""
        chance = self.scheduler.chance
        awake = [one for one in candidates if not one.spins and one.wakes_at <= self.scheduler.ended]
        if awake:
            return awake[chance.below(len(awake))]
        sleeping = [one for one in candidates if not one.spins]
        if sleeping:
            first = min(sleeping, key=lambda one: one.wakes_at)
            first.wakes_at = 0
            return first
        for one in candidates:
            one.spins = False
        return candidates[chance.below(len(candidates))] if candidates else None


class _Few(_Naps):
    """Threads make all their operations one after another, but for 1 to 3 naps: for a trace that a person can read."""

    def __init__(self, scheduler, drawn):
        super().__init__(scheduler, drawn)
        self.left = 1 + scheduler.chance.below(3)
        self.length = 1 + scheduler.chance.below(1 << (4 + scheduler.chance.below(9)))

    def gap(self, seat):
        return 1 + self.scheduler.chance.below(self.length) if self.left > 0 else SPINS

    def next(self, seat, why):
        if why == "point" and self.left <= 0 or why == "between" and not any(
                0 < one.wakes_at <= self.scheduler.ended for one in self.scheduler.seats if not one.has_ended):
            return seat
        self.left -= why == "point"
        for one in self.scheduler.seats:
            if 0 < one.wakes_at <= self.scheduler.ended:
                one.wakes_at = 0
        return super().next(seat, "waits" if why == "between" else why)


class _Walk:
    def __init__(self, scheduler, drawn):
        self.scheduler = scheduler
        self.one_in = drawn.one_in

    def gap(self, seat):
        return 1 + self.scheduler.chance.below(2 * self.one_in - 1)

    def next(self, seat, why):
        chance = self.scheduler.chance
        if why == "between" and chance.below(self.one_in):
            return seat
        candidates = self.scheduler.candidates(seat, why)
        return candidates[chance.below(len(candidates))] if candidates else None


class _Pct:
    """Priorities in rounds, in which each thread makes 1 to 8 operations; at some points the running one comes last."""

    MOST_QUOTA = 8

    def __init__(self, scheduler, drawn):
        self.scheduler = scheduler
        self.depth = drawn.depth
        self.began = self.lowest = 0
        self.length = 10 * self.MOST_QUOTA * len(scheduler.seats)
        self.changes = []
        self._begin()

    def _begin(self):
        """A round as long as the last one, by guess."""
        scheduler, chance = self.scheduler, self.scheduler.chance
        self.length = scheduler.steps - self.began or self.length
        self.began = scheduler.steps
        for seat in scheduler.seats:
            seat.priority = chance.below(1 << 30)
            seat.quota = 1 + chance.below(self.MOST_QUOTA)
        self.changes = sorted(self.began + 1 + chance.below(self.length) for _ in range(self.depth - 1))

    def gap(self, seat):
        return max(1, self.changes[0] - self.scheduler.steps) if self.changes else SPINS

    def next(self, seat, why):
        steps = self.scheduler.steps
        if why == "point" and not (self.changes and self.changes[0] <= steps):
            return seat
        if why in ("point", "spins"):
            self.changes = [change for change in self.changes if change > steps]
            self.lowest -= 1
            seat.priority = self.lowest
        elif why == "between":
            seat.quota -= 1
        candidates = self.scheduler.candidates(seat, "between" if why == "point" else why)
        if candidates and all(one.quota <= 0 for one in candidates):
            self._begin()
        able = [one for one in candidates if one.quota > 0]
        return max(able, key=lambda one: one.priority, default=None)


class _Replay:
    """Makes given switches again. Where a thread can't go on and none is given, the next one by number does."""

    def __init__(self, scheduler, switches):
        self.scheduler = scheduler
        self.to = {switch.key: switch.to for switch in switches}
        self.points = {}
        for thread, operation, point in sorted(self.to):
            self.points.setdefault((thread, operation), []).append(point)

    def gap(self, seat):
        for point in self.points.get((seat.number, seat.operation), ()):
            if point > seat.point:
                return point - seat.point
        return REPLAY_SPINS

    def next(self, seat, why):
        key = (seat.number, seat.operation, seat.point) if seat else (-1, 0, 0)
        wanted = self.to.get(key)
        if wanted is None and why in ("point", "between"):
            return seat
        if wanted is not None and self.scheduler.expire(self.scheduler.seats[wanted]):
            return self.scheduler.seats[wanted]
        candidates = self.scheduler.candidates(seat, "spins" if why == "spins" and wanted is None else "between")
        for one in candidates:
            if one.number == wanted:
                return one
        if seat in candidates and why in ("point", "between"):
            return seat
        after = seat.number if seat else -1
        return min(candidates, key=lambda one: (one.number <= after, one.number), default=None)


_OF_STRATEGY = {"naps": _Naps, "walk": _Walk, "pct": _Pct, "few": _Few}

# Instructions that touch nothing of another thread; no point is before them.
_OWN = ("CACHE", "RESUME", "NOP", "EXTENDED_ARG", "PRECALL", "KW_NAMES", "PUSH_NULL", "POP_TOP", "COPY", "SWAP",
        "LOAD_CONST", "LOAD_CLOSURE", "MAKE_CELL", "MAKE_FUNCTION", "COPY_FREE_VARS", "IS_OP", "PUSH_EXC_INFO",
        "CHECK_EXC_MATCH", "RERAISE", "LOAD_SMALL_INT", "NOT_TAKEN")
_OWN_KINDS = ("LOAD_FAST", "STORE_FAST", "DELETE_FAST", "JUMP", "POP_", "RETURN_", "DUP_", "ROT_", "SETUP_", "BUILD_",
              "UNARY_", "END_")


def _is_shared(opname):
    return opname not in _OWN and not opname.startswith(_OWN_KINDS)


def _points_of(code):
    """A byte for each place of the code: 1 where an instruction begins that may touch what threads share."""
    points = bytearray(len(code.co_code) + 2)
    for instruction in dis.get_instructions(code):
        points[instruction.offset] = _is_shared(instruction.opname)
    return bytes(points)


_ours = {__file__}    # the recorder's files


def leave_out(*files):
    """No point is in these files, nor in what they call but the queue."""
    _ours.update(files)


def _is_left_out(filename):
    return filename in _ours or filename == threading.__file__ or filename.startswith("<frozen")


def _place(frame):
    """The innermost file, line and function that is the queue's."""
    while frame is not None and _is_left_out(frame.f_code.co_filename):
        frame = frame.f_back
    return (frame.f_code.co_filename, frame.f_lineno, frame.f_code.co_name) if frame else None


def told_place(where):
    """The place as a sentence has it."""
    return f"{os.path.basename(where[0])}:{where[1]} ({where[2]})" if where else "the recorder's call"


class Seat:
    """What a scheduler knows of one thread."""

    __slots__ = ("scheduler", "number", "gate", "operation", "point", "stop_at", "seen", "since", "has_ended",
                 "waits_for", "deadline", "relaxes", "wakes_at", "spins", "priority", "quota", "tracers", "ident",
                 "is_inside", "is_expired")

    def __init__(self, scheduler, number):
        self.scheduler = scheduler
        self.number = number
        self.gate = locks.REAL["Lock"]()
        self.gate.acquire()
        self.operation = self.point = self.stop_at = 0
        self.seen = 0    # points of the operation that the scheduler has counted
        self.since = 0    # the point at which the thread went on
        self.has_ended = self.relaxes = self.spins = self.is_expired = self.is_inside = False
        self.waits_for = self.deadline = self.ident = None
        self.wakes_at = self.priority = 0
        self.quota = 1
        self.tracers = {}

    def inside(self, call, *words):
        """Makes a call of the queue, with points."""
        self.is_inside = True
        try:
            return _instructions.calls(self, call, words)
        finally:
            self.is_inside = False

    def ended(self):
        """An operation has ended."""
        self.scheduler.operation_ended(self)

    def step(self, frame=None):
        """A point before an instruction."""
        self.point += 1
        if self.point >= self.stop_at:
            self.scheduler.stop(self, frame or sys._getframe(2))

    def touch(self):
        """A point of the recorder's own, before a lock is taken."""
        self.step(sys._getframe(1))


class _Traced:
    """Points by `sys.settrace`."""

    def __init__(self):
        self._points = {}    # of each code that was called

    def calls(self, seat, call, words):
        previous = sys.gettrace()
        sys.settrace(lambda frame, event, argument: self._trace_call(seat, frame))
        try:
            return call(*words)
        finally:
            sys.settrace(previous)

    def _trace_call(self, seat, frame):
        code = frame.f_code
        caller = frame.f_back.f_code
        if _is_left_out(code.co_filename) or caller.co_filename in _ours and caller.co_name != "calls":
            return None
        frame.f_trace_lines = False
        frame.f_trace_opcodes = True
        found = seat.tracers.get(id(code))
        if found is None:
            points = self._points.get(code) or self._points.setdefault(code, _points_of(code))
            found = seat.tracers[id(code)] = (self._tracer(seat, points), code)
        return found[0]

    @staticmethod
    def _tracer(seat, points):
        def trace(frame, event, argument):
            if event == "opcode" and points[frame.f_lasti]:
                seat.point += 1
                if seat.point >= seat.stop_at:
                    seat.scheduler.stop(seat, frame)
            return trace

        return trace


class _Monitored:
    """Points by `sys.monitoring`, from Python 3.12 on; there `sys.settrace` gives other events the first time."""

    def __init__(self):
        self._points = {}    # of each code that was called, by its identity, with the code
        self._tool = next(number for number in (4, 3, 2, 1, 0) if sys.monitoring.get_tool(number) is None)
        events = sys.monitoring.events
        sys.monitoring.use_tool_id(self._tool, "fifobench")
        sys.monitoring.register_callback(self._tool, events.PY_START, self._start)
        sys.monitoring.register_callback(self._tool, events.INSTRUCTION, self._step)
        sys.monitoring.set_events(self._tool, events.PY_START)

    @staticmethod
    def calls(seat, call, words):
        return call(*words)

    def _start(self, code, offset):
        """A code is called. Its instructions are points from now on if it is the queue's."""
        if _is_left_out(code.co_filename):
            return sys.monitoring.DISABLE
        seat = locks.seats.get(threading.get_ident())
        if seat is None or not seat.is_inside:
            return None
        if id(code) not in self._points:
            self._points[id(code)] = (_points_of(code), code)
            sys.monitoring.set_local_events(self._tool, code, sys.monitoring.events.INSTRUCTION)
        return sys.monitoring.DISABLE

    def _step(self, code, offset):
        seat = locks.seats.get(threading.get_ident())
        if seat is not None and seat.is_inside and self._points[id(code)][0][offset]:
            seat.step()


_instructions = _Monitored() if hasattr(sys, "monitoring") else _Traced()


class Scheduler:
    """The schedule of one run."""

    def __init__(self, settings, drawn, seed, threads, switches=None):
        self.settings = settings
        self.chance = Chance(~seed * 64 + 1)
        self.tickets = lambda: 0    # how many tickets are drawn; the recorder's
        self.where = {}
        self.steps = self.ended = self.progress = 0
        self.clock = 1000.0
        self.seats = [Seat(self, number) for number in range(threads)]
        self.made = []
        self.running = self.seats[0]
        self.outcome = None    # deadlock or livelock
        self.has_foreign = False    # a thread of the queue's own takes locks
        self.is_over = False
        self.is_replay = switches is not None
        self.is_again = False    # nothing is said that was said before
        self.skipped = ()    # operations that aren't made, by thread and number
        self.planned = {}    # those that are made, in their order, and whether they are enqueues
        self.most_spins = REPLAY_SPINS if self.is_replay else SPINS
        self.strategy = _Replay(self, switches) if self.is_replay else _OF_STRATEGY[drawn.strategy](self, drawn)

    def enter(self, thread):
        """Called in a recorder's thread as it begins; returns when it is its turn."""
        seat = thread.seat = self.seats[thread.number]
        seat.ident = threading.get_ident()
        locks.seats[seat.ident] = seat
        self.take(seat)

    def leave(self, thread):
        """Called in the thread when it has made its last step."""
        locks.seats.pop(threading.get_ident(), None)
        self._leave(self.seats[thread.number])

    @contextlib.contextmanager
    def going_on(self, run):
        """The run goes on: its threads are on one core, locks know its scheduler, and no garbage is collected."""
        self.tickets = lambda: sum(len(thread._events) for thread in run.threads)
        locks.now[0] = self
        # The collector would call what has been left by other runs, at a point that isn't this run's.
        is_collecting = gc.isenabled()
        gc.disable()
        try:
            with locks.one_core(), locks.making(False):
                yield
        finally:
            locks.now[0] = None
            if is_collecting:
                gc.enable()

    def told_outcome(self, calls):
        """The sentence on a deadlock or a livelock, with the place of each thread."""
        told = []
        for _, thread, what, value in calls:
            call = f"enqueue of {value}" if what == "call-enq" else "dequeue"
            told.append(f"thread {thread} is inside {call} at {told_place(self.where.get(thread))}")
        why = {"deadlock": "no thread can run", "livelock": f"no operation ends in {self.settings.patience} points"}
        return f"{self.outcome}: {why[self.outcome]}: " + (", ".join(told) or "no thread is inside a call")

    def told_block(self):
        """The sentence on a call that blocks, though it has the turn."""
        where = self.places().get(self.running.number)
        self.abandon(self.running)
        return ("blocked outside of the schedule, as in an extension module or by a lock made before the search: "
                f"thread {self.running.number} at {told_place(where)}")

    def open(self):
        """Lets the first thread go, once all have been started."""
        first = self.strategy.next(None, "leaves")
        self.made.append(Switch(None, first.number, "leaves"))
        first.gate.release()

    def candidates(self, seat, why):
        """Those that can go on. The seat itself is among them at a point of its own choice, or if no other is."""
        stays = why == "between"
        able = [one for one in self.seats if not one.has_ended and one.waits_for is None and not one.relaxes
                and (stays or one is not seat)]
        waiting = [one for one in self.seats if one.deadline is not None and one.waits_for is not None]
        if waiting and (not able or not self.is_replay and self.chance.below(EXPIRES) == 0):
            first = min(waiting, key=lambda one: one.deadline)
            self.expire(first)
            able.append(first)
        if not able:
            able = [one for one in self.seats if one.relaxes and one is not seat and not one.has_ended]
        if not able and seat is not None and seat.waits_for is None and not seat.has_ended:
            able = [seat]
        return able

    def expire(self, seat):
        """Ends a wait whose time is over by now. False if the seat makes none."""
        if seat.deadline is None or seat.waits_for is None:
            return False
        self.clock = max(self.clock, seat.deadline)
        seat.waits_for = seat.deadline = None
        seat.is_expired = True
        return True

    def _count(self, seat):
        self.steps += seat.point - seat.seen
        seat.seen = seat.point
        if self.is_over:
            raise Abandoned
        if self.steps - self.progress > self.settings.patience:
            self._end("livelock", seat)

    def stop(self, seat, frame):
        """A point at which the strategy may let another thread go on."""
        self._count(seat)
        why = "spins" if seat.point - seat.since >= self.most_spins else "point"
        self._go_on(seat, self.strategy.next(seat, why), why, frame)
        self._set_stop(seat)

    def _set_stop(self, seat):
        seat.stop_at = seat.point + min(self.strategy.gap(seat), max(1, seat.since + self.most_spins - seat.point))

    def wait(self, seat, what, seconds=None):
        """Stays until `what` is released. False if the time is over, by the clock of the run."""
        seat.waits_for = what
        seat.deadline = None if seconds is None else self.clock + seconds
        seat.is_expired = False
        self._leave_turn(seat, "waits")
        seat.deadline = None
        return not seat.is_expired

    def relax(self, seat):
        """Lets others go on, if any can."""
        seat.relaxes = True
        self._leave_turn(seat, "spins")

    def _leave_turn(self, seat, why):
        seat.point += 1
        self._count(seat)
        frame = sys._getframe(2)
        other = self.strategy.next(seat, why)
        if other is None and self._has_foreign():
            other = self._wait_for_foreign(seat)
        if other is None:
            self._end("deadlock", seat)
        self._go_on(seat, other, why, frame)
        seat.relaxes = False
        self._set_stop(seat)

    def _has_foreign(self):
        """Whether a thread of the queue's own runs free. It may have taken a lock before the run began."""
        waited = [one.waits_for for one in self.seats if isinstance(one.waits_for, locks.Lock)]
        return self.has_foreign or any(lock.foreign for lock in waited)

    def _wait_for_foreign(self, seat):
        """A thread of the queue's own may release what the others wait for. The watchdog bounds this."""
        while not self.is_over:
            locks.REAL["sleep"](0.001)
            for one in self.seats:
                if isinstance(one.waits_for, locks.Lock) and not one.waits_for.locked():
                    one.waits_for = one.deadline = None
                if not one.has_ended and one.waits_for is None:
                    return one
        raise Abandoned

    def released(self, what):
        for one in self.seats:
            if one.waits_for is what:
                one.waits_for = one.deadline = None

    def operation_ended(self, seat):
        self._count(seat)
        self.ended += 1
        self.progress = self.steps
        seat.operation += 1
        seat.point = seat.seen = seat.since = 0
        for one in self.seats:
            one.spins = False
        self._go_on(seat, self.strategy.next(seat, "between"), "between", None)
        self._set_stop(seat)

    def skips(self, seat, is_enqueue):
        """Whether the thread's next operation isn't made."""
        key = seat.number, seat.operation
        is_skipped = key in self.skipped
        seat.operation += is_skipped
        if not is_skipped:
            self.planned[key] = is_enqueue
        return is_skipped

    def wait_for_others(self, seat):
        """Stays until all other threads have left."""
        if any(not one.has_ended for one in self.seats if one is not seat):
            self.wait(seat, self)

    def _leave(self, seat):
        seat.has_ended = True
        if self.is_over:
            return
        if all(one.has_ended or one.waits_for is self for one in self.seats):
            self.released(self)
        if all(one.has_ended for one in self.seats):
            return
        seat.point += 1
        other = self.strategy.next(seat, "leaves")
        if other is None and self._has_foreign():
            other = self._wait_for_foreign(seat)
        if other is None:
            self._end("deadlock", None)
            return
        self._note(seat, other, "leaves", None)
        other.gate.release()

    def _note(self, seat, other, why, frame):
        where = _place(frame) if frame is not None else None
        self.made.append(Switch(seat, other.number, why, where, self.tickets()))

    def _go_on(self, seat, other, why, frame):
        if other is seat:
            seat.since = seat.point if why == "spins" else seat.since
            return
        self._note(seat, other, why, frame)
        if not seat.relaxes:
            for one in self.seats:
                one.relaxes = False
        other.gate.release()
        self.take(seat)

    def take(self, seat):
        """Stays until it is the thread's turn."""
        seat.gate.acquire()
        if self.is_over:
            raise Abandoned
        self.running = seat
        seat.since = seat.point

    def places(self):
        """Where each thread is that hasn't ended."""
        frames = sys._current_frames()
        return {one.number: _place(frames.get(one.ident)) for one in self.seats if not one.has_ended and one.ident}

    def _end(self, outcome, seat):
        """Ends a run in which no thread gets on, and with it the threads."""
        self.outcome = outcome
        self.where = self.places()
        self.abandon(seat)
        if seat is not None:
            raise Abandoned

    def abandon(self, running=None):
        """Ends the threads that wait for their turn."""
        self.is_over = True
        for one in self.seats:
            if one is not running and not one.has_ended and one.gate.locked():
                one.gate.release()


def scheduler_of(options):
    """The scheduler of one run with these options, all operations of it."""
    settings = settings_of(options.schedule)
    return Scheduler(settings, draw(settings, options.seed, options.operations), options.seed, options.threads)

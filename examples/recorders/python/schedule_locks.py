"""Locks and clocks that give way while schedules are chosen. Beside `schedule.py`, which loads it.

`Patches` puts them in place of those of `threading` and `time`, under any name by which a module has imported them.
Outside of a run's threads they do as the real ones.
"""

import contextlib
import os
import sys
import threading
import time

REAL = {name: getattr(threading, name) for name in ("Lock", "RLock")}
REAL.update({name: getattr(time, name) for name in (
    "sleep", "time", "monotonic", "perf_counter", "time_ns", "monotonic_ns", "perf_counter_ns")})
seats = {}    # of the run's threads, by the thread's identity
now = [None]    # the scheduler of the run that goes on
_makers = set()    # threads that make a queue: the locks they make give way
_told_foreign = []


class Lock:
    """threading.Lock, but a thread of a run that can't take it lets others go on."""

    def __init__(self):
        self._lock = REAL["Lock"]()
        self.foreign = set()    # threads of the queue's own that take it, or have it

    def acquire(self, blocking=True, timeout=-1):
        me = threading.get_ident()
        seat = seats.get(me)
        if seat is None:
            _note_foreign()
            if me not in _makers:
                self.foreign.add(me)
            is_taken = self._lock.acquire(blocking, timeout)
            if not is_taken:
                self.foreign.discard(me)
            return is_taken
        seat.touch()
        seconds = None if timeout < 0 else timeout
        while not self._lock.acquire(False):
            if not blocking or not seat.scheduler.wait(seat, self, seconds):
                return False
        return True

    def release(self):
        self._lock.release()
        self.foreign.discard(threading.get_ident())
        scheduler = now[0]
        if scheduler is not None:
            scheduler.released(self)

    def locked(self):
        return self._lock.locked()

    __enter__ = acquire

    def __exit__(self, kind, value, traceback):
        self.release()

    def _at_fork_reinit(self):
        self._lock = REAL["Lock"]()


class RLock:
    """threading.RLock over such a lock."""

    def __init__(self):
        self._lock = Lock()
        self._owner = None
        self._count = 0

    def acquire(self, blocking=True, timeout=-1):
        me = threading.get_ident()
        if self._owner != me:
            if not self._lock.acquire(blocking, timeout):
                return False
            self._owner = me
        self._count += 1
        return True

    def release(self):
        if self._owner != threading.get_ident():
            raise RuntimeError("cannot release un-acquired lock")
        self._count -= 1
        if self._count == 0:
            self._owner = None
            self._lock.release()

    __enter__ = acquire

    def __exit__(self, kind, value, traceback):
        self.release()

    # The three that threading.Condition calls.
    def _release_save(self):
        saved = self._count, self._owner
        self._count, self._owner = 0, None
        self._lock.release()
        return saved

    def _acquire_restore(self, saved):
        self._lock.acquire()
        self._count, self._owner = saved

    def _is_owned(self):
        return self._owner == threading.get_ident()


def _note_foreign():
    """A thread that isn't the recorder's takes a lock of the queue during a run: it runs free."""
    scheduler = now[0]
    if scheduler is not None and not scheduler.has_foreign and threading.get_ident() not in _makers:
        scheduler.has_foreign = True
        if not _told_foreign:
            _told_foreign.append(threading.current_thread().name)
            print(f"fifobench: the queue's own thread {_told_foreign[0]} isn't scheduled: it runs free, and runs of a "
                  "seed may differ", file=sys.stderr, flush=True)


def _gives_way():
    me = threading.get_ident()
    return me in seats or me in _makers


def _make_lock():
    return Lock() if _gives_way() else REAL["Lock"]()


def _make_rlock(*words, **named):
    return RLock() if _gives_way() else REAL["RLock"](*words, **named)


def _sleep(seconds):
    seat = seats.get(threading.get_ident())
    if seat is None:
        REAL["sleep"](seconds)
    elif seconds > 0:
        seat.scheduler.wait(seat, seat, seconds)
    else:
        seat.scheduler.relax(seat)


def _clock(name):
    """The clock of the run, in which a look takes a microsecond; outside of a run the real one."""
    real = REAL[name]

    def read():
        seat = seats.get(threading.get_ident())
        if seat is None:
            return real()
        seat.scheduler.clock += 1e-6
        clock = seat.scheduler.clock
        return int(clock * 1e9) if name.endswith("_ns") else clock

    return read


_OURS = {"Lock": _make_lock, "RLock": _make_rlock, "sleep": _sleep}
_OURS.update({name: _clock(name) for name in REAL if name not in _OURS})


@contextlib.contextmanager
def making(is_making=True):
    """Locks that this thread makes meanwhile give way in runs, or don't."""
    me = threading.get_ident()
    was_making = me in _makers
    (_makers.add if is_making else _makers.discard)(me)
    try:
        yield
    finally:
        (_makers.add if was_making else _makers.discard)(me)


@contextlib.contextmanager
def one_core():
    """Keeps the threads that are started meanwhile on one core, so that no switch wakes up another."""
    if not hasattr(os, "sched_setaffinity"):
        yield
        return
    cores = os.sched_getaffinity(0)
    os.sched_setaffinity(0, {sorted(cores)[os.getpid() % len(cores)]})
    try:
        yield
    finally:
        os.sched_setaffinity(0, cores)


class Patches:
    """While it is entered, locks and clocks under any name of any module are those that give way."""

    def __init__(self):
        self._replaced = []

    def __enter__(self):
        ours = {id(REAL[name]): _OURS[name] for name in REAL}
        ours[id(threading._allocate_lock)] = _make_lock
        for module in list(sys.modules.values()):
            names = getattr(module, "__dict__", None)
            if isinstance(names, dict) and names is not globals():
                self._replace(names, ours)
        return self

    def _replace(self, names, ours):
        for name, value in list(names.items()):
            if id(value) in ours and names.get("__name__") != "_thread":
                names[name] = ours[id(value)]
                self._replaced.append((names, name, value))

    def __exit__(self, *raised):
        for names, name, value in self._replaced:
            names[name] = value
        self._replaced.clear()

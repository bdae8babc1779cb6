"""Queues with a fault that shows if threads meet in one way alone, and right ones beside them.

    queues.py NAME [--seed S] [--runs R] [--ops N] [--strategy S] [--folder F] [--timeout SECONDS]
    queues.py NAME --write SEED    one run with chosen schedules, written to standard output

The first makes a search, with status 0, 1 or 2.
`queues.py --list` has a line for each: its name, whether it is right, and the fault.
"""

import collections
import os
import queue
import sys
import threading
import time

HERE = os.path.dirname(os.path.abspath(__file__))
sys.path.insert(0, os.path.join(HERE, "..", "..", "..", "examples", "recorders", "python"))
import recorder


class Atomic:
    """A variable with a compare-and-swap."""

    def __init__(self, value):
        self.value = value
        self._lock = threading.Lock()

    def swap_if(self, old, new):
        with self._lock:
            if self.value is not old:
                return False
            self.value = new
            return True


class Node:
    def __init__(self, value):
        self.value = value
        self.next = Atomic(None)


class Linked:
    """A list with a first node that is empty, as Michael and Scott's."""

    def __init__(self):
        first = Node(None)
        self.head = Atomic(first)
        self.tail = Atomic(first)

    def enqueue(self, value):
        node = Node(value)
        while True:
            last = self.tail.value
            following = last.next.value
            if following is not None:
                self.tail.swap_if(last, following)
            elif self.link(last, node):
                self.tail.swap_if(last, node)
                return True

    def link(self, last, node):
        return last.next.swap_if(None, node)

    def dequeue(self):
        while True:
            first = self.head.value
            last = self.tail.value
            following = first.next.value
            if following is None:
                return None
            if first is last:
                self.tail.swap_if(last, following)
            elif self.move_head(first, following):
                return following.value

    def move_head(self, first, following):
        return self.head.swap_if(first, following)


class StoredNext(Linked):
    """The new node is stored behind the last one after a look, without a compare-and-swap."""

    def link(self, last, node):
        if last.next.value is not None:
            return False
        last.next.value = node
        return True


class StoredHead(Linked):
    """The head is stored after a look, without a compare-and-swap."""

    def move_head(self, first, following):
        if self.head.value is not first:
            return False
        self.head.value = following
        return True


class Slot:
    def __init__(self, sequence):
        self.sequence = sequence
        self.value = None


class Ring:
    """A ring whose slots have sequences, as Vyukov's; it isn't empty while an earlier enqueue is pending."""

    SIZE = 4

    def __init__(self):
        self.slots = [Slot(place) for place in range(self.SIZE)]
        self.head = Atomic(0)
        self.tail = Atomic(0)

    def enqueue(self, value):
        while True:
            at = self.tail.value
            slot = self.slots[at % self.SIZE]
            lag = slot.sequence - at
            if lag == 0 and self.tail.swap_if(at, at + 1):
                self.fill(slot, at, value)
                return True
            if lag < 0 and at == self.tail.value and at - self.head.value >= self.SIZE:
                return False

    def fill(self, slot, at, value):
        slot.value = value
        slot.sequence = at + 1

    def dequeue(self):
        while True:
            at = self.head.value
            slot = self.slots[at % self.SIZE]
            lag = slot.sequence - (at + 1)
            if lag == 0 and self.head.swap_if(at, at + 1):
                return self.take(slot, at)
            if lag < 0 and self.is_empty(at):
                return None

    def take(self, slot, at):
        value = slot.value
        slot.sequence = at + self.SIZE
        return value

    def is_empty(self, at):
        return self.tail.value == at


class EarlySequence(Ring):
    """The sequence is set before the value."""

    def fill(self, slot, at, value):
        slot.sequence = at + 1
        slot.value = value


class EarlyFree(Ring):
    """The slot is freed before its value is read."""

    def take(self, slot, at):
        slot.sequence = at + self.SIZE
        return slot.value


class EmptyEarly(Ring):
    """It says empty while the first enqueue is pending, though a later one has returned."""

    def is_empty(self, at):
        return True


class Counted:
    """A list under a lock, and its length counted beside it."""

    def __init__(self):
        self.lock = threading.Lock()
        self.items = collections.deque()
        self.count = 0

    def enqueue(self, value):
        with self.lock:
            self.items.append(value)
        self.count += 1
        return True

    def dequeue(self):
        if self.count <= 0:
            return None
        with self.lock:
            value = self.items.popleft() if self.items else None
        if value is not None:
            self.count -= 1
        return value


class SplitClaim:
    """A place is claimed by a load and a store."""

    def __init__(self):
        self.values = {}
        self.head = Atomic(0)
        self.tail = 0

    def enqueue(self, value):
        at = self.tail
        self.values[at] = value
        self.tail = at + 1
        return True

    def dequeue(self):
        while True:
            at = self.head.value
            if at >= self.tail:
                return None
            value = self.values[at]
            if self.head.swap_if(at, at + 1):
                return value


class Peeked:
    """The first value is looked at under the lock, and taken under it once more."""

    def __init__(self):
        self.lock = threading.Lock()
        self.items = collections.deque()

    def enqueue(self, value):
        with self.lock:
            self.items.append(value)
        return True

    def dequeue(self):
        with self.lock:
            value = self.items[0] if self.items else None
        if value is not None:
            with self.lock:
                if self.items:
                    self.items.popleft()
        return value


class Locked(Peeked):
    """A list under a lock."""

    def dequeue(self):
        with self.lock:
            return self.items.popleft() if self.items else None


class Bounded:
    """The library's queue, with condition variables."""

    def __init__(self):
        self.queue = queue.Queue(8)

    def enqueue(self, value):
        try:
            self.queue.put_nowait(value)
            return True
        except queue.Full:
            return False

    def dequeue(self):
        try:
            return self.queue.get_nowait()
        except queue.Empty:
            return None


class Waiting(Bounded):
    """The library's queue; an enqueue waits for room and a dequeue for a value, both up to a time."""

    def enqueue(self, value):
        try:
            self.queue.put(value, timeout=0.01)
            return True
        except queue.Full:
            return False

    def dequeue(self):
        try:
            return self.queue.get(timeout=0.01)
        except queue.Empty:
            return None


class Deadlock(Locked):
    """Two locks, taken in two orders."""

    def __init__(self):
        super().__init__()
        self.second = threading.Lock()

    def enqueue(self, value):
        with self.lock, self.second:
            self.items.append(value)
        return True

    def dequeue(self):
        with self.second, self.lock:
            return self.items.popleft() if self.items else None


class Livelock(Locked):
    """A dequeue waits in a loop for a flag that nobody sets while it holds the lock."""

    is_set = False

    def dequeue(self):
        with self.lock:
            while not self.items and not self.is_set:
                pass
            return self.items.popleft()


class Ticked(Locked):
    """A thread of the queue's own takes the lock now and then."""

    def __init__(self):
        super().__init__()
        threading.Thread(target=self.tick, name="ticker", daemon=True).start()

    def tick(self):
        for _ in range(200):
            with self.lock:
                time.sleep(0.0001)
            time.sleep(0.0001)


class Imported(Locked):
    """A lock that was made as the module was imported, and doesn't give way."""

    lock_of_all = threading.Lock()

    def enqueue(self, value):
        with self.lock_of_all:
            return super().enqueue(value)

    def dequeue(self):
        with self.lock_of_all:
            return super().dequeue()


RIGHT = {"linked": Linked, "ring": Ring, "locked": Locked, "bounded": Bounded, "waiting": Waiting}
WRONG = {"stored-next": StoredNext, "stored-head": StoredHead, "early-sequence": EarlySequence, "early-free": EarlyFree,
         "empty-early": EmptyEarly, "counted": Counted, "split-claim": SplitClaim, "peeked": Peeked}
HUNG = {"deadlock": Deadlock, "livelock": Livelock, "blocking": Imported}
FREE = {"ticked": Ticked}


def options_of(words):
    """The options that the words name."""
    options = recorder.Options(schedule=True, timeout=10.0)
    kinds = {"--seed": ("seed", int), "--runs": ("runs", int), "--ops": ("operations", int),
             "--folder": ("folder", str), "--timeout": ("timeout", float)}
    for name, word in zip(words[::2], words[1::2]):
        if name == "--strategy":
            options.schedule = {"strategy": word}
        else:
            setting, kind = kinds[name]
            setattr(options, setting, kind(word))
    return options


def main(words):
    if words == ["--list"]:
        for kind, queues in (("right", RIGHT), ("wrong", WRONG), ("hung", HUNG), ("free", FREE)):
            for name, made in queues.items():
                print(f"{name}\t{kind}\t{made.__doc__}")
        return 0
    queues = {**RIGHT, **WRONG, **HUNG, **FREE}
    if not words or words[0] not in queues or len(words) % 2 == 0:
        print(f"queues: a name of {', '.join(queues)}, and options with their values", file=sys.stderr)
        return 2
    make = queues[words[0]]
    if words[1:2] == ["--write"]:
        recorder.run(recorder.Options(schedule=True, seed=int(words[2]), operations=32), make).write(sys.stdout)
        return 0
    try:
        return recorder.search(options_of(words[1:]), make)
    except (KeyError, ValueError) as refused:
        print(f"queues: {refused}", file=sys.stderr)
        return 2


if __name__ == "__main__":
    sys.exit(main(sys.argv[1:]))

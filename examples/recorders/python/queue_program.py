"""A deque under a lock, and the same made wrong on purpose in some ways, recorded.

    queue_program.py QUEUE                                        searches for a violation, status 0, 1 or 2
    queue_program.py QUEUE [--runs R] [--threads T] [--producers N] [--ops N] [--pattern P] [--percent K] [--seed S]
        [--initial N] [--condition C] [--overtaken-at-most N] [--folder F] [--keep 0|1] [--timeout SECONDS]
                                                                            the same with settings
    queue_program.py QUEUE THREADS OPERATIONS [PATTERN [SEED [INITIAL]]]    one run, written to standard output

Without a pattern, or with `loop`, the one run is a loop of one's own.

QUEUE is `good`, `wrong` (every 4th value that is found stays), `stack` (last in, first out), `shards` (values of two
producers overtake each other), `early` (says empty too early), `hang` (a dequeue never returns) or `throw` (a dequeue
raises an exception).
"""

import collections
import itertools
import sys
import threading
import time

import recorder

KINDS = ("good", "wrong", "stack", "shards", "early", "hang", "throw")


class Queue:
    def __init__(self, kind):
        self.kind = kind
        self.lock = threading.Lock()
        self.list = collections.deque()
        self.found = 0
        self.size = 0    # counted beside the list, under a lock of its own, for `early`
        self.size_lock = threading.Lock()
        self.dequeues = itertools.count(1)

    def enqueue(self, value):
        with self.lock:
            self.list.append(value)
        if self.kind == "early":
            time.sleep(0)
            self.count(1)
        return True

    def dequeue(self):
        if self.kind == "early":
            return self.take_counted()
        if self.kind in ("hang", "throw") and next(self.dequeues) == 100:
            if self.kind == "throw":
                raise RuntimeError("the 100th dequeue")
            threading.Event().wait()
        return self.take()

    def take(self):
        with self.lock:
            if not self.list:
                return None
            if self.kind == "stack":
                return self.list.pop()
            # The first value of the last one's producer: the order of each producer is kept.
            if self.kind == "shards":
                value = next(value for value in self.list if value >> 32 == self.list[-1] >> 32)
                self.list.remove(value)
                return value
            self.found += 1
            # The fault of `wrong`: every 4th value that is found is left in place.
            if self.kind == "wrong" and self.found % 4 == 0:
                return self.list[0]
            return self.list.popleft()

    def take_counted(self):
        """The fault of `early`: a value is in the list before it is counted, and another may take it meanwhile."""
        if self.size <= 0:
            return None
        value = self.take()
        if value is not None:
            self.count(-1)
        return value

    def count(self, change):
        with self.size_lock:
            self.size += change


class Refused(Exception):
    """What is wrong with the arguments."""


def number(name, word, least, most):
    if not (word.isascii() and word.isdigit()):
        raise Refused(f'{name} is a number, and not "{word}"')
    if not least <= int(word) <= most:
        raise Refused(f"{name} is {least} to {most}, and not {word}")
    return int(word)


# The setting that an option sets, and its range.
NUMBERS = {
    "--runs": ("runs", 1, 1_000_000),
    "--threads": ("threads", 1, 64),
    "--ops": ("operations", 1, 1_000_000),
    "--percent": ("percent", 0, 100),
    "--seed": ("seed", 0, 4_294_967_295),
    "--timeout": ("timeout", 1, 86_400),
    "--producers": ("producers", 0, 63),
    "--keep": ("keep", 0, 1),
    "--initial": ("initial", 0, recorder.MAX_INITIAL),
    "--overtaken-at-most": ("overtaken_at_most", 0, 1_000_000),
}


def set_option(options, name, word):
    if name in NUMBERS:
        setting, least, most = NUMBERS[name]
        setattr(options, setting, number(name, word, least, most))
    elif name == "--pattern":
        options.pattern = word
    elif name == "--condition":
        options.condition = word
    elif name == "--folder":
        options.folder = word
    else:
        raise Refused(f'no option "{name}"')


def settings(words):
    """The settings, and whether they are those of one run."""
    options = recorder.Options()
    is_one_run = bool(words) and not words[0].startswith("--")
    names = ("--threads", "--ops", "--pattern", "--seed", "--initial")
    if is_one_run and not 2 <= len(words) <= len(names):
        raise Refused("one run is QUEUE THREADS OPERATIONS [PATTERN [SEED [INITIAL]]]")
    if is_one_run:
        options.drain = False
        pairs = [(name, word) for name, word in zip(names, words) if word != "loop"]
    elif len(words) % 2 == 1:
        raise Refused(f"{words[-1]} has no value")
    else:
        pairs = zip(words[::2], words[1::2])
    for name, word in pairs:
        set_option(options, name, word)
    options.check()
    return options, is_one_run


# Which operations are enqueues if no pattern is named; a thread begins at its number and goes round.
STEPS = "EEDDDEED"


def record_steps(options, queue):
    """A loop of one's own, recorded."""

    def work(thread):
        for n in range(options.operations):
            if STEPS[(n + thread.number) % len(STEPS)] == "E":
                thread.enqueue(queue.enqueue)
            else:
                thread.dequeue(queue.dequeue)

    for value in options.initial_values():
        queue.enqueue(value)
    return recorder.record(options.threads, options.operations, work, initial=options.initial)


def one_run(options, queue):
    history = recorder.run(options, queue) if options.pattern else record_steps(options, queue)
    if history.answer is not None:
        return history.answer
    for failure in history.failures:
        print(f"fifobench: {failure}", file=sys.stderr)
    try:
        history.write(sys.stdout)
    except OSError:
        return 3
    return recorder.Answer.WRONG if history.failures else 0


def main(words):
    try:
        if not words or words[0] not in KINDS:
            what = f'no queue "{words[0]}":' if words else "which queue?"
            raise Refused(f"{what} good, wrong, stack, shards, early, hang or throw")
        options, is_one_run = settings(words[1:])
    except (Refused, ValueError) as refused:
        print(f"queue: {refused}", file=sys.stderr)
        return recorder.Answer.WRONG
    if is_one_run:
        return one_run(options, Queue(words[0]))
    return recorder.search(options, lambda: Queue(words[0]))


if __name__ == "__main__":
    sys.exit(main(sys.argv[1:]))

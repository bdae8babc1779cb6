"""Queues of Python's standard library.

    queues.py QUEUE SIZE THREADS PRODUCERS OPERATIONS RUNS INITIAL DRAIN FOLDER

SIZE is the capacity of a bounded queue. The others are settings of the recorder; DRAIN is 0 or 1.
"""

import collections
import multiprocessing
import pathlib
import queue
import sys

sys.path.insert(0, str(pathlib.Path(__file__).resolve().parents[2] / "recorders/python"))
import recorder    # noqa: E402


class Tries:
    """A queue of the module `queue` by the calls that never wait."""

    def __init__(self, made):
        self.queue = made

    def enqueue(self, value):
        try:
            self.queue.put_nowait(value)
        except queue.Full:
            return False
        return True

    def dequeue(self):
        try:
            return self.queue.get_nowait()
        except queue.Empty:
            return None


class Waits:
    """A queue whose calls wait until there is room, or a value."""

    def __init__(self, made):
        self.queue = made

    def enqueue(self, value):
        self.queue.put(value)

    def dequeue(self):
        return self.queue.get()


class Deque:
    """collections.deque, whose ends threads may use at once."""

    def __init__(self):
        self.deque = collections.deque()

    def enqueue(self, value):
        self.deque.append(value)

    def dequeue(self):
        try:
            return self.deque.popleft()
        except IndexError:
            return None


# What makes a queue of its capacity.
QUEUES = {
    "python-queue": lambda size: Tries(queue.Queue(size)),
    "python-queue-waits": lambda size: Waits(queue.Queue(size)),
    "python-simple-queue": lambda size: Tries(queue.SimpleQueue()),
    "python-deque": lambda size: Deque(),
    "python-multiprocessing": lambda size: Tries(multiprocessing.Queue(size)),
    "python-multiprocessing-simple": lambda size: Waits(multiprocessing.SimpleQueue()),
    "python-lifo-queue": lambda size: Tries(queue.LifoQueue(size)),
    "python-priority-queue": lambda size: Tries(queue.PriorityQueue(size)),
}


def main(words):
    name, *numbers, folder = words[:9]
    size, threads, producers, operations, runs, initial, drain = map(int, numbers)
    options = recorder.Options(threads, operations, producers=producers, runs=runs, initial=initial, drain=drain == 1,
                               folder=folder, first=1, keep=True)    # values are 1 and more, as in the other languages
    return recorder.search(options, lambda: QUEUES[name](size))


if __name__ == "__main__":
    sys.exit(main(sys.argv[1:]))

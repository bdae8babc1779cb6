"""A queue that ends a run early: see run, which says what a search of it has to say.

    queue.py ORDER END FOLDER

ORDER is fifo or lifo. END is what the second dequeue does: lock, wait, throw, kill, or fine;
or, with late, what the 250th does: it waits.
"""

import collections
import os
import pathlib
import signal
import sys
import threading
import time

# Its own folder has a module queue, which isn't Python's.
sys.path[0] = str(pathlib.Path(__file__).resolve().parents[2] / "examples/recorders/python")

import recorder


class Queue:
    def __init__(self, order, end, folder):
        self.order = order
        self.end = end
        self.journal = pathlib.Path(folder) / "3.pending"
        self.values = collections.deque()
        self.dequeues = 0
        self.lock = threading.Lock()

    def enqueue(self, value):
        self.values.append(value)

    def dequeue(self):
        self.dequeues += 1
        if self.dequeues == (250 if self.end == "late" else 2):
            self.end_early()
        if not self.values:
            return None
        return self.values.pop() if self.order == "lifo" else self.values.popleft()

    def end_early(self):
        if self.end == "lock":
            self.lock.acquire()
            self.lock.acquire()
        elif self.end in ("wait", "late"):
            threading.Event().wait()
        elif self.end == "throw":
            raise ValueError("no value today")
        elif self.end == "kill":
            while not self.journal.read_text().endswith("\n52 0 call-deq\n"):    # the call that is pending
                time.sleep(0.001)
            os.kill(os.getpid(), signal.SIGKILL)


def main(order, end, folder):
    options = recorder.Options(threads=1, runs=1, folder=folder, journal=end == "kill")
    options.timeout = 1.0 if end in ("lock", "wait", "late") else 30.0
    # Seed 1 alternates; seed 3 makes bursts, the first of 25.
    options.seed, options.operations = (1, 600) if end == "late" else (3, 60)
    if os.environ.get("FIFOBENCH_SCHEDULE"):
        options.schedule = {"operations": 60}    # not fewer, by the seed
    return recorder.search(options, lambda: Queue(order, end, folder))


if __name__ == "__main__":
    sys.exit(main(*sys.argv[1:]))

"""Queues of several kinds, as they are, and how the recorder calls each. The status is 0 if none shows a violation."""

import queue
import sys

import recorder


class Thrown:
    """An exception means empty."""

    def __init__(self):
        self.queue = queue.SimpleQueue()

    def enqueue(self, value):
        self.queue.put(value)

    def dequeue(self):
        try:
            return self.queue.get_nowait()
        except queue.Empty:
            return None


class Bounded(Thrown):
    """An exception means full, too."""

    def __init__(self):
        self.queue = queue.Queue(16)

    def enqueue(self, value):
        try:
            self.queue.put_nowait(value)
            return True
        except queue.Full:
            return False


class Blocking:
    """A call that waits has no answer "full" or "empty"."""

    def __init__(self):
        self.queue = queue.Queue(16)

    def enqueue(self, value):
        self.queue.put(value)

    def dequeue(self):
        return self.queue.get()


class Item:
    def __init__(self, number):
        self.number = number


class Objects:
    """The number of an object stands for it."""

    def __init__(self):
        self.queue = Thrown()

    def enqueue(self, value):
        self.queue.enqueue(Item(value))

    def dequeue(self):
        item = self.queue.dequeue()
        return None if item is None else item.number


def main():
    answers = []
    for kind, make_queue, settings in (
            ("an exception means empty, and 10 values are in", Thrown, {"initial": 10}),
            ("bounded", Bounded, {}),
            ("objects", Objects, {}),
            # As many producers as consumers, so that each dequeue finds a value, and no drain, which would wait.
            ("blocking", Blocking, {"pattern": "roles", "drain": False}),
            ("one producer, one consumer", Bounded, {"threads": 2, "producers": 1})):
        print(f"{kind}: ", end="", flush=True)
        answers.append(recorder.search(recorder.Options(runs=8, **settings), make_queue))
    return max(answers)


if __name__ == "__main__":
    sys.exit(main())

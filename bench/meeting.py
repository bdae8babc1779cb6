"""The measuring part of meeting.sh: meeting.py PROGRAM RECORDER SEEDS."""

import os
import resource
import statistics
import subprocess
import sys
import time

PROGRAM, RECORDER, SEEDS = sys.argv[1], sys.argv[2], int(sys.argv[3])
OPERATIONS = 1_000
QUEUES = ["locked", "two-lock", "array", "seg"]
RECORDED = ["locked", "two-lock"]    # queues of the plain recorder
MET = 200    # more changes of thread than this make a run in which the workers met
LARGE = 100_000    # operations of each worker where processor time is measured
ROUNDS = 5


class Run:
    """One run of a command: its output, its wall time and its processor time, in seconds."""

    def __init__(self, words):
        before, start = resource.getrusage(resource.RUSAGE_CHILDREN), time.monotonic()
        done = subprocess.run(words, stdout=subprocess.PIPE, check=False)
        after = resource.getrusage(resource.RUSAGE_CHILDREN)
        self.wall = time.monotonic() - start
        self.cpu = after.ru_utime - before.ru_utime + after.ru_stime - before.ru_stime
        self.text, self.status = done.stdout.decode(), done.returncode


def program(queue, workers, operations, seed):
    run = Run([PROGRAM, "stress", "--queue", queue, "--threads", str(workers), "--ops", str(operations),
               "--seed", str(seed)])
    if run.status != 0:
        print("%s, %d workers, seed %d: status %d, %s" % (
            queue, workers, seed, run.status, run.text.splitlines()[-1:]))
    return run


def recorder(queue, workers, operations, seed):
    return Run([RECORDER, queue, str(workers), str(operations), str(seed)])


def events(text):
    """The thread of each event in the order of tickets, and whether it is a call."""
    found = []
    for line in text.splitlines()[1:]:
        if line.startswith("end "):
            break
        words = line.split(" ", 3)
        found.append((int(words[1]), words[2].startswith("call")))
    return found


def changes(found):
    """How many events are of another thread than the one before."""
    return sum(a[0] != b[0] for a, b in zip(found, found[1:]))


def overlapping(found):
    """The part of operations during which another one was under way."""
    under_way, overlaps, count = {}, 0, 0
    for thread, is_call in found:
        if is_call:
            for other in under_way:
                under_way[other] = True
            under_way[thread] = bool(under_way)
        else:
            overlaps += under_way.pop(thread)
            count += 1
    return overlaps / count if count else 0.0


def meeting(who, command, queue, workers):
    counts, parts, speeds = [], [], []
    for seed in range(1, SEEDS + 1):
        run = command(queue, workers, OPERATIONS, seed)
        found = events(run.text)
        counts.append(changes(found))
        parts.append(overlapping(found))
        speeds.append(len(found) / run.wall)
    print("%-14s %-8s %7d  %4d of %-4d %9.0f %8d %10.3f %12.0f" % (
        who, queue, workers, sum(n > MET for n in counts), SEEDS, statistics.median(counts), min(counts),
        statistics.mean(parts), statistics.median(speeds)))
    sys.stdout.flush()


def cost(queue):
    """Processor time of large runs in turns, in ns for each operation."""
    commands = [("program", program)] + ([("plain recorder", recorder)] if queue in RECORDED else [])
    times = {who: [] for who, _ in commands}
    for seed in range(1, ROUNDS + 1):
        for who, command in commands:
            times[who].append(command(queue, 4, LARGE, seed).cpu / (4 * LARGE) * 1e9)
    print("%-8s " % queue + ", ".join(
        "%s %.0f ns (least %.0f)" % (who, statistics.median(spent), min(spent)) for who, spent in times.items()))
    sys.stdout.flush()


def cpu_times():
    with open("/proc/stat") as stat:
        return [int(word) for word in stat.readline().split()[1:9]]


def load():
    return " ".join("%.1f" % part for part in os.getloadavg())


def main():
    before, at_first = cpu_times(), load()
    print("%d operations of each worker; a run has met where it has over %d changes of thread\n" % (OPERATIONS, MET))
    print("%-14s %-8s %7s  %12s %9s %8s %10s %12s" % (
        "recorder", "queue", "workers", "met", "changes", "least", "overlap", "events a s"))
    for workers in (2, 4):
        for queue in QUEUES:
            meeting("program", program, queue, workers)
        for queue in RECORDED:
            meeting("plain recorder", recorder, queue, workers)
    print("\n(changes: median and least; overlap: part of operations during which another was under way; events a second"
          "\nof the whole command, which in the program judges too)")
    print("\nprocessor time of an operation, 4 workers with %d operations each, medians of %d; the program records, judges"
          "\nand writes, the plain recorder records and writes" % (LARGE, ROUNDS))
    for queue in QUEUES:
        cost(queue)
    spent = [b - a for a, b in zip(before, cpu_times())]
    idle = spent[3] + spent[4]
    print("\nload %s at first, %s at last; of the machine's time %.0f%% was busy (this benchmark and all else) and %.0f%%"
          " stolen by its host" % (at_first, load(), 100 * (sum(spent) - idle) / sum(spent), 100 * spent[7] / sum(spent)))


main()

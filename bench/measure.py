"""The measuring part of check.sh: measure.py FOLDER PROGRAM. The folder has the plain programs, and takes the histories.

All times are user and system time of the process. The two programs run in turns, and a ratio is the median of the ratios of
the rounds.
"""

import filecmp
import math
import os
import statistics
import subprocess
import sys

FOLDER, PROGRAM = sys.argv[1:3]
SIZES = [int(word) for word in os.environ.get("BENCH_SIZES", "20000 200000 2000000").split()]
KINDS = os.environ.get("BENCH_KINDS", "yes names wide never refused empty initial fresh repeat order witness initial-witness long").split()
ROUNDS = int(os.environ.get("BENCH_ROUNDS", 9))
THREADS, SEED = 4, 1


def at(name):
    return os.path.join(FOLDER, name)


PROGRAMS = {"fifobench": [PROGRAM, "check"], "plain": [at("plain_checker")]}


class Run:
    """One run: milliseconds of processor time, peak memory in MiB, exit status."""

    def __init__(self, who, source, to=os.devnull):
        line = subprocess.run([at("meter"), source, to] + PROGRAMS[who], stdout=subprocess.PIPE, check=True).stdout
        user, system, peak, _, self.status = map(int, line.split())
        self.time, self.peak = (user + system) / 1000, peak / 1024


def generated(kind, size):
    path = at("%s-%d" % (kind, size))
    with open(path, "wb") as to:
        words = [at("generate"), kind, str(size), str(THREADS), str(SEED)]
        subprocess.run(words, stdout=to, check=True)
    return path


def rounds(source, to=os.devnull, count=ROUNDS):
    """The runs of both programs, in turns."""
    runs = {who: [] for who in PROGRAMS}
    for turn in range(count):
        order = list(PROGRAMS) if turn % 2 == 0 else list(PROGRAMS)[::-1]
        for who in order:
            runs[who].append(Run(who, source, to))
    return runs


def median(values):
    return statistics.median(list(values))


def first_line(path):
    with open(path, encoding="ascii") as text:
        return text.readline().strip()


def ratios():
    """The table of ratios; gives the median time of each program, kind and size."""
    print("%-15s %8s  %-10s %10s %8s %7s  %10s %8s %7s" % (
        "kind", "events", "answer", "fifobench", "plain", "ratio", "fifobench", "plain", "ratio"))
    times = {}
    for kind in KINDS:
        for size in SIZES:
            source = generated(kind, size)
            for who in PROGRAMS:
                Run(who, source, at(who))
            if not filecmp.cmp(at("fifobench"), at("plain"), shallow=False):
                sys.exit("%s, %d events: the answers differ" % (kind, size))
            runs = rounds(source, at("answer"))
            mine, plain = runs["fifobench"], runs["plain"]
            for who in PROGRAMS:
                times[who, kind, size] = median(run.time for run in runs[who])
            memory = [median(run.peak for run in each) for each in (mine, plain)]
            ratio = median(a.time / b.time for a, b in zip(mine, plain))
            print("%-15s %8d  %-10s %7.1f ms %5.1f ms %7.2f  %6.1f MiB %4.1f MiB %7.2f" % (
                kind, size, first_line(at("fifobench")), times["fifobench", kind, size],
                times["plain", kind, size], ratio, *memory, memory[0] / memory[1]))
            sys.stdout.flush()
            os.unlink(source)
    return times


def growth(times):
    if len(SIZES) < 2:
        return
    small, large = SIZES[-2:]
    print("\nhow the time grows with n events from %d to %d: as n to the power of" % (small, large))
    for kind in KINDS:
        powers = [math.log(times[who, kind, large] / times[who, kind, small]) / math.log(large / small)
                  for who in PROGRAMS]
        print("%-15s fifobench %.2f, plain %.2f" % (kind, *powers))


def stages():
    """Reading, deciding and writing, told from outside: a text that is refused at its last line is read and no more; where
    the first write is refused (/dev/full) nothing is written."""
    size = SIZES[-1]
    print("\nstages at %d events, in ms and in ns for each event" % size)
    print("%-15s %-10s  %18s %18s %18s" % ("kind", "", "reading", "deciding", "writing"))
    for kind in KINDS:
        source = generated(kind, size)
        with open(source, "rb") as text:
            lines = text.read()
        with open(at("refused"), "wb") as text:
            text.write(lines[:lines.rindex(b"end ")] + b"end 1\n")
        del lines
        read, decided, written = rounds(at("refused")), rounds(source, "/dev/full"), rounds(source, at("answer"))
        for who in PROGRAMS:
            statuses = [runs[who][0].status for runs in (read, decided, written)]
            if statuses not in ([2, 3, 0], [2, 3, 1]):
                sys.exit("%s, %s: statuses %s" % (kind, who, statuses))
            until = [median(run.time for run in runs[who]) for runs in (read, decided, written)]
            parts = [until[0], until[1] - until[0], until[2] - until[1]]
            print("%-15s %-10s  %s" % (kind, who, " ".join(
                "%8.1f ms (%3.0f ns)" % (part, part * 1e6 / size) for part in parts)))
        sys.stdout.flush()
        os.unlink(source)


CONDITIONS = {"--local": ["--local"], "--weak-empty": ["--weak-empty"], "both": ["--local", "--weak-empty"]}


def conditions():
    """Each condition beside `check` without one, in turns, with as many threads as in the first table."""
    size = SIZES[-1]
    for name, flags in CONDITIONS.items():
        PROGRAMS[name] = [PROGRAM, "check", *flags]
    print("\nunder a condition, beside check, at %d events" % size)
    print("%-15s %-13s  %-10s %10s %7s  %10s %7s" % ("kind", "condition", "answer", "time", "ratio", "memory", "ratio"))
    for kind in KINDS:
        source = generated(kind, size)
        runs = {who: [] for who in ["fifobench", *CONDITIONS]}
        for _ in range(ROUNDS):
            for who in runs:
                runs[who].append(Run(who, source, at("answer-" + who)))
        strict = runs["fifobench"]
        for name in CONDITIONS:
            own = runs[name]
            time, peak = median(run.time for run in own), median(run.peak for run in own)
            print("%-15s %-13s  %-10s %7.1f ms %7.2f  %6.1f MiB %7.2f" % (
                kind, name, first_line(at("answer-" + name)), time, median(a.time / b.time for a, b in zip(own, strict)),
                peak, peak / median(run.peak for run in strict)))
        sys.stdout.flush()
        os.unlink(source)


def cpu_times():
    with open("/proc/stat", encoding="ascii") as stat:
        return [int(word) for word in stat.readline().split()[1:9]]


def load():
    return " ".join("%.1f" % part for part in os.getloadavg())


def main():
    before, at_first = cpu_times(), load()
    print("%d cores, load %s; %d rounds; time is user and system time, memory is the peak\n" % (
        os.cpu_count(), at_first, ROUNDS))
    times = ratios()
    growth(times)
    stages()
    conditions()
    spent = [b - a for a, b in zip(before, cpu_times())]
    busy = sum(spent) - spent[3] - spent[4]
    print("\nload %s at last; of the machine's time %.0f%% was busy (one core of %d is this benchmark) and %.0f%% stolen by its"
          " host" % (load(), 100 * busy / sum(spent), os.cpu_count(), 100 * spent[7] / sum(spent)))


main()

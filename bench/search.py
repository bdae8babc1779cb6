"""The measuring part of search.sh: search.py FOLDER PROGRAM. The folder has the plain programs, and takes the histories.

A time is user and system time of the process, the median of the rounds. A search that is given up counts as endless, so the median is endless if
more than half of the searches are.
"""

import math
import os
import statistics
import subprocess
import sys

FOLDER, PROGRAM = sys.argv[1:3]
THREADS = [int(word) for word in os.environ.get("BENCH_THREADS", "2 4 8 16").split()]
KINDS = os.environ.get("BENCH_KINDS", "yes repeat").split()
SIZES = [int(word) for word in os.environ.get("BENCH_SIZES", "20 50 100 200 500 1000 2000 5000 20000 200000 2000000").split()]
ROUNDS = int(os.environ.get("BENCH_ROUNDS", 3))
SECONDS = os.environ.get("BENCH_SECONDS", "60")
ENTRIES = os.environ.get("BENCH_ENTRIES", "50000000")
GIVEN_UP = 3


def at(name):
    return os.path.join(FOLDER, name)


def generated(kind, size, threads, seed):
    with open(at("history"), "wb") as to:
        words = [at("generate"), kind, str(size), str(threads), str(seed)]
        made = subprocess.run(words, stdout=to, stderr=subprocess.DEVNULL, check=False)
    # A history of few events may have no place for a fault.
    return made.returncode == 0


def run(words):
    """The seconds of one run, its status, and its first word."""
    line = subprocess.run([at("meter"), at("history"), at("answer")] + words, stdout=subprocess.PIPE, check=True).stdout
    user, system, _, _, status = map(int, line.split())
    with open(at("answer"), encoding="ascii") as answer:
        return (user + system) / 1e6, status, answer.readline().split(maxsplit=1)[0]


def shown(seconds):
    if seconds is None:
        return "-"
    if math.isinf(seconds):
        return "> %s s" % SECONDS
    return "%.1f ms" % (seconds * 1000) if seconds < 1 else "%.1f s" % seconds


def measure(kind, size, threads, searches):
    """The medians of `check` and of the search, which isn't tried if it is endless at fewer events."""
    mine, theirs = [], []
    for seed in range(1, ROUNDS + 1):
        if not generated(kind, size, threads, seed):
            continue
        seconds, status, answer = run([PROGRAM, "check"])
        mine.append(seconds)
        if not searches or 2 * sum(map(math.isinf, theirs)) > ROUNDS:
            continue
        seconds, found, other = run([at("search"), SECONDS, ENTRIES])
        if found != GIVEN_UP and (found, other) != (status, answer):
            sys.exit("%s, %d events, %d threads, seed %d: the answers differ" % (kind, size, threads, seed))
        theirs.append(math.inf if found == GIVEN_UP else seconds)
    # Those that weren't tried, since more than half are endless already, would change nothing.
    theirs += [math.inf] * (len(mine) - len(theirs)) if theirs else []
    return [statistics.median_high(times) if times else None for times in (mine, theirs)]


def main():
    print("%d cores, load %s; medians of %d histories; a search is given up after %s s or %s entries\n" % (
        os.cpu_count(), " ".join("%.1f" % part for part in os.getloadavg()), ROUNDS, SECONDS, ENTRIES))
    print("%-8s %7s %9s %12s %12s" % ("kind", "threads", "events", "fifobench", "search"))
    for kind in KINDS:
        for threads in THREADS:
            searches = True
            for size in SIZES:
                mine, theirs = measure(kind, size, threads, searches)
                searches = searches and (theirs is None or not math.isinf(theirs))
                print("%-8s %7d %9d %12s %12s" % (kind, threads, size, shown(mine), shown(theirs)))
                sys.stdout.flush()
    print("\nload %s at last" % " ".join("%.1f" % part for part in os.getloadavg()))


main()

"""Runs each test of a built crate with one growth refused, the first, the second and so on until none is.

tests.py TESTS LIBRARY FOLDER

A test compares the answers that are allowed then, so it has to pass each time.
"""

import os
import struct
import subprocess
import sys
import time
from concurrent.futures import ThreadPoolExecutor

TESTS, LIBRARY, FOLDER = sys.argv[1:4]
# No test makes more growths than this.
MOST_GROWTHS = 2000
# A test that takes longer hangs.
SECONDS = 60
# As many at once as processors that this process may use.
LANES = len(os.sched_getaffinity(0))
# This many are refused before it is asked whether there are more.
STRIDE = 4 * LANES


def listed():
    ran = subprocess.run([TESTS, "--list"], stdout=subprocess.PIPE, timeout=SECONDS, check=True)
    return [line.removesuffix(": test") for line in ran.stdout.decode().splitlines() if line.endswith(": test")]


def judge(test, at):
    """Whether this growth was there to be refused, and what is wrong with the test then, or nothing."""
    told = os.path.join(FOLDER, f"told-{at}")
    words = {"REFUSE_KIND": "growth", "REFUSE_AT": str(at), "REFUSE_REST": "0", "REFUSE_TOLD": told, "LD_PRELOAD": LIBRARY}
    how = {"env": {**os.environ, **words}, "stdin": subprocess.DEVNULL, "stdout": subprocess.PIPE, "stderr": subprocess.STDOUT}
    try:
        ran = subprocess.run([TESTS, test], timeout=SECONDS, **how)
    except subprocess.TimeoutExpired:
        return True, "it hangs"
    with open(told, "rb") as file:
        calls = struct.unpack("Q", file.read(8))[0]
    os.remove(told)
    why = "" if ran.returncode == 0 else ran.stdout.decode(errors="replace").strip() or f"status {ran.returncode}"
    return calls >= at, why


def refused_in_turn(pool, test, wrong):
    """How many growths were refused, before a stride of which none is there. Runs of threads don't all make the same number."""
    refused = 0
    for first in range(1, MOST_GROWTHS, STRIDE):
        places = range(first, first + STRIDE)
        answers = list(pool.map(lambda at: judge(test, at), places))
        wrong += [f"{test}: growth {at}: {why}" for at, (_, why) in zip(places, answers) if why]
        found = sum(was_refused for was_refused, _ in answers)
        if not found:
            return refused
        refused += found
    wrong.append(f"{test}: more than {MOST_GROWTHS} growths")
    return refused


def main():
    begun, wrong, refused = time.time(), [], 0
    tests = listed()
    with ThreadPoolExecutor(LANES) as pool:
        for test in tests:
            count = refused_in_turn(pool, test, wrong)
            if count == 0:
                wrong.append(f"{test}: no growth was refused")
            refused += count
    if not tests:
        wrong.append("there is no test")
    for line in wrong[:20]:
        print(f"faults: WRONG {line}")
    print(f"faults: {len(tests)} tests, {refused} growths refused in turn; {len(wrong)} wrong answers, {time.time() - begun:.0f} s")
    return 1 if wrong else 0


sys.exit(main())

"""Runs the program while one call of the C library fails, or all from one on, and judges what it prints.

cases.py PROGRAM LIBRARY FOLDER EXAMPLES

If an allocation fails, the program may print what it does with ample memory, or `FAULT Memory` with status 3; a run may also end with
one of its faults (with `Preload` only if its queue is given values first), or with another history, which `verify` then has to find
VALID. If a write fails, a prefix of the text is there, the status is 3, and nothing is written after it. A write to standard error
that fails changes nothing. If a read fails, it prints `FAULT Read`, status 3. If a thread can't be
started, a run ends with a history or with a stall, and a check as with threads.
"""

import os
import re
import struct
import subprocess
import sys
import time
from concurrent.futures import ThreadPoolExecutor

PROGRAM, LIBRARY, FOLDER, EXAMPLES = sys.argv[1:5]
# No command makes more calls of a kind than this with these inputs.
MOST_CALLS = 2000
# A run that takes longer hangs. One whose collector had no memory tries its pushes a million times, and yields after each.
SECONDS = 60
# As many at once as processors that this process may use.
LANES = max(2, len(os.sched_getaffinity(0)))

MEMORY = (3, b"FAULT Memory\n")
READ = (3, b"FAULT Read\n")
RUN_FAULT = re.compile(rb"FAULT (Memory|Stalled \d+|CloseLost \d+)\n\Z")
PRELOAD_FAULT = re.compile(rb"FAULT Preload \d+\n\Z")


class Case:
    """A command with its arguments and its input, and what it prints with ample memory."""

    def __init__(self, words, text=b"", is_run=False, kinds=("growth", "write", "message", "read", "thread")):
        self.words, self.text, self.is_run, self.kinds = words, text, is_run, kinds
        self.plain = None

    def __str__(self):
        return " ".join(self.words)


def many_windows():
    """A history of this many values and empty dequeues that a check searches in threads; the last empty dequeue can't be."""
    rounds = 100_000
    lines = [b"fifo-history 1"]
    for i in range(rounds):
        steps = [(b"call-enq %d" % i, b"ret-enq"), (b"call-deq", b"ret-deq %d" % i), (b"call-deq", b"ret-empty")]
        if i == rounds - 1:
            steps[1], steps[2] = steps[2], steps[1]
        for at, (call, ret) in enumerate(steps, 3 * i):
            lines += [b"%d 0 %s" % (2 * at, call), b"%d 0 %s" % (2 * at + 1, ret)]
    return b"\n".join([*lines, b"end %d\n" % (6 * rounds)])


def example(name):
    with open(os.path.join(EXAMPLES, name), "rb") as file:
        return file.read()


def started(case, kind="", at=0, rest=False, how="", told=""):
    """Runs the program, and returns its status and what it wrote."""
    words = {"REFUSE_KIND": kind, "REFUSE_AT": str(at), "REFUSE_REST": str(int(rest)), "REFUSE_AS": how, "REFUSE_TOLD": told}
    given = {**os.environ, **words, "LD_PRELOAD": LIBRARY} if kind else dict(os.environ)
    ran = subprocess.run([PROGRAM, *case.words], input=case.text, env=given, stdout=subprocess.PIPE, stderr=subprocess.PIPE, timeout=SECONDS)
    return ran.returncode, ran.stdout


def counted(case, kind, at=0, rest=False, how=""):
    """What a run answered, how many calls of the kind were made, and how many writes came after a refused one."""
    told = os.path.join(FOLDER, f"told-{kind}-{at}-{int(rest)}-{how}-{id(case)}")
    answer = started(case, kind, at, rest, how, told)
    with open(told, "rb") as file:
        calls, after = struct.unpack("QQ", file.read(16))
    os.remove(told)
    return answer, calls, after


def is_history_with_verdict(answer):
    """A run's history and verdict, which another run of the program finds to be evidence."""
    status, text = answer
    return status in (0, 1) and started(Case(["verify"], text)) == (0, b"VALID\n")


def wrong_growth(case, answer, after):
    if answer in (case.plain, MEMORY):
        return ""
    if case.is_run and answer[0] == 3 and RUN_FAULT.match(answer[1]):
        return ""
    if "--initial" in case.words and answer[0] == 3 and PRELOAD_FAULT.match(answer[1]):
        return ""
    if case.is_run and is_history_with_verdict(answer):
        return ""
    return "neither the answer of ample memory nor a fault"


def wrong_write(case, answer, after):
    status, text = answer
    if status != 3:
        return "a refused write is no fault"
    if after:
        return "something is written after a refused write"
    if not case.is_run and not case.plain[1].startswith(text):
        return "what is written is no front of the text"
    return ""


def wrong_message(case, answer, after):
    if after:
        return "something is told after a refused write"
    return "" if answer == case.plain else "a refused write to standard error changes the answer"


def wrong_read(case, answer, after):
    return "" if answer == READ else "a refused read is no fault"


def wrong_thread(case, answer, after):
    if not case.is_run:
        return "" if answer == case.plain else "not the answer that threads give"
    if answer[0] == 3 and RUN_FAULT.match(answer[1]):
        return ""
    return "" if is_history_with_verdict(answer) else "neither a history nor a fault of a run"


WRITES = ("full", "broken", "interrupted", "nothing")
JUDGES = {"growth": wrong_growth, "write": wrong_write, "message": wrong_message, "read": wrong_read, "thread": wrong_thread}


def cases():
    history, violated = example("hidden-order.history"), example("never-empty.history")
    claim = started(Case(["check"], violated))[1]
    filled = example("initial-content.history")
    filled_claim = started(Case(["check"], filled))[1]
    return [
        Case(["check"], history),
        Case(["check"], violated),
        Case(["check"], example("pending.history")),
        Case(["check"], b"fifo-history 1\nnothing\n"),
        Case(["check"], many_windows(), kinds=("growth", "thread")),
        Case(["shrink"], violated),
        Case(["verify"], violated + claim),
        Case(["draw"], violated + claim),
        Case(["draw", "--text"], violated + claim),
        Case(["convert"], violated),
        Case(["stats"], violated),
        *[Case([command], filled) for command in ("check", "shrink", "convert", "stats")],
        Case(["verify"], filled + filled_claim),
        Case(["draw"], filled + filled_claim),
        Case(["draw", "--text"], filled + filled_claim),
        Case(["sim"], example("full-ring.schedule")),
        # Each ring has room for all events of its worker: without a collector a full one stalls, after ten seconds or more.
        Case(["stress", "--queue", "locked", "--threads", "3", "--ops", "20", "--ring", "64"], is_run=True),
        Case(["stress", "--queue", "seg", "--threads", "2", "--ops", "20"], is_run=True),
        Case(["stress", "--queue", "locked", "--threads", "2", "--ops", "20", "--ring", "64", "--initial", "40"], is_run=True),
        Case(["stress", "--queue", "none"]),
        Case(["help"]),
        Case(["help", "stress"]),
        Case(["no-such-command"]),
    ]


def tries_of(case):
    """The refusals to try: a kind, a place, whether all later ones are refused, and how."""
    for kind in case.kinds:
        calls = counted(case, kind)[1]
        # A run makes another number of calls each time: some more places are tried.
        last = min(calls + 20 if case.is_run and calls else calls, MOST_CALLS)
        for at in range(1, last + 1):
            for how in {"write": WRITES, "message": WRITES, "read": ("broken", "interrupted")}.get(kind, ("",)):
                yield kind, at, False, how
                if kind != "read":
                    yield kind, at, True, how


def judge(case, kind, at, rest, how):
    """What is wrong with the answer, or nothing; and whether a call was refused at all."""
    try:
        answer, calls, after = counted(case, kind, at, rest, how)
    except subprocess.TimeoutExpired:
        return True, "it hangs"
    if calls < at:
        return False, ""
    if answer[0] not in (0, 1, 2, 3):
        return True, f"status {answer[0]}"
    return True, JUDGES[kind](case, answer, after)


def main():
    begun, tried, wrong = time.time(), {}, []
    with ThreadPoolExecutor(LANES) as pool:
        for case in cases():
            case.plain = started(case)
            told = [(words, pool.submit(judge, case, *words)) for words in tries_of(case)]
            for (kind, at, rest, how), result in told:
                was_refused, why = result.result()
                tried[kind] = tried.get(kind, 0) + was_refused
                if why:
                    wrong.append(f"{case}: {kind} {at}{' and all later ones' if rest else ''} {how}: {why}")
    for line in wrong[:20]:
        print(f"faults: WRONG {line}")
    of_kinds = ", ".join(f"{count} {kind}s" for kind, count in tried.items())
    print(f"faults: refused in turn: {of_kinds}; {len(wrong)} wrong answers, {time.time() - begun:.0f} s")
    return 1 if wrong else 0


sys.exit(main())

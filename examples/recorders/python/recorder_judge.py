"""What a search asks of the program, and the files of its runs.

These are histories, reports, and the texts of runs that end early.

Beside `recorder.py`, which loads it.
"""

import enum
import os
import re
import subprocess
import sys
import time

MAX_DRAWN = 400    # operations or initial values in a picture
FLAGS = {"linearizable": "", "local": " --local", "weak-empty": " --weak-empty", "both": " --local --weak-empty"}


class Answer(enum.IntEnum):
    """What a search found; its number is the status that a program ends with."""

    NO_VIOLATION = 0
    VIOLATION = 1
    WRONG = 2    # no program, a refused history, a hang, an exception: what is wrong is said on standard error


class Progress:
    """How far a search is, on a terminal: from two seconds on, until something else is printed."""

    is_shown = False

    def __init__(self):
        self.next = time.monotonic() + 2

    def show(self, done, left):
        if sys.stderr.isatty() and time.monotonic() >= self.next:
            self.next = time.monotonic() + 0.2
            Progress.is_shown = True
            print(f"\rfifobench: {done} runs done, {left} left, 0 found\033[K", end="", file=sys.stderr, flush=True)

    @staticmethod
    def erase():
        if Progress.is_shown:
            Progress.is_shown = False
            print("\r\033[K", end="", file=sys.stderr, flush=True)


def say(line):
    Progress.erase()
    print(f"fifobench: {line}", file=sys.stderr, flush=True)


def told_calls(calls):
    told = [f"thread {thread} is inside " + (f"enqueue of {value}" if what == "call-enq" else "dequeue")
            for _, thread, what, value in calls]
    return ", ".join(told) or "no thread is inside a call"


def end_early(options, history, tell_again=None):
    """Keeps what there is of a run that ended early, says how it ended, and judges it."""
    told = list(history.failures)
    if history.ending in ("hang", "exception"):    # else said by thread, with the places
        told.append(told_calls(history._open_calls()))
    say(f"seed {options.seed}: {'; '.join(told)}")
    try:
        pending = keep(options, "pending", history.text())
        print(f"  pending: {pending}", file=sys.stderr, flush=True)
        return _judge_pending(options, history, pending, tell_again)
    except OSError as error:
        say(str(error))
        return Answer.WRONG


class Found:
    """What the runs of a search have shown: of each seed the last one that was made."""

    def __init__(self, runs, is_judged):
        self.runs = runs
        self.is_judged = is_judged
        self.operations = self.overlapping = self.without_overlap = self.again = 0

    def answer(self, options, run):
        """The answer to the run of a seed.

        Threads that haven't met have shown little, so a run without overlap is made again: three times, and in a search
        no more often than it has runs.
        """
        left = 3 if options.threads > 1 else 0
        while True:
            history = run(options)
            given = self._answer(options, history)
            operations, overlapping = history.overlapping()
            if given != Answer.NO_VIOLATION or overlapping or not left or self.again == self.runs:
                self.operations += operations
                self.overlapping += overlapping
                self.without_overlap += not overlapping
                return given
            left -= 1
            self.again += 1

    def _answer(self, options, history):
        try:
            return answer(options, history, self.is_judged)
        except OSError as error:
            say(str(error))
            return Answer.WRONG

    def told(self):
        share = 100 * self.overlapping // max(1, self.operations)
        return f"; {share} of 100 operations overlap another; runs without overlap: {self.without_overlap}"


def tell_none(options, is_judged, first, runs, more):
    """Says that no run is a violation, and what else there is to say."""
    Progress.erase()
    told = "no violation" if is_judged else "nothing judged"
    condition = _told_condition(options)
    print(f"{told} in {runs} runs (seeds {first} to {first + runs - 1}){condition}{more}", flush=True)
    return Answer.NO_VIOLATION if is_judged else Answer.WRONG


def tell_kept(options, found, is_judged, made, events):
    if options.keep and is_judged and found != Answer.WRONG:
        print(f"  kept:    {made} judged runs with {events} events in {options.folder}", flush=True)


def answer(options, history, is_judged):
    """The answer of a search to one run."""
    if history.answer is not None:
        return history.answer
    if history.failures:
        return end_early(options, history)
    if not is_judged or options.keep:
        keep(options, "history", history.text())
    return judge_text(options, history.text()) if is_judged else Answer.NO_VIOLATION


def keep(options, kind, text):
    """Writes a text into the folder, and gives the path."""
    os.makedirs(options.folder, exist_ok=True)
    path = os.path.join(options.folder, f"{options.seed}.{kind}")
    with open(path, "w", encoding="ascii", newline="\n") as to:
        to.write(text)
    return path


def name_killed(options, runs):
    """Names the texts that killed runs of an earlier search have left: they lack the last line."""
    for seed in range(options.seed, options.seed + runs):
        path, killed = (os.path.join(options.folder, f"{seed}.{kind}") for kind in ("pending", "killed"))
        try:
            with open(path, "rb") as file:
                last = file.read().splitlines(keepends=True)[-1:]
            if not last or not (last[0].startswith(b"end ") and last[0].endswith(b"\n")):
                os.replace(path, killed)
                say(f"seed {seed} was killed in an earlier search")
                _tell_judge(options, "complete --cut", killed)
        except FileNotFoundError:
            pass


def program_of(options):
    return options.program or os.environ.get("FIFOBENCH") or "fifobench"


def is_found(options):
    """Whether the program can be started; if it can't, a line says so."""
    try:
        subprocess.run([program_of(options), "help"], stdout=subprocess.DEVNULL, stderr=subprocess.DEVNULL, check=False)
        return True
    except OSError:
        say(f"no program '{program_of(options)}': nothing is judged; the histories are kept in {options.folder}")
        return False


def _told_condition(options):
    """The condition of a search and its bound, as its answer has them; empty if they are the default."""
    told = "" if options.condition == "linearizable" else f", condition {options.condition}"
    return told if options.overtaken_at_most is None else f"{told}, overtaken-at-most {options.overtaken_at_most}"


def _with_flags(options, command):
    """A command, with the flags that are the condition of the options."""
    has_flags = command.split()[0] in ("check", "shrink", "draw")
    return command + FLAGS[options.condition] if has_flags else command


def ask(options, command, text):
    """Returns what the program writes about this text, and its status."""
    words = [program_of(options), *_with_flags(options, command).split()]
    told = subprocess.run(words, input=text.encode("ascii"), stdout=subprocess.PIPE, stderr=subprocess.DEVNULL,
                          check=False)
    return told.stdout.decode("ascii", "replace"), told.returncode


def _tell_plan(options):
    seed, pattern = options.seed, options.pattern_of(options.seed)
    print(f"  again:   seed {seed}, pattern {pattern}: the same plan, though threads may meet in another way")


def _tell_judge(options, command, path):
    program = program_of(options)
    check = _with_flags(options, "check")
    print(f"  judge:   {program} {command} < {path} | {program} {check}", file=sys.stderr, flush=True)


def verdict_on(options, text, is_completed=False):
    """What `check` says of a history: YES, or NO and what is violated.

    It says so by the condition of the options, and unless it completes pending calls by their bound on overtaking. A
    bound judges the order of values in place of `check`, but for that of each producer's own. OSError is raised if the
    program says something else.
    """
    said, status = ask(options, "check", text)
    verdict = said.partition("\n")[0]
    if status not in (0, 1):
        kept = keep(options, "history", text)
        raise OSError(f"{program_of(options)} says '{verdict}' of {kept}")
    is_ordered = status == 1 and (options.condition in ("local", "both") or verdict != "NO VOrd")
    if options.overtaken_at_most is None or is_completed or is_ordered:
        return verdict
    found = re.search(r"^overtaken-at-most (\d+)$", ask(options, "stats", text)[0], re.M)
    if found is None:
        raise OSError(f"{program_of(options)} has no overtaken-at-most in stats, which a later version has")
    is_met = int(found[1]) <= options.overtaken_at_most
    return "YES" if is_met else f"NO overtaken-at-most {options.overtaken_at_most}"


def _drawn_in(options, text, kept):
    """The second command of `see it:`, which draws the violation with what runs beside it: the report leaves that out.

    `draw` refuses more than 400 operations; then there is none.
    """
    for command in ("draw --text --around 20", "draw --text"):
        if ask(options, command, text)[1] == 0:
            return f"\n           {program_of(options)} {_with_flags(options, command)} < {kept}"
    return ""


def judge_text(options, text, tell_again=None, is_completed=False):
    """Judges a history, which may be a completion of pending calls, and says of a violation where it is kept."""
    verdict = verdict_on(options, text, is_completed)
    if verdict == "YES":
        return Answer.NO_VIOLATION
    if is_completed and _told_condition(options):
        say(f"{verdict} of one completion{_told_condition(options)}: another one may be a YES")
        return Answer.WRONG
    kept = keep(options, "history", text)
    seen = _told_violation(options, text, verdict, kept)
    why = ": the queue is wrong, whatever the pending calls do" if is_completed else ""
    Progress.erase()
    print(f"{verdict}: seed {options.seed}, {options.pattern_of(options.seed)}{why}\n  history: {kept}\n{seen}")
    if tell_again is None:
        _tell_plan(options)
    else:
        tell_again(verdict)
    sys.stdout.flush()
    return Answer.VIOLATION


def _told_violation(options, text, verdict, kept):
    """The lines of a violation after its history: the report and pictures, or the dequeue that overtakes most."""
    program = program_of(options)
    if verdict.startswith("NO overtaken-at-most "):
        rows = re.findall(r"^(\d+) (\d+) (\d+)$", ask(options, "stats --overtakes", text)[0], re.M)
        told = f"not named by {program}"
        if rows:
            count, ticket, value = max(rows, key=lambda row: int(row[0]))
            told = f"that of {value}, called at ticket {ticket}, overtakes {count} values"
        return f"  dequeue: {told}\n  see it:  {program} stats --overtakes < {kept}"
    report = keep(options, "report", ask(options, "shrink", text)[0])
    drawn = _with_flags(options, "draw --text")
    return f"  report:  {report}\n  see it:  {program} {drawn} < {report}{_drawn_in(options, text, kept)}"


_FAULTS = {"exception": "If the queue promises not to raise, the exception itself is the fault.",
           **{ending: f"If the queue promises to return, the {ending} itself is the fault."
              for ending in ("hang", "deadlock", "livelock")}}


def _judge_pending(options, history, pending, tell_again):
    """Judges the completion of a pending text, or prints the command that does."""
    try:
        completed, status = ask(options, "complete", history.text())
    except OSError:
        _tell_judge(options, "complete", pending)
        return Answer.WRONG
    if status == 0:
        found = judge_text(options, completed, tell_again, is_completed=True)
        if found == Answer.NO_VIOLATION:
            is_drawn = max(len(history.operations()), len(history._initial)) <= MAX_DRAWN
            program = program_of(options)
            see = f"{program} draw --text < {pending}" if is_drawn else f"tail -n 40 < {pending}"
            print(f"YES: a right queue can have behaved so until then. {_FAULTS[history.ending]}\n"
                  f"  see it:  {see}", file=sys.stderr, flush=True)
            if tell_again is not None:
                tell_again(history.ending)
        return Answer.VIOLATION if found == Answer.VIOLATION else Answer.WRONG
    if completed.startswith("REFUSED "):
        say(f"{program_of(options)} says '{completed.splitlines()[0]}' of {pending}")
    else:
        say(f"{program_of(options)} has no command complete, which a later version has")
    _tell_judge(options, "complete", pending)
    return Answer.WRONG

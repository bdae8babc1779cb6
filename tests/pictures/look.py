"""Draws seeded histories with the program and looks at the places of all texts, pills and bars.

A text of n characters takes its `textLength` from its x on, and from 10 pixels above its y to 3 below.
"""

import random
import subprocess
import sys
import xml.etree.ElementTree as tree

NAME = "{http://www.w3.org/2000/svg}"


def history(rng):
    """The text of a history of some threads, whose answers are mostly a queue's."""
    threads, operations = rng.randint(1, 8), rng.randint(1, 24)
    digits = rng.choice([1, 2, 5, 11, 20])
    wrong = rng.choice([0.0, 0.0, 0.1, 0.3])
    names = [rng.randrange(64) for _ in range(threads)] if rng.random() < 0.3 else list(range(threads))
    threads = sorted(set(names))
    values = rng.sample(range(10 ** (digits - 1), min(10 ** digits, 2 ** 64)), min(9, operations)) if digits == 1 else None
    lines, pending, queue, given, ticket, left = [], {}, [], [], rng.choice([0, 999_999_990_000]), operations
    for _ in range(rng.choice([0, 0, 0, 1, 2, 5])):
        value = values.pop() if values else rng.randrange(10 ** (digits - 1), min(10 ** digits, 2 ** 64))
        if value not in given and (values is None or values):
            given.append(value)
    queue.extend(given)
    first = ["fifo-history 2", f"initial {len(given)}"] + [str(value) for value in given] if given else ["fifo-history 1"]
    while left or pending:
        thread = rng.choice(threads)
        ticket += rng.choice([1, 1, 1, 7])
        if thread not in pending:
            if not left:
                continue
            left -= 1
            if rng.random() < 0.5:
                value = values.pop() if values else rng.randrange(10 ** (digits - 1), min(10 ** digits, 2 ** 64))
                if value in given or (values is not None and not values):
                    pending[thread] = None
                    lines.append(f"{ticket} {thread} call-deq")
                    continue
                given.append(value)
                pending[thread] = value
                lines.append(f"{ticket} {thread} call-enq {value}")
            else:
                pending[thread] = None
                lines.append(f"{ticket} {thread} call-deq")
            continue
        value = pending.pop(thread)
        if value is not None:
            taken = rng.random() > 0.1
            if taken:
                queue.append(value)
            lines.append(f"{ticket} {thread} {'ret-enq' if taken else 'ret-not'}")
        elif rng.random() < wrong:
            lines.append(f"{ticket} {thread} {mistake(rng, queue, given, digits)}")
        elif queue:
            lines.append(f"{ticket} {thread} ret-deq {queue.pop(0)}")
        else:
            lines.append(f"{ticket} {thread} ret-empty")
    return "\n".join(first + lines + [f"end {len(lines)}", ""])


def mistake(rng, queue, given, digits):
    """An answer to a dequeue that a queue may not give."""
    which = rng.random()
    if which < 0.2 and given:
        return f"ret-deq {rng.choice(given)}"
    if which < 0.6 and len(queue) > 1:
        return f"ret-deq {queue.pop(rng.randrange(1, len(queue)))}"
    if which < 0.7:
        return f"ret-deq {rng.randrange(10 ** (digits - 1), min(10 ** digits, 2 ** 64))}"
    return "ret-empty"


def run(program, words, text):
    done = subprocess.run([program, *words], input=text.encode(), stdout=subprocess.PIPE, check=False)
    return done.stdout.decode("ascii"), done.returncode


def drawn(text, answer, around):
    """How many operations are to be drawn with the answer, and this many events around those that it lists, or all events if that is
    None; and how many initial values: those that the answer lists, or such an operation has."""
    tickets, pending, operations = [], {}, []
    for fields in (line.split() for line in text.splitlines()):
        if len(fields) > 2:
            tickets.append(int(fields[0]))
            if fields[2].startswith("call-"):
                pending[fields[1]] = fields
            else:
                call = pending[fields[1]]
                operations.append((int(call[0]), int(fields[0]), (call + fields[3:])[-1]))
    lines = [line.split() for line in answer.splitlines()]
    if lines[0][0] != "YES" and around is not None:
        place = {ticket: i for i, ticket in enumerate(tickets)}
        shown = [(place[int(line[0])], place[int(line[1])]) for line in lines[1:] if line[0] != "init"]
        operations = [(call, ret, value) for call, ret, value in operations
                      if any(place[call] - around <= to and at - around <= place[ret] for at, to in shown)]
    values = {value for _, _, value in operations} | {line[1] for line in lines[1:] if line[0] == "init"}
    return len(operations), sum(line in values for line in first_values(text))


def first_values(text):
    """The initial values of a text."""
    lines = text.splitlines()
    return lines[2:2 + int(lines[1].split()[1])] if lines[0] == "fifo-history 2" else []


def box(element):
    """The left, upper, right and lower edge of a text or a rectangle."""
    x, y = int(element.get("x")), int(element.get("y"))
    if element.tag == NAME + "text":
        return x, y - 10, x + int(element.get("textLength")), y + 3
    return x, y, x + int(element.get("width")), y + int(element.get("height"))


def frame(group):
    """The edges of a bar. The lower one of an operation that never returned is cut off by a window."""
    left, upper, right, lower = box(next(group.iter(NAME + "rect")))
    window = group.find(NAME + "svg")
    return left, upper, right, lower if window is None else min(lower, int(window.get("height")))


def meet(a, b):
    return a[0] < b[2] and b[0] < a[2] and a[1] < b[3] and b[1] < a[3]


def within(a, b):
    return b[0] <= a[0] and b[1] <= a[1] and a[2] <= b[2] and a[3] <= b[3]


def faults(picture, operations, held):
    """What is wrong with a picture, by its numbers of operations and of initial values."""
    root = tree.fromstring(picture)
    whole = (0, 0, int(root.get("width")), int(root.get("height")))
    found = []
    texts = [t for t in root.iter(NAME + "text")]
    boxes = [(box(t), t.text) for t in texts]
    for place, words in boxes:
        if not within(place, whole):
            found.append(f"outside: {words}")
    for i, (place, words) in enumerate(boxes):
        for other, more in boxes[i + 1:]:
            if meet(place, other):
                found.append(f"meet: {words} and {more}")
    bars = [g for g in root.iter(NAME + "g")]
    if len(bars) != held + operations:
        found.append(f"{len(bars)} bars of {held} values and {operations} operations")
    values = [g for g in bars if g.find(NAME + "title").text.startswith("init ")]
    tops = [frame(g) for g in values + [g for g in bars if g not in values]]
    for i in range(held):
        if any(tops[i][3] > later[1] for later in tops[i + 1:]):
            found.append(f"value {i} doesn't stand above what comes later")
    pills = [box(r) for r in root.iter(NAME + "rect") if r.get("class") == "pill"][1:]
    numbers = [(box(t), t.text) for t in texts if t.get("class") == "pick"][1:]
    for pill in pills:
        inside = [number for number in numbers if within(number[0], pill)]
        if len(inside) != 1:
            found.append(f"{len(inside)} numbers in a pill")
        if not any(within(pill, top) for top in tops):
            found.append(f"in no bar: {inside}")
        for place, words in boxes:
            if (place, words) not in inside and meet(place, pill):
                found.append(f"under a pill: {words}")
    if len(pills) != len(numbers):
        found.append(f"{len(pills)} pills and {len(numbers)} numbers")
    for group in bars:
        bar = frame(group)
        label = next((box(t), t.text) for t in group.iter(NAME + "text"))
        if not within(label[0], bar):
            found.append(f"not in its bar: {label[1]}")
        for place, words in boxes:
            if (place, words) != label and (place, words) not in numbers and meet(place, bar):
                found.append(f"under a bar: {words}")
        if not within(bar, whole):
            found.append("a bar outside")
    return found


def main():
    program, looked, wrong, answers = sys.argv[1], 0, 0, {}
    for seed in range(400):
        text = history(random.Random(seed))
        answer, status = run(program, ["check"], text)
        if status > 1:
            answers["refused"] = answers.get("refused", 0) + 1
            continue
        kind = answer.splitlines()[0].strip()
        answers[kind] = answers.get(kind, 0) + 1
        for words, around in (["--all"], None), ([], 0), (["--around", "3"], 3):
            picture, status = run(program, ["draw", *words], text + answer)
            found = faults(picture, *drawn(text, answer, around)) if status == 0 else [f"status {status}"]
            looked += 1
            if found:
                wrong += 1
                print(f"pictures: seed {seed}, {kind}, {' '.join(words)}: " + "; ".join(found[:4]))
    print(f"pictures: {looked} looked at ({', '.join(f'{n} {k}' for k, n in sorted(answers.items()))}), {wrong} wrong")
    return 1 if wrong or not looked else 0


if __name__ == "__main__":
    sys.exit(main())

"""Draws seeded histories as pages, reads in a browser what each offers to be copied, and has it verified.

    copied.py PROGRAM CHROMIUM

What is copied is a history with the verdict of `check` on the whole, and `verify` finds it VALID. Each kind of verdict has
40 pages, and a history without operations has one. The status is 0 if all is as it should be.
"""

import html
import json
import os
import random
import subprocess
import sys
import tempfile

import look

KINDS = ["YES", "NO VFresh", "NO VRepeat", "NO VOrd", "NO VWit"]
OF_EACH = 40
EMPTY = "fifo-history 1\nend 0\n"
# Puts what each page offers into the document, once all pages are there.
READS = """<script>addEventListener('load', () => {
const said = [...document.querySelectorAll('iframe')].map(f => f.contentDocument.getElementById('text').value);
document.body.textContent = JSON.stringify(said); });</script>"""


def pages(program):
    """Pages of seeded histories, each with its verdict's first line, and that of a history without operations."""
    made, counts, seed = [("YES", look.run(program, ["draw", "--html"], EMPTY)[0])], dict.fromkeys(KINDS, 0), 0
    while min(counts.values()) < OF_EACH:
        rng = random.Random(seed)
        seed += 1
        text = look.history(rng)
        kind = look.run(program, ["check", "--quiet"], text)[0].strip()
        if counts.get(kind, OF_EACH) < OF_EACH:
            words = rng.choice([[], ["--around", "5"], ["--all"]])
            page, status = look.run(program, ["draw", "--html", *words], text)
            if status == 0:
                counts[kind] += 1
                made.append((kind, page))
    return made


def copied(chromium, made):
    """What the pages offer, by one run of the browser."""
    with tempfile.TemporaryDirectory() as folder:
        path = os.path.join(folder, "pages.html")
        with open(path, "w", encoding="ascii") as file:
            file.write("<!DOCTYPE html><title>pages</title><body>" + READS)
            file.writelines(f'<iframe srcdoc="{html.escape(page)}"></iframe>' for _, page in made)
        words = ["--headless", "--no-sandbox", "--disable-gpu", f"--user-data-dir={folder}/profile", "--dump-dom"]
        done = subprocess.run([chromium, *words, f"file://{path}"], stdout=subprocess.PIPE, stderr=subprocess.DEVNULL, check=False)
    body = html.unescape(done.stdout.decode()).partition("<body>")[2].partition("</body>")[0]
    return json.loads(body)


def main(program, chromium):
    made = pages(program)
    right = wrong = 0
    for (kind, _), text in zip(made, copied(chromium, made), strict=True):
        said = look.run(program, ["verify"], text)[0].strip()
        if said == "VALID" and f"\n{kind}\n" in text:
            right += 1
        else:
            wrong += 1
            print(f"copied: {kind}: verify says {said} of what is copied:\n{text}")
    print(f"copied: {right} texts are valid, {wrong} not")
    return 1 if wrong or right < OF_EACH * len(KINDS) else 0


if __name__ == "__main__":
    sys.exit(main(*sys.argv[1:]))

#!/usr/bin/env bash
# Measures the cost of `complete` beside `check`, on a history of 64 threads,
# each of which has a pending call. Nothing here is a test.
#
#   bench/complete.sh [PROGRAM]      PROGRAM is the built fifobench; by default
#                                    that of this repository
#
# Settings by environment:
#   BENCH_SIZES    numbers of events before the last return of each thread is
#                  left out (default "200000 2000000")
#   BENCH_ROUNDS   runs of each command on each history (default 9)
#
# Prints a line for each size: processor time and peak memory of `complete` for
# the pending text, and of `check` for what it writes, and the median of the
# rounds' ratios of time. Needs rustc and python3. The figures mean something
# only on an idle machine.
set -euo pipefail
here=$(cd "$(dirname "${BASH_SOURCE[0]}")" && pwd)
. "$here/../tools/heads"
program=$(realpath "${1:-$here/../crates/fifobench/out/fifobench}")
if [ ! -x "$program" ]; then
  echo "bench: no program at $program" >&2
  exit 2
fi
folder=$(mktemp -d)
trap 'rm -rf "$folder"' EXIT
for name in generate meter; do
  rustc --edition 2021 -C opt-level=3 "$here/$name.rs" -o "$folder/$name"
done
for size in ${BENCH_SIZES:-200000 2000000}; do
  "$folder/generate" wide "$size" 64 1 >"$folder/whole"
  python3 -B - "$folder" "$program" "$size" "${BENCH_ROUNDS:-9}" <<'END_OF_PYTHON'
import os
import statistics
import subprocess
import sys

folder, program, size, rounds = sys.argv[1], sys.argv[2], int(sys.argv[3]), int(sys.argv[4])


def at(name):
    return os.path.join(folder, name)


def pending_text():
    """Leaves out the last return of each thread, so that each has a pending call."""
    with open(at("whole"), encoding="ascii") as it:
        lines = it.read().split("\n")[1:-2]
    left, kept = set(), []
    for line in reversed(lines):
        thread = line.split(" ", 2)[1]
        if thread not in left:
            left.add(thread)
        else:
            kept.append(line)
    with open(at("pending"), "w", encoding="ascii") as it:
        it.write("\n".join(["fifo-pending 1", *reversed(kept), f"open {len(left)}", f"end {len(kept)}", ""]))
    return len(kept), len(left)


def run(command, source, to):
    line = subprocess.run([at("meter"), at(source), to, program, command], stdout=subprocess.PIPE, check=True).stdout
    user, system, peak, _, status = map(int, line.split())
    if status > 1:
        sys.exit(f"bench: {command} ends with status {status}")
    return (user + system) / 1000, peak / 1024


events, calls = pending_text()
run("complete", "pending", at("completed"))
ran = [(run("complete", "pending", os.devnull), run("check", "completed", os.devnull)) for _ in range(rounds)]
times = [statistics.median(both[which][0] for both in ran) for which in (0, 1)]
peaks = [max(both[which][1] for both in ran) for which in (0, 1)]
ratio = statistics.median(first[0] / second[0] for first, second in ran)
print(f"{events} events, {calls} pending: complete {times[0]:.0f} ms, {peaks[0]:.0f} MiB; "
      f"check {times[1]:.0f} ms, {peaks[1]:.0f} MiB; time {ratio:.2f}")
END_OF_PYTHON
done
read -r load _ </proc/loadavg
echo "load: $load, processors: $(nproc)"

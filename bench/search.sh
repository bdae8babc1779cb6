#!/usr/bin/env bash
# Measures `check` beside a search for a linearization (Wing and Gong 1993, with
# Lowe's memo of 2017), as bench/search.rs makes it: time against events, by
# number of threads, for histories that are linearizable and others that aren't.
#
#   bench/search.sh [PROGRAM]      PROGRAM is the built fifobench; by default
#                                  that of this repository
#
# Settings by environment:
#   BENCH_THREADS   numbers of threads (default "2 4 8 16")
#   BENCH_KINDS     kinds of history, as bench/generate.rs has them (default
#                   "yes repeat")
#   BENCH_SIZES     numbers of events (default "20 50 100 200 500 1000 2000 5000
#                   20000 200000 2000000")
#   BENCH_ROUNDS    histories of each size, from seeds 1, 2, ..; a time is their
#                   median (default 3)
#   BENCH_SECONDS   seconds after which a search is given up (default 60)
#   BENCH_ENTRIES   maximum number of entries of its memo (default 50000000)
#
# Once the median search of a size doesn't end, larger ones aren't tried;
# `check` is measured at all sizes. The answers of both are compared. Needs
# rustc and python3. The figures mean something only on an idle machine.
set -euo pipefail
here=$(cd "$(dirname "${BASH_SOURCE[0]}")" && pwd)
. "$here/../tools/heads"
program=$(realpath "${1:-$here/../crates/fifobench/out/fifobench}")
if [ ! -x "$program" ]; then
  echo "bench: no program at $program" >&2
  exit 2
fi
folder=$(mktemp -d)
trap 'rm -rf "$folder"' EXIT
for name in search generate meter; do
  rustc --edition 2021 -C opt-level=3 "$here/$name.rs" -o "$folder/$name"
done
python3 -B "$here/search.py" "$folder" "$program"

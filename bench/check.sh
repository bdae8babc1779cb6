#!/usr/bin/env bash
# Measures how fast `check` is beside a plain checker in Rust: ratios of time
# and memory, growth, the stages, and the cost of a weaker condition. Nothing
# here is a test.
#
#   bench/check.sh [PROGRAM]      PROGRAM is the built fifobench; by default
#                                 that of this repository
#
# Settings by environment:
#   BENCH_SIZES    numbers of events (default "20000 200000 2000000")
#   BENCH_KINDS    kinds of history, as bench/generate.rs has them (default "yes
#                  names wide never refused empty initial fresh repeat order
#                  witness initial-witness long")
#   BENCH_ROUNDS   runs of each program on each history (default 9)
#
# Needs rustc and python3. The figures mean something only on an idle machine:
# the last line says how busy it was.
set -euo pipefail
here=$(cd "$(dirname "${BASH_SOURCE[0]}")" && pwd)
. "$here/../tools/heads"
program=$(realpath "${1:-$here/../crates/fifobench/out/fifobench}")
if [ ! -x "$program" ]; then
  echo "bench: no program at $program" >&2
  exit 2
fi
folder=$(mktemp -d)
trap 'rm -rf "$folder"' EXIT
for name in plain_checker generate meter; do
  rustc --edition 2021 -C opt-level=3 "$here/$name.rs" -o "$folder/$name"
done
python3 -B "$here/measure.py" "$folder" "$program"

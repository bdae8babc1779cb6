#!/usr/bin/env bash
# Measures how far the operations of a run's workers overlap, beside a plain
# recorder in Rust, and the cost of a run.
#
#   bench/meeting.sh [SEEDS]     makes SEEDS runs (default 50) of each sound
#                                queue with 2 workers, and as many with 4
#
# Needs rustc and python3 besides what the program needs. The figures mean
# something only on an idle machine: the last line says how busy it was.
set -euo pipefail
top=$(cd "$(dirname "${BASH_SOURCE[0]}")/.." && pwd)
. "$top/tools/heads"
folder=$(mktemp -d)
trap 'rm -rf "$folder"' EXIT
rustc --edition 2021 -O "$top/bench/plain_recorder.rs" -o "$folder/plain_recorder"
# Builds the program if it isn't.
"$top/fifobench" help >/dev/null
python3 -B "$top/bench/meeting.py" "$top/crates/fifobench/out/fifobench" "$folder/plain_recorder" "${1:-50}"

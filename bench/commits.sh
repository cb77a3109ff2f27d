#!/usr/bin/env bash
# Calls of the disk for a commit of 1, 10 and 240 blocks, `2 m + 3` writes and four barriers for m blocks, and for the replay of one that a
# crash cut short behind the barrier of its open gate.
set -eu
top=$(cd "$(dirname "$0")/.." && pwd)
program=$top/crates/commit_calls/out/commit_calls
[ -x "$program" ] || { echo "build the program first: 'rt run' in crates/commit_calls" >&2; exit 1; }
"$program"

#!/usr/bin/env bash
# Calls of the disk for a write and a read of 16,384 bytes at the end of a file, for files up to the longest.
# Their number doesn't grow with the file's length, but for the indirect block past the first twelve blocks, and for a
# second bitmap block where the first group is full.
set -eu
top=$(cd "$(dirname "$0")/.." && pwd)
program=$top/crates/file_calls/out/file_calls
[ -x "$program" ] || { echo "build the program first: 'rt run' in crates/file_calls" >&2; exit 1; }
"$program"

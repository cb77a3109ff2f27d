#!/usr/bin/env bash
# Time and peak memory of `icefs run` on a script of 64 MiB of `cubes` lines, against `grep -c` on the same file in the same run.
# The figure is the first one, with the replies going to a regular file: it is to stay within 10 times grep, and 32 MiB.
# The second has them go to /dev/null, which leaves the program's own cost.
# Replies are held back and sent before the next piece of the script is read, so a write carries those to many lines.
set -eu
top=$(cd "$(dirname "$0")/.." && pwd)
program=$top/crates/icefs/out/icefs
[ -x "$program" ] || { echo "build the program first: 'rt run' in crates/icefs" >&2; exit 1; }
folder=$(mktemp -d)
trap 'rm -rf "$folder"' EXIT
cd "$folder"
"$program" format img --slots 4 --groups 16
# 11,184,810 lines of 6 bytes are 67,108,860 bytes.
yes cubes | head -n 11184810 > script
python3 - "$program" <<'PY'
import os, subprocess, sys, time

def timed(words, sink):
    start = time.monotonic()
    with open('script', 'rb') as script, open(sink, 'wb') as out:
        child = subprocess.Popen(words, stdin=script, stdout=out)
        _, status, usage = os.wait4(child.pid, 0)
    seconds = time.monotonic() - start
    assert os.waitstatus_to_exitcode(status) == 0
    return seconds, usage.ru_maxrss

def best(words, sink):
    return min(timed(words, sink) for _ in range(3))

lines = sum(1 for _ in open('script', 'rb'))
# To /dev/null grep would stop at its first match.
grep, _ = best(['grep', '-c', 'cubes'], 'count')
for sink in ('replies', os.devnull):
    run, peak = best([sys.argv[1], 'run', 'img'], sink)
    print(f'{lines} lines to {sink}: {lines / run:,.0f} lines/s, {run / grep:.1f} times grep -c, peak {peak / 1024:.1f} MiB')
assert open('replies', 'rb').read() == b'ok 0\n' * lines
PY

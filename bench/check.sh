#!/usr/bin/env bash
# What a check of the largest lot takes: its reads, and its time as a ratio to that of 'e2fsck -fn' on an ext4 image with as many
# files and directories of the same sizes. Each is run in turn, over an image that the system holds in memory; the medians count.
set -eu
top=$(cd "$(dirname "$0")/.." && pwd)
program=${1:-$top/crates/check_calls/out/check_calls}
PATH=$PATH:/usr/sbin:/sbin
[ -x "$program" ] || { echo "build the program first: 'rt run' in crates/check_calls" >&2; exit 1; }
"$program"
if ! command -v e2fsck > /dev/null || ! command -v mke2fs > /dev/null; then
    echo "time: not measured, for want of e2fsck and mke2fs"
    exit 0
fi
folder=$(mktemp -d)
trap 'rm -rf "$folder"' EXIT
cd "$folder"
"$program" make lot
mkdir tree
head -c 3072 /dev/urandom > three
for directory in $(seq 63); do
    mkdir "tree/$directory"
    tee $(seq -f "tree/$directory/%g" 64) < three > /dev/null
done
[ "$(find tree | wc -l)" = 4096 ]
truncate -s 32M ext4
mke2fs -q -F -t ext4 -b 1024 -N 4608 -d tree ext4
python3 - "$program" <<'PY'
import statistics, subprocess, sys, time

def seconds(words):
    """How long a command takes, from its start to its end. It has to find nothing wrong."""
    begun = time.perf_counter()
    subprocess.run(words, check=True, stdout=subprocess.DEVNULL, stderr=subprocess.DEVNULL)
    return time.perf_counter() - begun

ours, theirs = [sys.argv[1], 'check', 'lot'], ['e2fsck', '-fn', 'ext4']
pairs = [(seconds(ours), seconds(theirs)) for _ in range(31)]
check, other = (statistics.median(times) for times in zip(*pairs))
print(f'check: {1000 * check:.1f} ms; e2fsck -fn: {1000 * other:.1f} ms; ratio: {check / other:.2f}')
PY

#!/usr/bin/env bash
# What only the system shows of the program: its exit statuses and their lines where a stream is closed, fails or is a directory,
# and, where there is strace, the order of its system calls: replies are sent before the image is written or synced and before
# more input is read, and each barrier is a sync.
set -eu
top=$(cd "$(dirname "$0")/.." && pwd)
program=${1:-$top/crates/icefs/out/icefs}
[ -x "$program" ] || { echo "build the program first: 'rt run' in crates/icefs" >&2; exit 1; }
folder=$(mktemp -d)
trap 'rm -rf "$folder"' EXIT
cd "$folder"

# Runs the words that follow, and wants the status and the first line on standard error.
want() {
    local status=$1 line=$2 got=0
    shift 2
    "$@" 2> line > replies || got=$?
    [ "$got" = "$status" ] && [ "$(head -n 1 line)" = "$line" ] || { echo "wanted $status '$line', not $got '$(cat line)': $*" >&2; exit 1; }
}

image() { "$program" format img --slots 4 --groups 16; }

want 0 '' "$program" format img --slots 4 --groups 16
want 0 '' "$program" run img < /dev/null
printf 'cubes\n' | want 0 '' "$program" run img
[ "$(cat replies)" = 'ok 0' ]
want 1 'icefs: Usage' "$program" run
want 1 'icefs: Usage' "$program" format img --slots 0 --groups 16
want 3 'icefs: Source' "$program" run img < /
want 5 'icefs: Disk' "$program" run . < /dev/null
want 5 'icefs: Disk' "$program" run none < /dev/null
[ ! -e none ]
head -c 1024 /dev/zero > blank
want 6 'icefs: Volume' "$program" run blank < /dev/null
yes cubes | head -c 67108865 > long
want 7 'icefs: Script' "$program" run img < long
: > empty
want 8 'icefs: Small' "$program" run empty < /dev/null
truncate -s 1048576 img
want 8 'icefs: Small' "$program" run img < /dev/null
image
# The replies of this script go to a device without room.
status=0
printf 'cubes\n' | "$program" run img 2> line > /dev/full || status=$?
[ "$status" = 4 ] && [ "$(head -n 1 line)" = 'icefs: Sink' ] || { echo "wanted 4, not $status" >&2; exit 1; }
# Where a standard stream is closed, the image isn't opened in its place.
for closed in '<&-' '>&-' '2>&-'; do
    status=0
    (eval "exec $closed"; exec "$program" run img) < /dev/null > replies 2> line || status=$?
    [ "$status" = 5 ] || { echo "wanted 5 with $closed, not $status" >&2; exit 1; }
done
# A longer file stays as long as it is.
truncate -s 9000000 img
image
[ "$(stat -c %s img)" = 9000000 ]

if ! command -v strace > /dev/null; then
    echo "statuses: as wanted; order: not looked at, for want of strace"
    exit 0
fi
image
printf 'create /a 1\nmkdir /a/d\nsync /a\n' > script
strace -f -o trace.new -e trace=openat,read,write,pread64,pwrite64,fsync,fdatasync "$program" format new --slots 4 --groups 16
strace -f -o trace.run -e trace=openat,read,write,pread64,pwrite64,fsync,fdatasync "$program" run img < script > replies
python3 - <<'PY'
import re

def calls(trace, image):
    """The calls from the opening of the image on: what was called, and of which descriptor. Says which one the image has."""
    opened, made = None, []
    for line in open(trace):
        opening = re.search(r'openat\(.*"%s".* = (\d+)$' % image, line)
        call = re.match(r'\d+\s+(\w+)\((\d+)', line)
        if opening:
            opened, made = int(opening.group(1)), []
        elif call and opened is not None:
            made.append((call.group(1), int(call.group(2))))
    assert opened is not None, f'{image} was not opened'
    return opened, made

SYNCS = ('fsync', 'fdatasync')
# What `format` writes is synced before it ends.
image, made = calls('trace.new', 'new')
changes = [call for call, number in made if number == image and call in ('pwrite64', *SYNCS)]
assert changes.count('pwrite64') >= 32 and changes[-1] in SYNCS, changes[-3:]
# A run begins with a barrier, before the image is read.
image, made = calls('trace.run', 'img')
touches = [call for call, number in made if number == image]
assert touches[0] in SYNCS and 'pread64' in touches, touches[:3]
# What was answered is sent before the next input is read.
reads = [k for k, it in enumerate(made) if it == ('read', 0)]
sent = [k for k, it in enumerate(made) if it == ('write', 1)]
assert len(reads) == 2 and sent and reads[0] < sent[0] and sent[-1] < reads[1], (reads, sent)
print('statuses and order: as wanted')
PY

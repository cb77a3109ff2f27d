#!/usr/bin/env bash
# Plays the worked sessions of `row_sessions` and `tree_session` with the program on a real file, and compares its replies and statuses with
# the stored ones.
set -eu
. "$(dirname "$0")/build.sh"
folder=$(mktemp -d)
trap 'rm -rf "$folder"' EXIT
python3 - "$program" "$top/crates" "$folder/img" <<'PY'
import difflib, os, re, subprocess, sys

program, crates, image = sys.argv[1:]
STATUS = ['Done', 'Usage', 'Memory', 'Source', 'Sink', 'Disk', 'Volume', 'Script', 'Small']

def written_out(line):
    """The line with a token *N at its end as N bytes in hexadecimal digits, of which byte j is 7 j + 3 modulo 256."""
    return re.sub(rb' \*(\d+)', lambda m: b' ' + bytes((7 * j + 3) % 256 for j in range(int(m[1]))).hex().encode(), line)

def fresh(slots, groups):
    if os.path.exists(image):
        os.remove(image)
    subprocess.run([program, 'format', image, '--slots', slots, '--groups', groups], check=True)

def run(script):
    return subprocess.run([program, 'run', image], input=script, stdout=subprocess.PIPE, stderr=subprocess.DEVNULL)

def play(heading, script):
    if not heading.startswith(b'##'):
        fresh('4', '16')
    ran = run(script)
    return heading + b'\n' + ran.stdout + f'= {STATUS[ran.returncode]}\n'.encode()

def stored(crate, name):
    with open(f'{crates}/{crate}/{name}', 'rb') as file:
        return file.read()

def compare(wanted, played):
    if played != wanted:
        sys.stdout.writelines(difflib.unified_diff(wanted.decode().splitlines(True), played.decode().splitlines(True), 'wanted', 'played'))
        sys.exit(1)

sections = []
with open(f'{crates}/row_sessions/stdin', 'rb') as lines:
    for line in lines:
        if line.startswith(b'#'):
            sections.append([line.rstrip(), b''])
        else:
            sections[-1][1] += written_out(line)
compare(stored('row_sessions', 'stdout'), b''.join(play(heading, script) for heading, script in sections))
fresh('1', '2')
compare(stored('tree_session', 'stdout'), run(stored('tree_session', 'stdin')).stdout)
print(f'the {len(sections)} worked sessions of the whole program and the one of a tree are answered on a real file as they are stored')
PY

#!/usr/bin/env bash
# Many small files: 20,000 of 100 to 2,000 bytes, in directories of 64, in 8 cubes, made with a `sync` every 100 commands, read back in a
# second run, and removed in a third, by `icefs run` on one image. The same files, directories and steps on an ext4 image by
# `debugfs -w -f` and on a FAT image by mtools, in the same run of this script. Each time is given as a ratio to the other's, with the
# number of syncs that each side made; what is missing is skipped.
set -eu
top=$(cd "$(dirname "$0")/.." && pwd)
program=${1:-$top/crates/icefs/out/icefs}
PATH=$PATH:/usr/sbin:/sbin
[ -x "$program" ] || { echo "build the program first: 'rt run' in crates/icefs" >&2; exit 1; }
folder=$(mktemp -d "$top/bench/sessions.XXXXXX")
trap 'rm -rf "$folder"' EXIT
cd "$folder"
python3 - "$program" <<'PY'
import os, random, shutil, subprocess, sys, time

program = sys.argv[1]
CUBES, FILES, PER_DIRECTORY, COMMANDS_PER_SYNC = 8, 20000, 64, 100
random.seed(7)
per_cube = FILES // CUBES
files = []
for cube in range(CUBES):
    for number in range(per_cube):
        files.append((f'c{cube}', f'd{number // PER_DIRECTORY}', f'f{number % PER_DIRECTORY}', random.randbytes(random.randint(100, 2000))))
directories = sorted({(cube, directory) for cube, directory, _, _ in files})

def seconds(words, **more):
    """How long a command takes, from its start to its end. It has to end well."""
    begun = time.perf_counter()
    subprocess.run(words, check=True, stderr=subprocess.DEVNULL, **more)
    return time.perf_counter() - begun

def with_syncs(cube, commands):
    """The commands, with a sync after every hundred and after the last."""
    lines = []
    for at, command in enumerate(commands, 1):
        lines.append(command)
        if at % COMMANDS_PER_SYNC == 0 or at == len(commands):
            lines.append(f'sync /{cube}')
    return lines

def ours(name, lines, wanted):
    with open(name, 'w') as script:
        script.write('\n'.join(lines) + '\n')
    with open(name) as script, open(name + '.out', 'w') as out:
        took = seconds([program, 'run', 'img'], stdin=script, stdout=out)
    with open(name + '.out') as out:
        replies = out.read().splitlines()
    assert wanted(replies), f'{name}: {next((r for r in replies if r.startswith("no ")), "other replies than wanted")}'
    return took

def in_cube(cube):
    return [f for f in files if f[0] == cube]

make, read, remove = [f'create /c{c} 44' for c in range(CUBES)], [], []
for cube in (f'c{c}' for c in range(CUBES)):
    commands = [f'mkdir /{c}/{d}' for c, d in directories if c == cube]
    for c, d, f, content in in_cube(cube):
        commands += [f'make /{c}/{d}/{f}', f'write /{c}/{d}/{f} 0 {content.hex()}']
    make += with_syncs(cube, commands)
    read += [f'mount /{cube}'] + [f'read /{c}/{d}/{f} 0 2000' for c, d, f, _ in in_cube(cube)]
    commands = [f'remove /{c}/{d}/{f}' for c, d, f, _ in in_cube(cube)] + [f'remove /{c}/{d}' for c, d in directories if c == cube]
    remove += [f'mount /{cube}'] + with_syncs(cube, commands)
contents = [content.hex() for _, _, _, content in files]
seconds([program, 'format', 'img', '--slots', str(CUBES), '--groups', str(CUBES * 44)])
times = {
    'made': ours('make', make, lambda r: len(r) == len(make) and all(x.startswith('ok') for x in r)),
    'read back': ours('read', read, lambda r: [x[3:] for x in r if len(x) > 30] == contents),
    'removed': ours('remove', remove, lambda r: len(r) == len(remove) and all(x.startswith('ok') for x in r)),
}
syncs = {name: sum(line.startswith('sync') for line in lines) + CUBES for name, lines in (('made', make), ('read back', []), ('removed', remove))}
for name, took in times.items():
    print(f'icefs: {name} in {took:.2f} s, {syncs[name]} syncs and unmounts')

# the same files on the host
for cube, directory in directories:
    os.makedirs(f'tree/{cube}/{directory}')
for cube, directory, name, content in files:
    with open(f'tree/{cube}/{directory}/{name}', 'wb') as file:
        file.write(content)

def report(side, took, theirs):
    for name, seconds_ in took.items():
        print(f'{side}: {name} in {seconds_:.2f} s, {theirs} syncs; icefs takes {times[name] / seconds_:.2f} times as long')

if shutil.which('debugfs') and shutil.which('mke2fs'):
    with open('ext4', 'wb') as image:
        image.truncate(256 << 20)
    seconds(['mke2fs', '-q', '-F', '-t', 'ext4', '-b', '1024', '-N', '24000', 'ext4'])
    def debugfs(name, lines):
        with open(name, 'w') as commands:
            commands.write('\n'.join(lines) + '\n')
        return seconds(['debugfs', '-w', '-f', name, 'ext4'], stdout=subprocess.DEVNULL)
    cubes = [f'/c{c}' for c in range(CUBES)]
    report('debugfs on ext4', {
        'made': debugfs('e.make', [f'mkdir {c}' for c in cubes] + [f'mkdir /{c}/{d}' for c, d in directories] + [f'write tree/{c}/{d}/{f} /{c}/{d}/{f}' for c, d, f, _ in files]),
        'read back': debugfs('e.read', [f'cat /{c}/{d}/{f}' for c, d, f, _ in files]),
        'removed': debugfs('e.remove', [f'rm /{c}/{d}/{f}' for c, d, f, _ in files] + [f'rmdir /{c}/{d}' for c, d in directories] + [f'rmdir {c}' for c in cubes]),
    }, 'no')
else:
    print('debugfs on ext4: not measured, for want of debugfs and mke2fs')
if shutil.which('mcopy') and shutil.which('mformat'):
    with open('fat', 'wb') as image:
        image.truncate(256 << 20)
    seconds(['mformat', '-i', 'fat', '-F', '::'])
    names = sorted(os.listdir('tree'))
    os.mkdir('back')
    report('mtools on FAT', {
        'made': seconds(['mcopy', '-s', '-i', 'fat'] + [f'tree/{n}' for n in names] + ['::']),
        'read back': seconds(['mcopy', '-s', '-n', '-i', 'fat'] + [f'::{n}' for n in names] + ['back']),
        'removed': seconds(['mdeltree', '-i', 'fat'] + [f'::{n}' for n in names]),
    }, 'no')
else:
    print('mtools on FAT: not measured, for want of mtools')
PY

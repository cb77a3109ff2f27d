#!/usr/bin/env bash
# A round trip: a directory of the host is put into a cube, read back in a further run and compared; then names that no cube can hold are
# refused. It ends with status 0 where all is as it should be.
set -eu
here=$(cd "$(dirname "$0")" && pwd)
. "$here/build.sh"
folder=$(mktemp -d)
trap 'rm -rf "$folder"' EXIT
cd "$folder"

# bytes COUNT: so many bytes, which differ from place to place
bytes() {
    awk -v count="$1" 'BEGIN { for (i = 0; i < count; i++) printf "%c", (i * 7 + int(i / 251)) % 127 + 1 }'
}

mkdir -p there/letters/1999/may there/empty there/sizes
printf 'Dear Ann,\nthe hut is ours for a week.\n' >there/letters/1999/may/ann
printf '\0\1\2\377\376%%\\n\n' >there/letters/1999/odd
: >there/sizes/0
for size in 1 1023 1024 1025 12288 12289 16383 16384 16385 32768 274432; do
    bytes $size >there/sizes/$size
done
printf x >"there/$(printf '%059d' 7)"
printf y >'there/!~;*$'

"$program" format img --slots 2 --groups 8
{
    echo 'create /other 2'
    echo 'create /home 6'
    "$here/put.sh" there /home
} | "$program" run img >replies
if grep '^no' replies; then
    echo 'round.sh: a line was refused' >&2
    exit 1
fi
tail -n 1 replies
"$here/get.sh" img /home back
diff -r there back
echo "the same $(find there -type f | wc -l) files and $(find there -type d | wc -l) directories came back"

# refused NAME: put.sh must refuse a directory with this name
refused() {
    mkdir -p "names/$1"
    if "$here/put.sh" names /home >script; then
        echo "round.sh: a name was taken: $1" >&2
        exit 1
    fi
    [ ! -s script ]
    rm -r names
}
refused 'two words'
refused "$(printf '%060d' 7)"
refused 'café'
refused "$(printf 'a/%.0s' {1..25})"

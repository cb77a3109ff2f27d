#!/usr/bin/env bash
# put.sh DIR CUBE: prints the script that puts what the directory DIR holds into the mounted cube CUBE, with a sync at its end. A name
# that no cube can hold, or what is neither a file nor a directory, is refused before anything is printed.
set -eu
export LC_ALL=C
if [ $# -ne 2 ]; then
    echo "usage: put.sh DIR CUBE" >&2
    exit 2
fi
prefix=${2%/}
cd -- "$1"

# refuse WHY ENTRY
refuse() {
    printf 'put.sh: %s: %q\n' "$1" "$2" >&2
    exit 1
}

while IFS= read -r -d '' entry; do
    name=${entry##*/}
    case $name in *[!\!-~]*) refuse "a name with a space or a byte that isn't printable" "$entry" ;; esac
    [ ${#name} -le 59 ] || refuse "a name of more than 59 bytes" "$entry"
    slashes=${entry//[!\/]/}
    [ ${#slashes} -le 24 ] || refuse "more than 24 levels down" "$entry"
    if [ -L "$entry" ] || { [ ! -d "$entry" ] && [ ! -f "$entry" ]; }; then
        refuse "neither a file nor a directory" "$entry"
    fi
    if [ -f "$entry" ] && [ "$(stat -c %s "$entry")" -gt 274432 ]; then
        refuse "a file of more than 274432 bytes" "$entry"
    fi
done < <(find . -mindepth 1 -print0)

# A directory comes before what it holds.
find . -mindepth 1 \( -type d -printf 'mkdir %P\n' -o -printf 'make %P\n' \) | sort -k 2 |
    while read -r word path; do
        echo "$word $prefix/$path"
        if [ "$word" = make ]; then
            # a line for each 16,384 bytes
            od -An -v -tx1 -w16384 "$path" | tr -d ' ' |
                awk -v path="$prefix/$path" '{ print "write", path, (NR - 1) * 16384, $0 }'
        fi
    done
echo "sync $2"

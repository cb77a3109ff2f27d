#!/usr/bin/env bash
# get.sh IMAGE CUBE DIR: mounts the cube CUBE of an image and copies its tree into DIR, in one run of the program, which is asked line by
# line.
set -eu
export LC_ALL=C
if [ $# -ne 3 ]; then
    echo "usage: get.sh IMAGE CUBE DIR" >&2
    exit 2
fi
. "$(dirname "$0")/build.sh"

# ask LINE: sets `data` to the data lines of the reply and `closing` to what stands behind the `ok` of its closing line
ask() {
    printf '%s\n' "$1" >&"$to"
    data=()
    local line
    while IFS= read -r line <&"$from"; do
        case $line in
            ok*) closing=${line#ok}; closing=${closing# }; return ;;
            no*) echo "get.sh: $1: $line" >&2; exit 1 ;;
            *) data+=("$line") ;;
        esac
    done
    echo "get.sh: $1: no reply" >&2
    exit 1
}

# fetch PATH FILE
fetch() {
    local at=0 count=16384
    : >"$2"
    while [ $count -eq 16384 ]; do
        ask "read $1 $at 16384"
        [ "$closing" != - ] || closing=
        count=$((${#closing} / 2))
        at=$((at + count))
        printf "$(sed 's/../\\x&/g' <<<"$closing")" >>"$2"
    done
}

# copy PATH DIR: what the directory PATH holds
copy() {
    local entry name entries
    ask "list ${1:-/}"
    entries=("${data[@]}")
    for entry in "${entries[@]}"; do
        name=${entry#* }
        case $entry in
            dir*) mkdir "$2/$name"; copy "$1/$name" "$2/$name" ;;
            *) fetch "$1/$name" "$2/$name" ;;
        esac
    done
}

mkdir -p "$3"
coproc icefs { exec "$program" run "$1"; }
running=$icefs_PID to=${icefs[1]} from=${icefs[0]}
ask "mount $2"
copy "${2%/}" "$3"
ask "unmount $2"
exec {to}>&-
wait "$running"

#!/usr/bin/env bash
# Tries all wrong bodies of crates, those that the gate tries (must-fail/*.edit) and the others (must-fail/*.md): the prover must refuse
# each. It begins with what `rt check` kept in this checkout. Words: names of crates; none: each crate that has others.
set -eu
cd "$(dirname "$0")/.."
names=("$@")
if [ ${#names[@]} -eq 0 ]; then
    mapfile -t names < <(printf '%s\n' crates/*/must-fail/*.md | cut -d / -f 2 | sort -u)
fi
made=()
trap 'rm -f ${made[@]+"${made[@]}"}' EXIT
for name in "${names[@]}"; do
    for it in crates/"$name"/must-fail/*.md; do
        [ -e "$it" ] || continue
        [ ! -e "${it%.md}.edit" ] || { echo "both $it and ${it%.md}.edit are there" >&2; exit 1; }
        made+=("${it%.md}.edit")
        cp "$it" "${it%.md}.edit"
    done
done
rt must-fail "${names[@]}"

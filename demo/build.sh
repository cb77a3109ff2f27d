# Sourced by the scripts beside it: sets `program`, which is built if needed. ICEFS names another one.
top=$(cd "$(dirname "${BASH_SOURCE[0]}")/.." && pwd)
program=${ICEFS:-$top/crates/icefs/out/icefs}
if [ ! -x "$program" ]; then
    echo "building the program, which is proved first: many minutes" >&2
    (cd "$top/crates/icefs" && rt run -- format "$(mktemp -u)" --slots 1 --groups 1) >&2
fi

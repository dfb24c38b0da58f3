#!/bin/sh
# Compares the page's module with the built program, and plays against its circuits: wasm.mjs says how. The module is
# to ask for nothing of the page. Its heap is tried for itself by heap.c. Without Node no run is compared, and without a
# C compiler the heap isn't tried; a line says so.
# Usage: checks/deep/wasm.sh PROGRAM. Prints a line a case, and ends with status 1 if one failed. This needs the kit,
# which builds the module, and Python 3.
set -u

if [ $# -ne 1 ]; then
    echo "usage: $0 PROGRAM" >&2
    exit 2
fi
root=$(cd "$(dirname "$0")/../.." && pwd) || exit 2
program=$(realpath "$1") || exit 2
failures=0
folder=$(mktemp -d) || exit 2
trap 'rm -rf "$folder"' EXIT

# The heap for itself, by seeds.
if command -v cc > /dev/null; then
    cc -O2 -w -no-pie -Wl,--defsym=__heap_base=0x10000000 "$root/checks/deep/heap.c" -o "$folder/heap" || exit 2
    for seed in 1 2 3; do
        if "$folder/heap" $seed 200000 > "$folder/said"; then
            echo "ok wasm_heap_$seed: $(cat "$folder/said")"
        else
            echo "FAILED wasm_heap_$seed"
            failures=1
        fi
    done
else
    echo "no cc: the heap isn't tried for itself"
fi

"$root/checks/deep/module.sh" || exit 1
echo "ok wasm_built"
python3 -B "$root/checks/deep/module.py" "$root/web/qbf.wasm" || failures=1
if ! command -v node > /dev/null; then
    echo "no node: the module isn't compared with the program"
    exit $failures
fi
node "$root/checks/deep/wasm.mjs" "$program" "$root/web/qbf.wasm" || failures=1
exit $failures

#!/usr/bin/env bash
# How the work of the program grows with its input, in instructions as valgrind's callgrind counts them: `compile` of 100 and of
# 2,000 XSUBs, and `call` of 1,000 and of 10,000 calls.
set -eu
top=$(cd "$(dirname "${BASH_SOURCE[0]}")/.." && pwd)
command -v valgrind >/dev/null || { echo "growth: valgrind is missing" >&2; exit 127; }
program=$top/crates/xsubpp/out/xsubpp
[ -x "$program" ] || { echo "growth: the program is not built: ./build proves and links it" >&2; exit 1; }

room=$(mktemp -d)
trap 'rm -rf "$room"' EXIT

module() {
    printf 'MODULE = M PACKAGE = M\n'
    for ((i = 0; i < $1; i++)); do
        printf '\nint\nsum_%d(int a, int b)\n  CODE:\n    RETVAL = a + b;\n  OUTPUT:\n    RETVAL\n' "$i"
    done
}

calls() {
    for ((i = 0; i < $1; i++)); do
        printf 'call M::add(2, 3)\n'
    done
}

instructions() {
    valgrind --tool=callgrind --callgrind-out-file="$room/out" "$program" "$@" 2>&1 >/dev/null | sed -n 's/.*Collected : \([0-9]*\).*/\1/p'
}

report() {
    if [ -z "$2" ] || [ -z "$3" ]; then
        echo "growth: valgrind has counted nothing for $1" >&2
        exit 1
    fi
    echo "$1: $2 and $3 instructions, $(awk "BEGIN { printf \"%.1f\", $3 / $2 }") times as many"
}

for n in 100 2000; do module "$n" >"$room/$n.xs"; done
for n in 1000 10000; do calls "$n" >"$room/$n.txt"; done
report "compile of 100 and of 2,000 XSUBs" "$(instructions compile "$room/100.xs")" "$(instructions compile "$room/2000.xs")"
report "call of 1,000 and of 10,000 calls" "$(instructions call "$top/examples/add.xs" "$room/1000.txt")" "$(instructions call "$top/examples/add.xs" "$room/10000.txt")"

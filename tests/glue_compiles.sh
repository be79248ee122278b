#!/usr/bin/env bash
# The glue text of each example with a C part is C that gcc accepts against perl's own headers. Where perl, its headers or gcc are
# missing there is nothing to check, and the script says so.
set -u
top=$(cd "$(dirname "${BASH_SOURCE[0]}")/.." && pwd)

if ! command -v perl >/dev/null || ! command -v gcc >/dev/null; then
    echo "glue_compiles: skipped, since perl or gcc is missing"
    exit 0
fi
headers=$(perl -MConfig -e 'print "$Config{archlibexp}/CORE"')
if [ ! -f "$headers/perl.h" ]; then
    echo "glue_compiles: skipped, since perl's headers are missing"
    exit 0
fi
read -r -a flags <<<"$(perl -MConfig -e 'print $Config{ccflags}')"

room=$(mktemp -d)
trap 'rm -rf "$room"' EXIT
failed=0
for name in sums context many; do
    if "$top/xsubpp" compile "$top/examples/$name.xs" >"$room/$name.c" &&
        gcc -fsyntax-only -Werror=implicit-function-declaration "${flags[@]}" "-I$headers" "-I$top/include" "$room/$name.c"; then
        echo "glue_compiles: $name.xs: the glue text compiles"
    else
        echo "glue_compiles: $name.xs: FAILED"
        failed=1
    fi
done
exit "$failed"

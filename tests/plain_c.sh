#!/bin/sh
# Compares the kit's calls with bench/scheme.c, the same scheme in plain C with a SHAKE256 of its own: keys, parcels, secrets, raw bits and
# noise, by checksums over many seeds, for small, coded, noisy and large sets.
# Usage: plain_c.sh PROGRAM
set -u
if [ $# -ne 1 ] || [ ! -x "$1" ]; then
    echo "usage: plain_c.sh PROGRAM" >&2
    exit 2
fi
root=$(cd "$(dirname "$0")/.." && pwd) || exit 2
folder=$(mktemp -d) || exit 2
trap 'rm -rf "$folder"' EXIT
gcc -std=c11 -O2 -o "$folder/scheme" "$root/bench/scheme.c" || exit 1
passed=0
failed=0
for run in "small 2000" "coded 100" "wide 100" "noisy 200" "least 2000" "most 30"; do
    set -- "$1" $run
    if [ "$("$1" all "$2" "$3")" = "$("$folder/scheme" all "$2" "$3")" ]; then
        passed=$((passed + 1))
        echo "ok $2: $3 exchanges"
    else
        failed=$((failed + 1))
        echo "FAIL $2"
    fi
done
echo "$passed passed, $failed failed"
[ "$failed" -eq 0 ]

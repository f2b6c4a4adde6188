#!/bin/sh
# Times packing and unpacking of 1200 fields of 11 bits, 200,000 times, by the program packbench and by bench/pack.c.
# Both are to write the same sums. Run `rt run` in crates/packbench first; a C compiler is needed (CC, or cc).
set -eu
here=$(dirname "$0")
rattle=$here/../crates/packbench/out/packbench
work=$(mktemp -d)
trap 'rm -r "$work"' EXIT
"${CC:-cc}" -O3 -o "$work/pack" "$here/pack.c"
for what in pack unpack; do
    [ "$("$rattle" $what)" = "$("$work/pack" $what)" ] || { echo "$what: the sums differ" >&2; exit 1; }
    for turn in 1 2 3; do
        for program in "$rattle" "$work/pack"; do
            start=$(date +%s%N)
            "$program" $what > "$work/out"
            end=$(date +%s%N)
            echo "$what $(basename "$program"): $(((end - start) / 200000)) ns a call"
        done
    done
done

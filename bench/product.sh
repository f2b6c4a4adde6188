#!/usr/bin/env bash
# Compares the product with the same algorithm in C (gcc -O3, the same instruction set): alternating runs, the best of each, and their ratio.
# First: rt run in crates/productbench.
set -eu
cd "$(dirname "$0")/.."
c=$(mktemp)
trap 'rm -f "$c"' EXIT
gcc -O3 -march=x86-64 -o "$c" bench/product.c
python3 - crates/productbench/out/productbench "$c" <<'PY'
import subprocess, sys, time
ours, theirs = sys.argv[1:3]
def seconds(path):
    before = time.perf_counter()
    out = subprocess.run([path], stdout=subprocess.PIPE, check=True).stdout
    return time.perf_counter() - before, out
best = {ours: 1e9, theirs: 1e9}
outs = set()
for _ in range(25):
    for path in (ours, theirs):
        took, out = seconds(path)
        best[path] = min(best[path], took)
        outs.add(out)
assert len(outs) == 1, "the two write different sums"
print(f"rattle {best[ours]:.3f} s, C {best[theirs]:.3f} s, ratio {best[ours] / best[theirs]:.2f}")
PY

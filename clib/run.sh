#!/bin/sh
# Makes the C library, and compiles and runs the example over it. The last line is `N passed, M failed`. Writes below target/ and crates/*/out/ alone.
set -u
cd "$(dirname "$0")/.." || exit 2
out=target/clib
mkdir -p "$out" || exit 2
passed=0
failed=0

# Counts a step, by its status.
count() { # NAME STATUS
    if [ "$2" -eq 0 ]; then
        passed=$((passed + 1))
        echo "ok $1"
    else
        failed=$((failed + 1))
        echo "FAIL $1"
    fi
}

rm -f crates/keyseal/out/libkeyseal.a "$out/example" "$out/example.stdout"
(cd crates/keyseal && rt lib) >"$out/staticlib.log" 2>&1
status=$?
[ "$status" -eq 0 ] || tail -n 20 "$out/staticlib.log"
count "library proved and built" "$status"

# No archive but the library itself: nothing in it allocates.
cc -std=c11 -Wall -Wextra -Werror -O2 -I clib/include clib/example.c crates/keyseal/out/libkeyseal.a -o "$out/example"
count "example compiled" $?

"$out/example" >"$out/example.stdout" && diff clib/example.stdout "$out/example.stdout"
count "example run" $?

if command -v g++ >/dev/null 2>&1; then
    g++ -std=c++17 -Wall -Wextra -Werror -fsyntax-only -x c++ clib/include/keyseal.h
    count "header as C++" $?
fi

echo "$passed passed, $failed failed"
[ "$failed" -eq 0 ]

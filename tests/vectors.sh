#!/bin/sh
# What the program vectors says of files that are no list of vectors as they are published.
# Usage: vectors.sh PROGRAM
set -u
if [ $# -ne 1 ] || [ ! -x "$1" ]; then
    echo "usage: vectors.sh PROGRAM" >&2
    exit 2
fi
case $1 in
    /*) program=$1 ;;
    *) program=$(pwd)/$1 ;;
esac
folder=$(mktemp -d) || exit 2
trap 'rm -rf "$folder"' EXIT
cd "$folder" || exit 2
passed=0
failed=0

# try NAME STATUS TEXT LINE..: runs the program on a file of these lines; its status, and a line that it must print.
try() {
    name=$1 status=$2 text=$3
    shift 3
    printf '%s\n' "$@" >shake256.txt
    "$program" >out.txt 2>&1
    got=$?
    if [ "$got" -eq "$status" ] && grep -qxF -- "$text" out.txt; then
        passed=$((passed + 1))
        echo "ok $name"
    else
        failed=$((failed + 1))
        echo "FAIL $name (status $got)"
        sed 's/^/    /' out.txt
    fi
}

digit='Error: not a hexadecimal digit'
try 'the empty message' 0 '1 vectors agree, 0 do not' 'message = ' 'output = 46b9dd2b0ba88d13'
try 'a wrong output' 1 'WRONG: 0 bytes in, 8 bytes out' 'message = ' 'output = 46b9dd2b0ba88d14'
try 'capitals' 1 "$digit" 'message = ' 'output = 46B9DD2B0BA88D13'
try 'no digit' 1 "$digit" 'message = 0g'
try 'an odd number' 1 'Error: an odd number of digits' 'message = abc'
try 'an odd number after no digit' 1 "$digit" 'message = gga'
try 'no digit alone' 1 'Error: an odd number of digits' 'message = g'
try 'no vectors' 1 '0 vectors agree, 0 do not' ''
echo "$passed passed, $failed failed"
[ "$failed" -eq 0 ]

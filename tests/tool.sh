#!/bin/sh
# Tests of the program sealkit: what it writes, and the status that it ends with.
# Usage: tool.sh PROGRAM
set -u
if [ $# -ne 1 ] || [ ! -x "$1" ]; then
    echo "usage: tool.sh PROGRAM" >&2
    exit 2
fi
case $1 in
    /*) program=$1 ;;
    *) program=$(pwd)/$1 ;;
esac
folder=$(mktemp -d) || exit 2
trap 'rm -rf "$folder"' EXIT
cd "$folder" || exit 2
passed=0
failed=0

# holds WANTED FILE: whether a file holds what is wanted: `-` for nothing, `=TEXT` for exactly that line, and any other
# text for a part of a line.
holds() {
    case $1 in
        -) [ ! -s "$2" ] ;;
        =*) [ "$(cat "$2")" = "${1#=}" ] ;;
        *) grep -qF -- "$1" "$2" ;;
    esac
}

# try NAME STATUS OUT ERR WORD..: runs the program with the words, and compares its status, standard output and standard
# error with what they must be.
try() {
    name=$1 status=$2 out=$3 err=$4
    shift 4
    "$program" "$@" >out.txt 2>err.txt
    got=$?
    if [ "$got" -eq "$status" ] && holds "$out" out.txt && holds "$err" err.txt; then
        passed=$((passed + 1))
        echo "ok $name"
    else
        failed=$((failed + 1))
        echo "FAIL $name (status $got)"
        sed 's/^/    /' out.txt err.txt
    fi
}

# file LINE..: writes the set file a.set.
file() {
    printf '%s\n' "$@" >a.set
}

# fields LINE..: writes these lines to a.set, and then T's number for each field that they do not state.
fields() {
    : >a.set
    for line in "$@"; do printf '%s\n' "$line" >>a.set; done
    for field in 'n = 10' 'h = 2' 'qb = 8' 'pb = 6' 'tb = 3' 'kappa = 8' 'f = 0'; do
        grep -q "^${field%% *} *=" a.set || printf '%s\n' "$field" >>a.set
    done
}

below='below the line: B < q/4'
above='not below the line: B >= q/4'

# The commands.
try 'no words' 0 'R5ND_5CCA_5d     2265' -
try 'help' 0 'sealkit set FILE' - help
try 'sets' 0 'R5ND_1CCA_0d      586  182   8192   512   16    128  0  128   693     757' - sets
try 'sets, lines' 0 "T                  24     64        192       512  $below" - sets
try 'no command' 1 - '=sealkit: no such command; try sealkit help' open
try 'a word too many' 1 - '=sealkit: no such command; try sealkit help' sets all
try 'no file named' 1 - '=sealkit: no such command; try sealkit help' set
try 'no such file' 1 - 'none.set: No such file' set none.set
mkdir folder.set
try 'a folder' 1 - 'folder.set: Is a directory' set folder.set

# Files that state a set.
fields
try 'the set T' 0 "given              24     64        192       512  $below" - set a.set
try 'numbers of T' 0 'given              10    2    256    64    8      8  0    8    41      44' - set a.set
file '# all fields, in another order' '' 'f=0' '	kappa	=	8  # bits' '  tb = 3' 'pb = 6' 'qb = 8' 'h = 2' 'n = 010' \
    'lengths =' 'block = no'
try 'free spaces, comments, order' 0 "512  $below" - set a.set
fields
sed 's/$/\r/' a.set >b.set
try 'carriage returns' 0 "512  $below" - set b.set
printf 'n = 10\nh = 2\nqb = 8\npb = 6\ntb = 3\nkappa = 8\nf = 0' >a.set
try 'no newline at the end' 0 "512  $below" - set a.set
fields 'n = 16' 'h = 10'
try 'h = 10' 0 "$below" - set a.set
fields 'n = 16' 'h = 12'
try 'h = 12' 0 "given              64     64        512       512  $above" - set a.set
try 'h = 12, neighbour' 0 'given              93           256    64   16     56     64    45      49     94  +1' - set a.set
fields 'n = 16' 'f = 1' 'lengths = 3, 4'
try 'lengths 3 and 4' 0 "$below" - set a.set
fields 'n = 600' 'kappa = 256' 'f = 5' 'block = yes' 'lengths = 16, 16, 17, 31, 19, 29, 23, 25, 27, 37'
try 'f = 5 with the block mark' 0 '    256  5  496  ' - set a.set
fields 'qb = 9'
try 'qb = 9' 0 "$below" - set a.set

# Files that state an unlawful set.
fields 'n = 1202'
try 'rule 1' 1 - '=refused 11 1: n must be even and from 8 to 1200' set a.set
fields 'h = 3'
try 'rule 2' 1 - 'refused 11 2: ' set a.set
fields 'tb = 6'
try 'rule 3' 1 - 'refused 11 3: ' set a.set
fields 'qb = 10'
try 'rule 4' 1 - '=refused 11 4: tb + qb must be at most 2 pb' set a.set
fields 'kappa = 12'
try 'rule 5' 1 - 'refused 11 5: ' set a.set
fields 'f = 6' 'lengths = 1, 2, 3, 4, 5, 6, 7, 8, 9, 10, 11, 12'
try 'rule 6' 1 - 'refused 11 6: ' set a.set
fields 'n = 16' 'f = 1' 'lengths = 3'
try 'rule 7' 1 - 'refused 11 7: ' set a.set
fields 'n = 16' 'f = 1'
try 'rule 7, lengths left out' 1 - 'refused 11 7: ' set a.set
fields 'n = 600' 'f = 5' 'lengths = 1, 2, 3, 4, 5, 6, 7, 8, 9, 10, 11'
try 'rule 7, eleven lengths' 1 - 'refused 11 7: ' set a.set
fields 'n = 600' 'f = 5' 'lengths = 1, 2, 3, 4, 5, 6, 7, 8, 9, 10, 11, 12, 13, 14, 15, 16'
try 'rule 7, sixteen lengths' 1 - 'refused 11 7: ' set a.set
fields 'n = 7' 'lengths = 1, 2, 3, 4, 5, 6, 7, 8, 9, 10, 11, 12'
try 'the lowest rule' 1 - 'refused 11 1: ' set a.set
fields 'block = yes'
try 'rule 8' 1 - 'refused 11 8: ' set a.set
fields 'f = 1' 'lengths = 3, 4'
try 'rule 9' 1 - 'refused 11 9: ' set a.set
fields 'n = 16' 'f = 1' 'lengths = 2, 4'
try 'shared checks' 1 - '=refused 12 0 4: these two payload positions share two checks' set a.set

# Files that state no set.
fields '# one' 'm = 3'
try 'no field' 1 - '=a.set: line 2: no field of a set stands here' set a.set
fields 'n 10'
try 'no equals sign' 1 - '=a.set: line 1: no field of a set stands here' set a.set
fields 'nn = 10'
try 'a longer name' 1 - '=a.set: line 1: no field of a set stands here' set a.set
fields 'n = 10' '' 'qb = 8' 'qb = 8'
try 'a number twice' 1 - '=a.set: line 4: qb stands twice' set a.set
fields 'lengths = ' 'lengths = '
try 'lengths twice' 1 - '=a.set: line 2: lengths stands twice' set a.set
fields 'block = no' 'block = no'
try 'block twice' 1 - '=a.set: line 2: block stands twice' set a.set
fields 'n = ten'
try 'no number' 1 - '=a.set: line 1: a number is wanted here' set a.set
fields 'n = 10 12'
try 'two numbers' 1 - '=a.set: line 1: a number is wanted here' set a.set
fields 'n = -10'
try 'a sign' 1 - '=a.set: line 1: a number is wanted here' set a.set
fields 'lengths = 3,, 4'
try 'a gap in a list' 1 - '=a.set: line 1: a number is wanted here' set a.set
fields 'h = 65535'
try 'the largest number' 1 - 'refused 11 2: ' set a.set
fields 'h = 65536'
try 'above the largest number' 1 - '=a.set: line 1: a number is above 65535' set a.set
fields 'h = 99999999999999999999999999999999'
try 'a very large number' 1 - '=a.set: line 1: a number is above 65535' set a.set
fields 'lengths = 3, 65536'
try 'a length too large' 1 - '=a.set: line 1: a number is above 65535' set a.set
fields 'block = Yes'
try 'no mark' 1 - '=a.set: line 1: block is yes or no' set a.set
file 'n = 10' 'h = 2' 'qb = 8' 'pb = 6' 'kappa = 8' 'f = 0'
try 'a missing number' 1 - '=a.set: tb is missing' set a.set
: >a.set
try 'an empty file' 1 - '=a.set: n is missing' set a.set

# A text that cannot be written.
if [ -w /dev/full ]; then
    "$program" sets >/dev/full 2>err.txt
    if [ $? -eq 1 ] && [ -s err.txt ]; then
        passed=$((passed + 1))
        echo "ok a full device"
    else
        failed=$((failed + 1))
        echo "FAIL a full device"
    fi
fi

echo "$passed passed, $failed failed"
[ "$failed" -eq 0 ]

#!/bin/sh
# More marks than a marks file may have rows: `adapt mark` writes them all, and `adapt run` refuses the
# file, which has 1,048,576 rows at most. It prints what it finds, and takes the program's path.
program=$1
square=$(dirname "$0")/../examples/square.macro
place=$(mktemp -d) || exit 1
trap 'rm -r "$place"' EXIT
printf 'round,what,where,number\n1,mark,0,20\n1,mark,1,19\n2,elem,*,5\n' >"$place/marks"
"$program" mark "$square" "$place/marks" max:1/1 --pool 1048576 >"$place/rows"
echo "marks for $(($(wc -l <"$place/rows") - 1)) leaves"
"$program" run "$square" "$place/rows" 2>&1
echo "read again: status $?, where 4 is expected"

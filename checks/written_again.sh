#!/bin/sh
# Written meshes as macro files: one of 32,768 leaves is written as the same bytes again, and one of
# 65,536 is refused. It prints what it finds, and takes the program's path.
program=$1
square=$(dirname "$0")/../examples/square.macro
place=$(mktemp -d) || exit 1
trap 'rm -r "$place"' EXIT
marks() { printf 'round,what,where,number\n%s' "$1" >"$place/marks"; }

marks '1,mark,*,14
'
"$program" run "$square" "$place/marks" --pool 1048576 >"$place/mesh"
marks ''
"$program" run "$place/mesh" "$place/marks" >"$place/again"
cmp "$place/mesh" "$place/again" && echo "32,768 leaves: read and written as the same bytes"

marks '1,mark,*,15
'
"$program" run "$square" "$place/marks" --pool 1048576 >"$place/mesh"
marks ''
"$program" run "$place/mesh" "$place/marks" 2>&1
echo "65,536 leaves: status $?, where 3 is expected"

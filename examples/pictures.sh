#!/bin/sh
# Runs the four examples, compares each mesh with the one of checks/model.py, draws it and compares the
# picture with the one in docs/. With the word `write` it writes the pictures there instead. ADAPT may name
# another program than ./adapt.
set -eu
cd "$(dirname "$0")/.."
adapt=${ADAPT:-./adapt}
work=$(mktemp -d)
trap 'rm -r "$work"' EXIT
differing=0

# The picture of an example, with the options of draw.py that follow its name.
picture() {
    name=$1
    shift
    "$adapt" run "examples/$name.macro" "examples/$name.marks" >"$work/$name.mesh"
    python3 checks/model.py "examples/$name.macro" "examples/$name.marks" >"$work/$name.model"
    if ! cmp -s "$work/$name.mesh" "$work/$name.model"; then
        echo "$name: the mesh differs from the model's"
        differing=1
    fi
    python3 examples/draw.py "$@" "$work/$name.mesh" >"$work/$name.svg"
    if [ "$wish" = write ]; then
        cp "$work/$name.svg" "docs/$name.svg"
    elif cmp -s "$work/$name.svg" "docs/$name.svg"; then
        echo "$name: as in docs/$name.svg"
    else
        echo "$name: differs from docs/$name.svg"
        differing=1
    fi
}

wish=${1:-compare}
picture corner
picture slit --values vertex
picture disc
picture strip --values vertex
exit "$differing"

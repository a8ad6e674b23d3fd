#!/bin/sh
# Refines an L-shaped domain at its corner (0, 0), as a solver would: five times the leaves get an
# estimate of their error each, and those that have half of the whole are bisected. The mesh is
# written at the end. Run it at the top of the repository.
set -e
macro=examples/corner.macro
work=$(mktemp -d)
trap 'rm -r "$work"' EXIT
echo 'round,what,where,number' >"$work/marks"
round=1
for step in 1 2 3 4 5; do
    # The names of the leaves, in the order of the mesh's text: each has the value 1 for once.
    cp "$work/marks" "$work/named"
    echo "$round,elem,*,1" >>"$work/named"
    ./adapt mark "$macro" "$work/named" max:0/1 | sed 1d | cut -d , -f 3 >"$work/names"
    # An estimate of each leaf's error: 1,000,000 times its size over its distance to the corner.
    ./adapt run "$macro" "$work/marks" | awk '
        /:/ { list = $0; n = 0; next }
        list == "vertex coordinates:" && NF { x[n] = $1; y[n] = $2; n += 1 }
        list == "element vertices:" && NF {
            size = (x[$2] - x[$1]) * (y[$3] - y[$1]) - (x[$3] - x[$1]) * (y[$2] - y[$1])
            far = sqrt((x[$1] + x[$2] + x[$3]) ^ 2 + (y[$1] + y[$2] + y[$3]) ^ 2)
            printf "%d\n", 1000000 * (size < 0 ? -size : size) / far
        }' >"$work/estimates"
    paste -d , "$work/names" "$work/estimates" | sed "s/^/$round,elem,/" >>"$work/marks"
    # The marks for the next round.
    ./adapt mark "$macro" "$work/marks" bulk:1/2 | sed 1d >>"$work/marks"
    round=$((round + 2))
done
./adapt run "$macro" "$work/marks"

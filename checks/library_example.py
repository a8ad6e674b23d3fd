#!/usr/bin/env python3
"""What the crate `examples` prints, by the model.

    python3 checks/library_example.py crates/examples/data/corner.macro | cmp - crates/examples/stdout
"""
import sys

from model import Mesh, Run, mesh_text

CORNER = 3

with open(sys.argv[1]) as macro_file:
    mesh = Mesh(macro_file.read())
run = Run(mesh, 1000)
for number in range(1, 4):
    run.round(number, [(0, "mark", leaf, None, 2) for leaf in run.leaves() if CORNER in mesh.corners(leaf)])
print(f"value at the corner: {mesh.values[CORNER]}")
sys.stdout.write(mesh_text(run))

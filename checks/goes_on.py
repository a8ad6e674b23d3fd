#!/usr/bin/env python3
"""Runs that are interrupted by writing and reading the mesh, beside the run that is not.

    python3 checks/goes_on.py PROGRAM RUNS [SEED]

Each run draws a macro mesh with values and five stages of two rounds: the first bisects leaves and sets
values, the second coarsens patches that the first has bisected. One program goes through all rounds; another
writes its mesh after each stage and reads it again, and the places in its rows are renamed: leaf i of the
written mesh is macro element i. After each stage both meshes have to be the same, but for the numbers of
their vertices.
"""
import os
import random
import subprocess
import sys
import tempfile

from model import Mesh, Refused, Run
from random_runs import adapt_rows, random_macro, spelled

HEAD = "round,what,where,number\n"


def run(program, folder, macro, marks):
    for name, text in (("mesh", macro), ("marks", HEAD + marks)):
        with open(os.path.join(folder, name), "w") as file:
            file.write(text)
    done = subprocess.run([program, "run", "mesh", "marks", "--pool", "1048576"], cwd=folder, capture_output=True, text=True, check=False)
    if done.returncode:
        raise Refused(done.stderr)
    return done.stdout


def sections(text):
    found, key = {}, None
    for line in text.splitlines():
        if line.endswith(":"):
            key = line
            found[key] = []
        elif key and line:
            found[key].append(line.split())
    return found


def same_mesh(one, other):
    """Whether the meshes are equal leaf by leaf, with one vertex of the other for each vertex of the one."""
    a, b = sections(one), sections(other)
    if any(a[key] != b[key] for key in ("element boundaries:", "element neighbours:", "element values:")):
        return False
    pairs = {(v, w) for p, q in zip(a["element vertices:"], b["element vertices:"]) for v, w in zip(p, q)}
    if len(pairs) != len({v for v, _ in pairs}) or len(pairs) != len({w for _, w in pairs}):
        return False
    return len(a["element vertices:"]) == len(b["element vertices:"]) and all(
        a[key][int(v)] == b[key][int(w)] for key in ("vertex coordinates:", "vertex values:") for v, w in pairs
    )


def bisecting(draw, leaves):
    rows = []
    for leaf in draw.sample(leaves, min(len(leaves), draw.randint(1, 4))):
        what = draw.choice(["mark", "mark", "elem", "vert"])
        number = draw.randint(1, 2) if what == "mark" else draw.randint(-999, 999)
        rows.append((what, leaf, f"/{draw.randint(0, 2)}" if what == "vert" else "", number))
    return rows


def coarsening(draw, leaves, old):
    return [("mark", leaf, "", -1) for leaf in leaves if leaf not in old and draw.random() < 0.8]


def lines(rows, number, name):
    return "".join(f"{number},{what},{spelled(name(leaf))}{corner},{n}\n" for what, leaf, corner, n in rows)


def one_chain(program, folder, draw):
    """How many leaves the last mesh has, where all meshes were the same; else None."""
    macro = written = random_macro(draw)
    model = Run(Mesh(macro), 10**6)
    marks, number = "", 0
    for _ in range(5):
        base = model.leaves()
        renamed = lambda leaf: next((i, leaf[1][len(top[1]) :]) for i, top in enumerate(base) if top[0] == leaf[0] and leaf[1].startswith(top[1]))
        stage = ""
        for step in (1, 2):
            leaves = model.leaves()
            rows = bisecting(draw, leaves) if step == 1 else coarsening(draw, leaves, set(base))
            number += 1
            marks += lines(rows, number, lambda leaf: leaf)
            stage += lines(rows, step, renamed)
            model.round(number, adapt_rows(HEAD + lines(rows, 1, lambda leaf: leaf)))
        written = run(program, folder, written, stage)
        if not same_mesh(run(program, folder, macro, marks), written):
            return None
    return len(model.leaves())


def main():
    program, runs = os.path.abspath(sys.argv[1]), int(sys.argv[2])
    seed = int(sys.argv[3]) if len(sys.argv) > 3 else random.randrange(10**9)
    most = 0
    with tempfile.TemporaryDirectory() as folder:
        for i in range(runs):
            leaves = one_chain(program, folder, random.Random(f"{seed} {i}"))
            if leaves is None:
                print(f"chain {i} of seed {seed} differs")
                return 1
            most = max(most, leaves)
    print(f"{runs} chains of five written meshes go on as if they had never been written, with up to {most} leaves")
    return 0


if __name__ == "__main__":
    sys.exit(main())

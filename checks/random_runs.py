#!/usr/bin/env python3
"""Random runs of a program `adapt` beside the model.

    python3 checks/random_runs.py PROGRAM RUNS [SEED]

Each run draws a macro mesh, rounds of marks and options, and compares status, out and err. The first run
that differs is kept in a folder, and told. The meshes are a square, a fan, an L and small grids, refined
by the model a few times, with elements and vertices in another order, so that many are graded. Rounds have
marks from -24 to 24 on leaves and on all, values, rows of names that are no leaves, and marks that go too
deep; the pool is mostly near what is needed.
"""
import os
import random
import subprocess
import sys
import tempfile

from model import FINE, Mesh, Refused, Run, adapt_run, decimal, mesh_text

SQUARE = ([(0, 0), (1, 0), (1, 1), (0, 1)], [(2, 0, 1), (0, 2, 3)])
CENTRE = ([(0, 0), (1, 0), (1, 1), (0, 1), (0.375, 0.5)], [(0, 1, 4), (1, 2, 4), (2, 3, 4), (3, 0, 4)])
CORNER = (
    [(-1, -1), (0, -1), (-1, 0), (0, 0), (1, 0), (-1, 1), (0, 1), (1, 1)],
    [(3, 0, 1), (0, 3, 2), (2, 6, 3), (6, 2, 5), (3, 7, 4), (7, 3, 6)],
)


def fan(draw):
    count = draw.randint(1, 7)
    points = [(0, 0)] + [(i - 3, 4 - (i - 3) ** 2 / 4) for i in range(count + 1)]
    return points, [(i + 1, i + 2, 0) for i in range(count)]


def grid(draw):
    wide, high = draw.randint(1, 3), draw.randint(1, 3)
    points = [(i, j) for j in range(high + 1) for i in range(wide + 1)]
    triples = []
    for j in range(high):
        for i in range(wide):
            a = j * (wide + 1) + i
            b, c, d = a + 1, a + wide + 2, a + wide + 1
            triples += [(c, a, b), (a, c, d)]
    return points, triples


def macro_text(points, triples, values=None, element_values=None, labels=None):
    lines = ["DIM: 2", "DIM_OF_WORLD: 2", f"number of vertices: {len(points)}", f"number of elements: {len(triples)}"]
    lines += ["vertex coordinates:"] + [f"{x} {y}" for x, y in points]
    lines += ["element vertices:"] + [" ".join(map(str, t)) for t in triples]
    if labels:
        lines += ["element boundaries:"] + [" ".join(map(str, t)) for t in labels]
    if values:
        lines += ["vertex values:"] + list(map(str, values))
    if element_values:
        lines += ["element values:"] + list(map(str, element_values))
    return "\n".join(lines) + "\n"


def random_macro(draw):
    """A macro text: a small mesh, refined at random and written in another order, with values."""
    points, triples = draw.choice([lambda _: SQUARE, lambda _: CENTRE, lambda _: CORNER, fan, grid])(draw)
    mesh = Mesh(macro_text(points, triples))
    run = Run(mesh, 10**6)
    for step in range(draw.choice([0, 0, 1, 2, 3])):
        run.round(step, [(0, "mark", leaf, None, draw.randint(1, 2)) for leaf in run.leaves() if draw.random() < 0.3])
    leaves = run.leaves()
    draw.shuffle(leaves)
    used = sorted({v for leaf in leaves for v in mesh.corners(leaf)})
    if draw.random() < 0.1:
        used.append(used[0])
    draw.shuffle(used)
    number = {v: i for i, v in enumerate(used)}
    size = draw.choice([3, 100, 2**31])
    return macro_text(
        [tuple(map(decimal, mesh.points[v])) for v in used],
        [tuple(number[v] for v in mesh.corners(leaf)) for leaf in leaves],
        [draw.randint(-size, size) for _ in used] if draw.random() < 0.6 else None,
        [draw.randint(-(2**55), 2**55) if size > 100 else draw.randint(-9, 9) for _ in leaves] if draw.random() < 0.6 else None,
        [tuple(draw.randint(-128, 127) for _ in range(3)) for _ in leaves] if draw.random() < 0.2 else None,
    )


def spelled(name):
    return f"{name[0]}.{name[1]}" if name[1] else str(name[0])


def random_row(draw, leaves, deep):
    leaf = draw.choice(leaves)
    if draw.random() < 0.01:
        leaf = (leaf[0], leaf[1] + draw.choice("01"))
    place = "*" if draw.random() < 0.12 else spelled(leaf)
    what = draw.choices(["mark", "elem", "vert"], [8, 1, 1])[0]
    if what == "mark":
        numbers = [-24, -5, -4, -3, -2, -2, -1, -1, -1, 0, 1, 1, 1, 2, 2, 3] if place != "*" else [-24, -3, -2, -1, -1, -1, 0, 1]
        number = draw.choice(numbers)
        if deep and place != "*" and draw.random() < 0.1:
            number = draw.randint(4, 7)
        if leaf[1] and place != "*" and draw.random() < 0.01:
            number = 24  # above level 24, since the leaf is bisected already
        return f"mark,{place},{number}"
    if what == "vert" and place != "*":
        place += f"/{draw.randint(0, 2)}"
    return f"{what},{place},{draw.randint(-(2**31), 2**31) if draw.random() < 0.3 else draw.randint(-99, 99)}"


def random_case(draw):
    """A macro text, a marks text and a pool."""
    macro = random_macro(draw)
    run = Run(Mesh(macro), 10**6)
    lines, rounds, most = ["round,what,where,number"], draw.randint(0, 5), 0
    for number in range(1, rounds + 1):
        leaves = run.leaves()
        if len(leaves) > 150:
            rows = [f"mark,*,{draw.choice([-1, -1, -2, -24])}"]
        else:
            rows = [random_row(draw, leaves, len(leaves) < 60) for _ in range(draw.choice([0, 1, 1, 2, 5, 12]))]
        lines += [f"{number},{row}" for row in rows]
        text = lines[0] + "\n" + "".join(f"1,{row}\n" for row in rows)
        try:
            parsed = adapt_rows(text)
            run.round(number, parsed)
        except Refused:
            break
        most = max(most, len(run.patches(run.members)))
    pool = draw.choice([65536, 65536, 1048576, max(1, most), max(1, most + draw.randint(-2, 2))])
    return macro, "\n".join(lines) + "\n", pool


def adapt_rows(text):
    from model import read_rounds

    found = read_rounds(text)
    return found[0] if found else []


def told(program, folder, words):
    done = subprocess.run([program, "run", *words], cwd=folder, capture_output=True, text=True, check=False)
    return done.returncode, done.stdout, done.stderr


def main():
    program, runs = os.path.abspath(sys.argv[1]), int(sys.argv[2])
    seed = int(sys.argv[3]) if len(sys.argv) > 3 else random.randrange(10**9)
    print(f"seed {seed}")
    counts = {}
    with tempfile.TemporaryDirectory() as folder:
        for i in range(runs):
            draw = random.Random(f"{seed} {i}")
            macro, marks, pool = random_case(draw)
            report = draw.random() < 0.3
            wanted = adapt_run(macro, marks, pool, report)
            for name, text in (("mesh", macro), ("marks", marks)):
                with open(os.path.join(folder, name), "w") as file:
                    file.write(text)
            words = ["mesh", "marks", "--pool", str(pool), "--workers", str(draw.randint(1, 8))] + ["--report"] * report
            found = told(program, folder, words)
            counts[wanted[0]] = counts.get(wanted[0], 0) + 1
            if found != wanted:
                kept = tempfile.mkdtemp(prefix="differs")
                for name, text in (("mesh", macro), ("marks", marks), ("wanted", "".join(map(str, wanted))), ("found", "".join(map(str, found)))):
                    with open(os.path.join(kept, name), "w") as file:
                        file.write(text)
                print(f"run {i} differs: {' '.join(words)}, kept in {kept}")
                return 1
    print(f"{runs} runs, no difference; by status: {counts}")
    return 0


if __name__ == "__main__":
    sys.exit(main())

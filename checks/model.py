#!/usr/bin/env python3
"""A model of `adapt run`, by the definitions alone: sets of names, no partners, no indices.

    python3 checks/model.py MACRO MARKS [--pool P] [--report]

It prints what `adapt run` prints, ends with its status, and goes over the whole mesh at each step, so
it is for small meshes. It reads macro and marks files that `adapt` accepts, and refuses rounds as
`adapt` does.
"""
import sys
from fractions import Fraction

FINE = 4096 * 10**10
DEEPEST = 24


class Refused(Exception):
    """A round that is refused: the status, and the line on err."""


class Mesh:
    """A macro mesh. Vertices of leaves are numbers: a midpoint gets one when its edge is first asked for."""

    def __init__(self, text):
        keys, key = {}, None
        for line in text.splitlines():
            line = line.split("#")[0]
            if ":" in line:
                name, line = line.split(":", 1)
                key = " ".join(name.lower().split())
                keys[key] = []
            if key:
                keys[key] += line.split()
        numbers = [int(abs(Fraction(w)) * FINE) * (-1 if w.startswith("-") else 1) for w in keys["vertex coordinates"]]
        triples = [int(w) for w in keys["element vertices"]]
        self.points = list(zip(numbers[::2], numbers[1::2]))
        self.elements = list(zip(triples[::3], triples[1::3], triples[2::3]))
        self.vertex_count = len(self.points)
        self.values = [int(w) for w in keys.get("vertex values", [])] or [0] * self.vertex_count
        self.element_values = [int(w) for w in keys.get("element values", [])] or [0] * len(self.elements)
        edges = {}
        for e, triple in enumerate(self.elements):
            for i in range(3):
                edges.setdefault(frozenset(triple) - {triple[i]}, []).append((e, i))
        given = [int(w) for w in keys.get("element boundaries", [])]
        self.labels = []
        for e, triple in enumerate(self.elements):
            made = [1 if len(edges[frozenset(triple) - {triple[i]}]) == 1 else 0 for i in range(3)]
            self.labels.append(tuple(given[3 * e : 3 * e + 3] or made))
        self.grades = self.find_grades([sides for sides in edges.values() if len(sides) == 2])
        self.midpoints = {}
        self.triangles = {}

    def find_grades(self, shared):
        """Grades differ by one where an edge is the refinement edge of one side; the least of a part is 0."""
        beside = {}
        for (a, i), (b, j) in shared:
            step = (i == 2) - (j == 2)
            beside.setdefault(a, []).append((b, -step))
            beside.setdefault(b, []).append((a, step))
        grades = [None] * len(self.elements)
        for first in range(len(self.elements)):
            if grades[first] is not None:
                continue
            grades[first], part, waiting = 0, [first], [first]
            while waiting:
                e = waiting.pop()
                for other, step in beside.get(e, []):
                    if grades[other] is None:
                        grades[other] = grades[e] + step
                        part.append(other)
                        waiting.append(other)
            least = min(grades[e] for e in part)
            for e in part:
                grades[e] -= least
        return grades

    def midpoint(self, a, b):
        edge = (min(a, b), max(a, b))
        if edge not in self.midpoints:
            (ax, ay), (bx, by) = self.points[a], self.points[b]
            self.midpoints[edge] = len(self.points)
            self.points.append(((ax + bx) // 2, (ay + by) // 2))
            self.values.append(None)
        return self.midpoints[edge]

    def triangle(self, name):
        """The three vertices and the three labels of a name, which is a macro element and a word."""
        if name not in self.triangles:
            root, word = name
            if word == "":
                self.triangles[name] = (self.elements[root], self.labels[root])
            else:
                (v0, v1, v2), (l0, l1, l2) = self.triangle((root, word[:-1]))
                m = self.midpoint(v0, v1)
                child = ((v2, v0, m), (l2, 0, l1)) if word[-1] == "0" else ((v1, v2, m), (0, l2, l0))
                self.triangles[name] = child
        return self.triangles[name]

    def corners(self, name):
        return self.triangle(name)[0]

    def level(self, name):
        return self.grades[name[0]] + len(name[1])


def children(name):
    return [(name[0], name[1] + letter) for letter in "01"]


def parent(name):
    return (name[0], name[1][:-1])


class Run:
    """A forest, its bisected elements, and the values of its vertices and leaves."""

    def __init__(self, mesh, pool):
        self.mesh, self.pool = mesh, pool
        self.members = set()
        self.element_values = {(e, ""): value for e, value in enumerate(mesh.element_values)}
        self.used, self.holes = mesh.vertex_count, 0

    def leaves_of(self, members):
        tops = [(e, "") for e in range(len(self.mesh.elements))]
        return sorted(n for n in tops + [c for m in members for c in children(m)] if n not in members)

    def leaves(self):
        return self.leaves_of(self.members)

    def refine(self, needed):
        """The least conforming forest: leaves with a vertex in the middle of an edge are bisected, while there are any."""
        members = set(self.members)
        for name in needed:
            while name not in members:
                members.add(name)
                if name[1] == "":
                    break
                name = parent(name)
        while True:
            leaves = self.leaves_of(members)
            there = {v for leaf in leaves for v in self.mesh.corners(leaf)}
            hanging = []
            for leaf in leaves:
                a, b, c = self.mesh.corners(leaf)
                edges = [(min(p, q), max(p, q)) for p, q in ((a, b), (b, c), (c, a))]
                if any(self.mesh.midpoints.get(edge) in there for edge in edges):
                    hanging.append(leaf)
            if not hanging:
                return members
            members.update(hanging)

    def patches(self, members):
        """The midpoints of the members' refinement edges, one for each patch, with the members."""
        found = {}
        for name in members:
            a, b, _ = self.mesh.corners(name)
            found.setdefault(self.mesh.midpoint(a, b), []).append(name)
        return found

    def try_row(self, leaves, row, what, place, number):
        named = leaves if place == "*" else [place]
        if any(n not in leaves for n in named):
            raise Refused(4, f"adapt: marks: row {row}: not a leaf")
        if what == "mark" and number > 0:
            deepest = max(self.mesh.level(n) for n in named) + number
            if deepest > DEEPEST:
                raise Refused(4, f"adapt: marks: row {row}: level {deepest} is above 24")

    def coarsen(self, members, marks):
        marks = {leaf: marks[leaf] for leaf in self.leaves_of(members) if leaf in marks}
        moving = True
        while moving:
            moving = False
            for patch in self.patches(members).values():
                below = [c for m in patch for c in children(m)]
                if all(c not in members and marks.get(c, 0) < 0 for c in below):
                    for m in patch:
                        members.discard(m)
                        marks[m] = max(marks[c] for c in children(m)) + 1
                    moving = True
        return members

    def value(self, name, values):
        """The value of an element: of the leaf above it, split letter by letter, or else the sum of its children's."""
        if name in values:
            return values[name]
        above = name
        while above[1]:
            above = parent(above)
            if above in values:
                value = values[above]
                for letter in name[1][len(above[1]) :]:
                    value = value // 2 if letter == "0" else value - value // 2
                return value
        return sum(self.value(child, values) for child in children(name))

    def round(self, number, rows):
        mesh, leaves = self.mesh, self.leaves()
        known, marks = set(leaves), {}
        for row, what, place, corner, n in rows:
            self.try_row(known, row, what, place, n)
            if what == "mark":
                marks.update({leaf: n for leaf in (leaves if place == "*" else [place])})
        needed = [(leaf[0], leaf[1] + word) for leaf, k in marks.items() for word in words_below(k)]
        refined = self.refine(needed)
        count = len(self.patches(refined))
        if count > self.pool:
            raise Refused(5, f"adapt: round {number}: {count} patches needed, pool {self.pool}")
        for row, what, place, corner, n in rows:
            for leaf in leaves if place == "*" else [place]:
                if what == "elem":
                    self.element_values[leaf] = n
                elif what == "vert":
                    for v in mesh.corners(leaf) if corner is None else [mesh.corners(leaf)[corner]]:
                        mesh.values[v] = n
        old = self.patches(self.members)
        middle = self.patches(refined)
        self.give_values(refined, set(middle) - set(old))
        coarse = self.coarsen(set(refined), marks)
        self.element_values = {leaf: self.value(leaf, self.element_values) for leaf in self.leaves_of(coarse)}
        self.count(len(middle) - len(old), len(middle) - len(self.patches(coarse)))
        self.members = coarse

    def give_values(self, refined, new):
        """A new vertex gets the floor of half the sum at the ends of its edge, from the least level on."""
        for name in sorted(refined, key=lambda n: (self.mesh.level(n), n)):
            a, b, _ = self.mesh.corners(name)
            m = self.mesh.midpoint(a, b)
            if m in new:
                self.mesh.values[m] = (self.mesh.values[a] + self.mesh.values[b]) // 2

    def count(self, born, died):
        """Indices of vertices: holes are filled first, and squeezed out where they outnumber the used."""
        self.used += born - died
        self.holes = max(0, self.holes - born) + died
        if self.holes > self.used:
            self.holes = 0


def words_below(mark):
    """The words of fewer than so many letters."""
    words, last = [], [""]
    for _ in range(mark):
        words += last
        last = [word + letter for word in last for letter in "01"]
    return words


def read_name(text):
    root, _, word = text.partition(".")
    return (int(root), word)


def read_rounds(text):
    """The rows of each round: number of the row, kind, leaf or `*`, corner, number."""
    rounds, row = {}, 0
    for line in text.splitlines():
        if not line.strip():
            continue
        row += 1
        if row == 1:
            continue
        number, what, place, n = [field.strip() for field in line.split(",")]
        place, _, corner = place.partition("/")
        rounds.setdefault(int(number), []).append((row, what, place if place == "*" else read_name(place), int(corner) if corner else None, int(n)))
    return [rounds.get(r, []) for r in range(1, max(rounds, default=0) + 1)]


def decimal(units):
    whole, rest = divmod(abs(units), FINE)
    digits = str(rest * 244140625).rjust(22, "0").rstrip("0")
    return ("-" if units < 0 else "") + str(whole) + ("." + digits if digits else "")


def mesh_text(run):
    mesh, leaves = run.mesh, run.leaves()
    numbers = {v: v for v in range(mesh.vertex_count)}
    for leaf in leaves:
        for v in mesh.corners(leaf):
            numbers.setdefault(v, len(numbers))
    beside = {}
    for i, leaf in enumerate(leaves):
        for v in mesh.corners(leaf):
            beside.setdefault(frozenset(mesh.corners(leaf)) - {v}, []).append(i)
    lines = ["DIM: 2", "DIM_OF_WORLD: 2", "", f"number of vertices: {len(numbers)}", f"number of elements: {len(leaves)}"]
    lines += ["", "vertex coordinates:"] + [" ".join(map(decimal, mesh.points[v])) for v in numbers]
    lines += ["", "element vertices:"] + [" ".join(str(numbers[v]) for v in mesh.corners(leaf)) for leaf in leaves]
    lines += ["", "element boundaries:"] + [" ".join(map(str, mesh.triangle(leaf)[1])) for leaf in leaves]
    lines += ["", "element neighbours:"]
    for i, leaf in enumerate(leaves):
        sides = [beside[frozenset(mesh.corners(leaf)) - {v}] for v in mesh.corners(leaf)]
        lines.append(" ".join(str(next((j for j in side if j != i), -1)) for side in sides))
    lines += ["", "vertex values:"] + [str(mesh.values[v]) for v in numbers]
    lines += ["", "element values:"] + [str(run.element_values[leaf]) for leaf in leaves]
    return "\n".join(lines) + "\n"


def adapt_run(macro, marks, pool=65536, report=False):
    """The status, what stands on out and what on err."""
    run = Run(Mesh(macro), pool)
    lines = []
    for number, rows in enumerate(read_rounds(marks), 1):
        try:
            run.round(number, rows)
        except Refused as refusal:
            status, line = refusal.args
            return status, "", line + "\n"
        leaves = run.leaves()
        vertices = len({v for leaf in leaves for v in run.mesh.corners(leaf)} | set(range(run.mesh.vertex_count)))
        lines.append(f"round {number} leaves {len(leaves)} vertices {vertices} holes {run.holes}\n")
    return 0, "".join(lines) if report else mesh_text(run), ""


if __name__ == "__main__":
    words = sys.argv[1:]
    limit = int(words[words.index("--pool") + 1]) if "--pool" in words else 65536
    with open(words[0]) as macro_file, open(words[1]) as marks_file:
        ending, out, err = adapt_run(macro_file.read(), marks_file.read(), limit, "--report" in words)
    sys.stdout.write(out)
    sys.stderr.write(err)
    sys.exit(ending)

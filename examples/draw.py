#!/usr/bin/env python3
"""Draws a mesh text as an SVG picture: ./adapt run MACRO MARKS | examples/draw.py > mesh.svg

Options: --values vertex or --values element colours the triangles by their values, from the least
(dark) to the greatest (light); a triangle's vertex value is the mean of its three corners. --width N
is the picture's width in pixels (480 if not given). It needs Python 3 and nothing else. It is no part
of what is proved.
"""
import argparse
import sys

# From dark to light, at equal distances.
COLOURS = [(68, 1, 84), (59, 82, 139), (33, 145, 140), (94, 201, 98), (253, 231, 37)]
MARGIN = 4


def read_lists(text):
    """The lines of numbers under each key of a mesh text."""
    lists = {}
    key = None
    for line in text.splitlines():
        if ":" in line:
            key, _, rest = line.partition(":")
            lists[key] = [rest.split()] if rest.split() else []
        elif line.split() and key is not None:
            lists[key].append(line.split())
    return lists


def read_mesh(text):
    """Points, triangles, neighbours, vertex values and element values."""
    lists = read_lists(text)
    try:
        points = [(float(x), float(y)) for x, y in lists["vertex coordinates"]]
        triangles = [tuple(map(int, row)) for row in lists["element vertices"]]
        neighbours = [tuple(map(int, row)) for row in lists["element neighbours"]]
        vertex_values = [int(row[0]) for row in lists["vertex values"]]
        element_values = [int(row[0]) for row in lists["element values"]]
    except (KeyError, ValueError) as fault:
        sys.exit(f"draw.py: this is no mesh text: {fault}")
    return points, triangles, neighbours, vertex_values, element_values


def colour(share):
    """The colour at a share from 0 to 1 of the scale."""
    place = share * (len(COLOURS) - 1)
    first = min(int(place), len(COLOURS) - 2)
    part = place - first
    mixed = [round(a + (b - a) * part) for a, b in zip(COLOURS[first], COLOURS[first + 1])]
    return "#%02x%02x%02x" % tuple(mixed)


def fills(values):
    """A colour for each value."""
    least = min(values)
    spread = max(values) - least
    return [colour((value - least) / spread if spread else 0.5) for value in values]


def number(value):
    """A coordinate with at most one decimal."""
    text = f"{value:.1f}"
    return text[:-2] if text.endswith(".0") else text


def draw(mesh, chosen, width):
    """The lines of the picture."""
    points, triangles, neighbours, vertex_values, element_values = mesh
    used = [points[i] for i in sorted({i for triangle in triangles for i in triangle})]
    left, right = min(x for x, _ in used), max(x for x, _ in used)
    low, high = min(y for _, y in used), max(y for _, y in used)
    scale = (width - 2 * MARGIN) / max(right - left, 1e-9)
    height = round((high - low) * scale) + 2 * MARGIN
    at = [(number(MARGIN + (x - left) * scale), number(MARGIN + (high - y) * scale)) for x, y in points]

    def path(corners):
        return "M" + "L".join(" ".join(at[i]) for i in corners)

    yield f'<svg xmlns="http://www.w3.org/2000/svg" width="{width}" height="{height}" viewBox="0 0 {width} {height}">'
    yield f'<rect width="{width}" height="{height}" fill="#ffffff"/>'
    yield '<g stroke="#333333" stroke-width="0.6" stroke-linejoin="round">'
    if chosen is None:
        yield '<path fill="#dce6f2" d="' + "".join(path(t) + "Z" for t in triangles) + '"/>'
    else:
        means = [sum(vertex_values[i] for i in t) / 3 for t in triangles]
        by_colour = {}
        for triangle, fill in zip(triangles, fills(element_values if chosen == "element" else means)):
            by_colour.setdefault(fill, []).append(path(triangle) + "Z")
        for fill, paths in sorted(by_colour.items()):
            yield f'<path fill="{fill}" d="' + "".join(paths) + '"/>'
    yield "</g>"
    # The boundary, and both sides of a slit: edge i lies opposite corner i.
    sides = [(t[(i + 1) % 3], t[(i + 2) % 3]) for t, n in zip(triangles, neighbours) for i in range(3) if n[i] < 0]
    yield '<path fill="none" stroke="#000000" stroke-width="2" stroke-linecap="round" d="' + "".join(map(path, sides)) + '"/>'
    yield "</svg>"


def main():
    parser = argparse.ArgumentParser(description="Draws a mesh text as an SVG picture.")
    parser.add_argument("mesh", nargs="?", help="the file with the mesh text; standard input if not given")
    parser.add_argument("--values", choices=["vertex", "element"], help="colour the triangles by these values")
    parser.add_argument("--width", type=int, default=480, help="the width in pixels, 480 if not given")
    words = parser.parse_args()
    if words.mesh is None:
        text = sys.stdin.read()
    else:
        with open(words.mesh, encoding="ascii") as file:
            text = file.read()
    for line in draw(read_mesh(text), words.values, words.width):
        print(line)


main()

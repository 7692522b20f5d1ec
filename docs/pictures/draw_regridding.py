#!/usr/bin/env python3
"""Draws how a layout gives a new mesh: regridding.svg beside this file."""

from draw import BLUE, FAINT, FILL, GREEN, INK, RED, SIDES, Picture

# Patches as (left, low, right, high) in old edges: one on the left, and two of its width on the right.
PATCHES = [(0, 0, 2, 3), (2, 0, 5, 1), (2, 1, 5, 3)]
NODES = [(0, 0), (2, 0), (5, 0), (2, 1), (5, 1), (0, 3), (2, 3), (5, 3)]
ARCS = [((0, 0), (2, 0)), ((2, 0), (5, 0)), ((0, 0), (0, 3)), ((2, 0), (2, 1)), ((2, 1), (2, 3)), ((5, 0), (5, 1)),
        ((5, 1), (5, 3)), ((2, 1), (5, 1)), ((0, 3), (2, 3)), ((2, 3), (5, 3))]


def steps(low, high, parts):
    return [low + (high - low) * k / parts for k in range(parts + 1)]


def mesh(picture, left, low, columns, rows):
    """The patches, cut into cells, where a column or row of the old mesh has so many new ones."""
    for number, (a, b, c, d) in enumerate(PATCHES):
        xs = sorted({x for k in range(a, c) for x in steps(k, k + 1, columns[k])})
        ys = sorted({y for k in range(b, d) for y in steps(k, k + 1, rows[k])})
        for x, right in zip(xs, xs[1:]):
            for y, high in zip(ys, ys[1:]):
                corners = [(x, y), (right, y), (right, high), (x, high)]
                picture.area([(left + i, low + j) for i, j in corners], SIDES[number % 2] if number else FILL, FAINT, 1)
    for (a, b), (c, d) in ARCS:
        picture.line([(left + a, low + b), (left + c, low + d)], INK, 3)


def old(picture, left, low):
    mesh(picture, left, low, [1] * 5, [1] * 3)
    for x, y in NODES:
        picture.dot((left + x, low + y), fill=INK, radius=0.12)
    picture.text((left + 2.5, low + 4.15), "1. a mesh and its layout: nodes,", 14, bold=True)
    picture.text((left + 2.5, low + 3.75), "arcs between them, three patches", 14, bold=True)


def new(picture, left, low):
    mesh(picture, left, low, [2, 1, 1, 2, 1], [2, 2, 1])
    for (a, b), (c, d) in ARCS:
        for k in range(min(a, c), max(a, c)):
            for x in steps(k, k + 1, [2, 1, 1, 2, 1][k]):
                picture.dot((left + x, low + b), fill=BLUE, radius=0.08)
        for k in range(min(b, d), max(b, d)):
            for y in steps(k, k + 1, [2, 2, 1][k]):
                picture.dot((left + a, low + y), fill=BLUE, radius=0.08)
    for x in (0.5, 1):
        for y in (0.5, 1, 1.5, 2):
            picture.dot((left + x, low + y), fill=GREEN, radius=0.08)
    for x in (3, 3.5, 4):
        for y in (0.5, 1.5, 2):
            picture.dot((left + x, low + y), fill=GREEN, radius=0.08)
    for x, y in NODES:
        picture.dot((left + x, low + y), fill=INK, radius=0.12)
    picture.text((left + 2.5, low + 4.15), "2. new lengths: points are nodes,", 14, bold=True)
    picture.text((left + 2.5, low + 3.75), "along arcs, or inside patches", 14, bold=True)


def turns(picture, left, low):
    """The four darts that leave a point of an arc, and the turns that lead from each to the next."""
    for x in (0, 1):
        for y in (0, 1):
            a, b = left + 1.5 * x, low + 1.5 * y
            picture.area([(a, b), (a + 1.5, b), (a + 1.5, b + 1.5), (a, b + 1.5)], SIDES[0] if x else FILL, FAINT, 1)
    picture.line([(left + 1.5, low), (left + 1.5, low + 3)], INK, 3)
    centre = (left + 1.5, low + 1.5)
    for dx, dy, ox, oy in ((1, 0, 0, 0.1), (0, 1, -0.1, 0), (-1, 0, 0, -0.1), (0, -1, 0.1, 0)):
        picture.line([(centre[0] + ox + 0.18 * dx, centre[1] + oy + 0.18 * dy),
                      (centre[0] + ox + 1.2 * dx, centre[1] + oy + 1.2 * dy)], BLUE, 2, arrow=True)
    for first, ink in ((14, RED), (104, INK), (194, RED), (284, INK)):
        picture.arc(centre, 0.75, first, first + 72, ink)
    picture.dot(centre, fill=INK, radius=0.1)
    picture.text((left + 1.5, low + 4.15), "3. one fan: turns inside a patch", 14, bold=True)
    picture.text((left + 1.5, low + 3.75), "(black) and over an arc (red)", 14, bold=True)


def main():
    picture = Picture("How a layout gives a new mesh", 16.4, 5.2, 54)
    old(picture, 0.4, 0.5)
    new(picture, 6.2, 0.5)
    turns(picture, 12.6, 0.5)
    picture.write("regridding.svg")


if __name__ == "__main__":
    main()

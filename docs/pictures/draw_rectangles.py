#!/usr/bin/env python3
"""Draws why the pieces of a full cut are rectangles: rectangles.svg beside this file."""

from draw import BLUE, FAINT, FILL, GREEN, INK, RED, SIDES, Picture


def cell(picture, left, low, x, y, fill=FILL):
    corners = [(left + x + a, low + y + b) for a, b in ((0, 0), (1, 0), (1, 1), (0, 1))]
    picture.area(corners, fill, FAINT, 1)


def cut(picture, left, low, points, ink=INK):
    picture.line([(left + x, low + y) for x, y in points], ink, 4)


def gap(picture, left, low):
    """Where a cut edge ends, the cut goes on: straight, or along the next side of the face."""
    for shift, points, ink in ((0, [(1, 1), (2, 1)], BLUE), (2.7, [(1, 1), (1, 2)], GREEN)):
        for x in (0, 1):
            for y in (0, 1):
                cell(picture, left + shift, low, x, y)
        cut(picture, left + shift, low, [(0, 1), (1, 1)])
        cut(picture, left + shift, low, points, ink)
    picture.text((left + 2.35, low + 0.85), "or", 14)
    picture.text((left + 2.35, low + 3.75), "1. where a cut edge ends,", 14, bold=True)
    picture.text((left + 2.35, low + 3.35), "the cut goes on", 14, bold=True)


def row(picture, left, low):
    """From a corner a row goes east until its way is cut, and its south edges are all cut."""
    for x in range(4):
        cell(picture, left, low, x, 0, SIDES[0])
    cut(picture, left, low, [(0, 1), (0, 0), (1, 0)])
    cut(picture, left, low, [(1, 0), (4, 0)], BLUE)
    cut(picture, left, low, [(4, 0), (4, 1)], RED)
    for x in range(3):
        picture.line([(left + x + 0.5, low + 0.5), (left + x + 1.4, low + 0.5)], INK, 1.5, arrow=True)
    picture.dot((left, low), fill=INK, radius=0.12)
    picture.text((left + 2, low + 3.75), "2. from a corner a row goes east", 14, bold=True)
    picture.text((left + 2, low + 3.35), "until its way is cut", 14, bold=True)


def rows(picture, left, low):
    """Rows stand one over the other with one width, until a cut edge lies to the north."""
    for y in range(3):
        for x in range(4):
            cell(picture, left, low, x, y, SIDES[y % 2])
    cut(picture, left, low, [(0, 3), (0, 0), (4, 0), (4, 3)])
    cut(picture, left, low, [(0, 3), (4, 3)], RED)
    for y in range(2):
        picture.line([(left + 0.5, low + y + 0.5), (left + 0.5, low + y + 1.4)], INK, 1.5, arrow=True)
    picture.text((left + 2, low + 3.75), "3. rows of one width stand over", 14, bold=True)
    picture.text((left + 2, low + 3.35), "each other until the north is cut", 14, bold=True)


def main():
    picture = Picture("Why the pieces of a full cut are rectangles", 16.6, 4.8, 54)
    gap(picture, 0.4, 0.6)
    row(picture, 6.4, 0.6)
    rows(picture, 12.1, 0.6)
    picture.write("rectangles.svg")


if __name__ == "__main__":
    main()

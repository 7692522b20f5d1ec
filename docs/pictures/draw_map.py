#!/usr/bin/env python3
"""Draws what lines of a map say: map.svg beside this file."""

from draw import BLUE, FAINT, FILL, GREEN, INK, RED, SIDES, Picture

SIZE = 3
"""Two old faces in each direction, and three new ones."""
GREY = "#666"


def grid(picture, left, low, parts, ink, thick):
    for k in range(parts + 1):
        at = SIZE * k / parts
        picture.line([(left + at, low), (left + at, low + SIZE)], ink, thick)
        picture.line([(left, low + at), (left + SIZE, low + at)], ink, thick)


def old(picture, left, low):
    """The old faces and vertices with their numbers."""
    picture.area([(left, low), (left + SIZE, low), (left + SIZE, low + SIZE), (left, low + SIZE)], FILL, FAINT)
    grid(picture, left, low, 2, INK, 1.5)
    for vertex in range(9):
        at = (left + SIZE * (vertex % 3) / 2, low + SIZE * (vertex // 3) / 2)
        picture.dot(at, fill=INK, radius=0.05)
        picture.text((at[0] - 0.12, at[1] - 0.24), str(vertex + 1), 12, INK)
    for face in range(4):
        picture.text((left + 0.5 + face % 2 * 2, low + 0.45 + face // 2 * 2), f"face {face + 1}", 12, GREY)


def vertices(picture, left, low):
    old(picture, left, low)
    grid(picture, left, low, 3, BLUE, 2)
    half, third = SIZE / 2, SIZE / 3
    picture.line([(left + half, low + third), (left + 2 * third, low + third)], RED, 2.5, arrow=True)
    picture.line([(left + 2 * third, low), (left + 2 * third, low + third)], RED, 2.5, arrow=True)
    picture.text((left + half + 0.25, low + third + 0.08), "S", 12, RED)
    picture.text((left + 2 * third + 0.14, low + 0.72), "T", 12, RED)
    for x, y, fill in ((0, 0, INK), (third, 0, GREEN), (2 * third, third, RED)):
        picture.dot((left + x, low + y), fill=fill, radius=0.09)
    picture.text((left + half, low + SIZE + 0.75), "where new vertices lie", 14, bold=True)
    for row, (words, ink) in enumerate((("vertex 1", INK), ("edge 1 2 2 3", GREEN),
                                        ("face 2 1 1431655765 2863311530", RED))):
        picture.text((left + half, low - 0.65 - 0.32 * row), words, 13, ink)


def cell(picture, left, low):
    old(picture, left, low)
    half, third = SIZE / 2, SIZE / 3
    corners = [(left + third, low), (left + 2 * third, low), (left + 2 * third, low + third), (left + third, low + third)]
    picture.area(corners, SIDES[2], RED, 2)
    grid(picture, left, low, 3, BLUE, 2)
    picture.area([(left, low), (left + half, low), (left + half, low + half), (left, low + half)], "none", RED, 3)
    picture.dot((left + half, low + third / 2), fill=RED, radius=0.07)
    for number, (x, y) in enumerate(corners):
        picture.dot((x, y), str(number), ink=RED, radius=0.14)
    picture.text((left + half, low + SIZE + 0.75), "where a new face lies", 14, bold=True)
    for row, words in enumerate(("cell 1 1  2863311530 0", "5726623061 0  5726623061 2863311530",
                                 "2863311530 2863311530")):
        picture.text((left + half, low - 0.65 - 0.32 * row), words, 13, RED)


def main():
    picture = Picture("What lines of a map say", 10.4, 5.6, 60)
    vertices(picture, 0.9, 1.6)
    cell(picture, 6.1, 1.6)
    picture.write("map.svg")


if __name__ == "__main__":
    main()

#!/usr/bin/env python3
"""Draws an alternating tree and the blossom that it shrinks to: blossom.svg beside this file."""

import math

from draw import BLUE, FAINT, GREEN, INK, RED, Picture

OUTER, INNER = "#f8e6d2", "#dbe7f5"


def place(left, low, points):
    return {name: (left + x, low + y) for name, (x, y) in points.items()}


def edges(picture, at, pairs, ink=INK, thick=1.5, dashed=False):
    for one, other in pairs:
        picture.line([at[one], at[other]], ink, thick, dashed)


def vertices(picture, at, names, fill):
    for name in names:
        picture.dot(at[name], name, fill=fill, radius=0.24)


def tree(picture, left, low):
    """A root, and below it inner vertices with the outer ones that they are matched to."""
    at = place(left, low, {
        "r": (2.0, 3.9), "a": (0.7, 3.0), "b": (3.3, 3.0), "c": (0.7, 1.9), "d": (3.3, 1.9),
        "e": (4.4, 1.0), "f": (5.5, 0.4), "g": (-0.4, 1.0), "h": (-1.5, 0.4),
    })
    edges(picture, at, ["ra", "rb", "cg", "de"])
    edges(picture, at, ["ac", "bd", "gh", "ef"], BLUE, 4.5)
    edges(picture, at, ["cd"], RED, 2.5, dashed=True)
    vertices(picture, at, "rcdfh", OUTER)
    vertices(picture, at, "abge", INNER)
    picture.text((left + 2.0, low + 4.45), "the root: not matched", 14)
    picture.text((left + 2.0, low + 1.35), "a tight edge between", 14, RED)
    picture.text((left + 2.0, low + 1.0), "two outer ones", 14, RED)


def shrunk(picture, left, low):
    """The same, where the odd cycle is one outer blossom."""
    middle = (left + 2.0, low + 2.75)
    turns = [math.radians(90 + 72 * i) for i in range(5)]
    ring = [(middle[0] + 1.05 * math.cos(it), middle[1] + 1.05 * math.sin(it)) for it in turns]
    at = dict(zip("racdb", ring))
    at.update(place(left, low, {"e": (4.4, 1.0), "f": (5.5, 0.4), "g": (-0.4, 1.0), "h": (-1.5, 0.4)}))
    picture.dot(middle, fill=OUTER, ink=RED, radius=1.55)
    edges(picture, at, ["ra", "cd", "br"], INK)
    edges(picture, at, ["ac", "bd"], BLUE, 4.5)
    edges(picture, at, ["cg", "de"])
    edges(picture, at, ["gh", "ef"], BLUE, 4.5)
    vertices(picture, at, "racdb", "white")
    vertices(picture, at, "fh", OUTER)
    vertices(picture, at, "ge", INNER)
    picture.text((left + 2.0, low + 4.45), "one outer blossom: now the root", 14, RED)


def main():
    picture = Picture("An alternating tree, and the blossom that it shrinks to", 16.4, 5.6, 50)
    tree(picture, 2.1, 0.75)
    shrunk(picture, 10.2, 0.75)
    picture.line([(8.15, 0.7), (8.15, 5.3)], FAINT, 1)
    words = "Orange: outer. Blue: inner. Thick: matched. Every line drawn is tight."
    picture.text((8.2, 0.25), words, 14, GREEN)
    picture.write("blossom.svg")


if __name__ == "__main__":
    main()

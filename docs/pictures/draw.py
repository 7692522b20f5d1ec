#!/usr/bin/env python3
"""Draws the pictures of the documents: each function below writes one SVG beside this file."""

import math
import pathlib

HERE = pathlib.Path(__file__).resolve().parent
INK, FAINT, RED, BLUE, GREEN = "#222", "#999", "#c0392b", "#1f5fa8", "#2e7d32"
FILL, SIDES = "#eef3fa", ["#dbe7f5", "#e3f0df", "#f8e6d2"]


class Picture:
    """An SVG whose y grows upward, in units of `scale` pixels, with room for `width` by `height` of them."""

    def __init__(self, title, width, height, scale=60):
        self.title, self.width, self.height, self.scale = title, width, height, scale
        self.parts = []
        self.heads = {INK: "ink", RED: "red", BLUE: "blue"}

    def at(self, point):
        return f"{point[0] * self.scale:.1f},{(self.height - point[1]) * self.scale:.1f}"

    def area(self, points, fill=FILL, ink=INK, thick=1.5):
        where = " ".join(map(self.at, points))
        self.parts.append(f'<polygon points="{where}" fill="{fill}" stroke="{ink}" stroke-width="{thick}"/>')

    def line(self, points, ink=INK, thick=1.5, dashed=False, arrow=False):
        where = " ".join(map(self.at, points))
        more = ' stroke-dasharray="5 4"' if dashed else ""
        more += f' marker-end="url(#{self.head(ink)})"' if arrow else ""
        head = f'<polyline points="{where}" fill="none" stroke="{ink}" stroke-width="{thick}"'
        self.parts.append(f"{head}{more}/>")

    def head(self, ink):
        """The name of the arrow head of a colour, which the picture then has."""
        return self.heads.setdefault(ink, f"head{len(self.heads)}")

    def arc(self, middle, radius, first, last, ink=BLUE):
        """An arrow round the middle, from one angle to another, in degrees."""
        turn = [math.radians(first + (last - first) * i / 24) for i in range(25)]
        points = [(middle[0] + radius * math.cos(it), middle[1] + radius * math.sin(it)) for it in turn]
        self.line(points, ink, 2, arrow=True)

    def dot(self, point, name="", fill="white", ink=INK, radius=0.13):
        x, y = self.at(point).split(",")
        circle = f'<circle cx="{x}" cy="{y}" r="{radius * self.scale:.1f}"'
        self.parts.append(f'{circle} fill="{fill}" stroke="{ink}" stroke-width="1.5"/>')
        if name:
            self.text((point[0], point[1] - 0.07), name, 13, ink)

    def text(self, point, words, size=15, ink=INK, anchor="middle", bold=False, halo=False):
        x, y = self.at(point).split(",")
        more = ' font-weight="bold"' if bold else ""
        more += ' paint-order="stroke" stroke="white" stroke-width="3"' if halo else ""
        where = f'<text x="{x}" y="{y}" font-size="{size}" fill="{ink}" text-anchor="{anchor}"{more}>'
        self.parts.append(f"{where}{words}</text>")

    def svg(self):
        wide, high = round(self.width * self.scale), round(self.height * self.scale)
        lines = [f'<svg xmlns="http://www.w3.org/2000/svg" viewBox="0 0 {wide} {high}" width="{wide}" height="{high}"']
        lines += [f' font-family="DejaVu Sans, Helvetica, sans-serif" role="img"><title>{self.title}</title>', "<defs>"]
        for ink, key in self.heads.items():
            lines.append(f'<marker id="{key}" viewBox="0 0 10 10" refX="8" refY="5" markerWidth="7" markerHeight="7"')
            lines.append(f' orient="auto"><path d="M0,1 L9,5 L0,9 z" fill="{ink}"/></marker>')
        lines += ["</defs>", f'<rect width="{wide}" height="{high}" fill="white"/>', *self.parts, "</svg>"]
        return "\n".join(lines) + "\n"

    def write(self, name):
        (HERE / name).write_text(self.svg())


def shrunk(points, share=0.8):
    """The corners, moved towards their middle."""
    middle = [sum(it[i] for it in points) / len(points) for i in (0, 1)]
    return [tuple(middle[i] + share * (it[i] - middle[i]) for i in (0, 1)) for it in points]


def darts():
    picture = Picture("Darts and twins of two faces", 9, 4.6)
    for face, left in [(0, 1.0), (1, 4.5)]:
        corners = [(left, 0.7), (left + 3.5, 0.7), (left + 3.5, 3.9), (left, 3.9)]
        picture.area(corners)
        inner = shrunk(corners, 0.82)
        for i in range(4):
            dart, ends = 4 * face + i, [inner[i], inner[(i + 1) % 4]]
            first, last = (tuple(a + t * (b - a) for a, b in zip(*ends)) for t in (0.06, 0.94))
            ink = RED if dart in (1, 7) else BLUE
            picture.line([first, last], ink, 2.5, arrow=True)
            middle = [(a + b) / 2 for a, b in zip(*ends)]
            inward = [(0, 0.22), (-0.25, -0.07), (0, -0.36), (0.25, -0.07)][i]
            picture.text((middle[0] + inward[0], middle[1] + inward[1]), str(dart), 15, ink, bold=True)
        picture.text((left + 1.75, 2.2), f"face {face}", 15, FAINT)
        for corner, (x, y) in zip("0123", shrunk(corners, 1.0)):
            picture.dot((x, y), radius=0.07, fill=INK)
    picture.text((4.5, 4.2), "1 and 7 are twins", 14, RED)
    picture.text((4.5, 0.2), "Round face 0: 0, 1, 2, 3. An edge with one dart alone is on the boundary.", 14)
    picture.write("darts.svg")


def around(middle, angles, radius):
    turns = map(math.radians, angles)
    return [(middle[0] + radius * math.cos(it), middle[1] + radius * math.sin(it)) for it in turns]


def quad_at(picture, middle, first, last, fill=FILL):
    """A quad with a corner at the middle, between two angles."""
    ends = around(middle, [first, last], 1.05)
    far = around(middle, [(first + last) / 2], 1.45 if last - first < 100 else 1.2)
    picture.area([middle, ends[0], far[0], ends[1]], fill)


def fans():
    picture = Picture("One fan and two", 12, 4)
    inner, border, touching = (2, 2.2), (6, 2.2), (10, 2.2)
    for i in range(5):
        quad_at(picture, inner, 90 + 72 * i, 162 + 72 * i)
        picture.arc(inner, 0.5, 97 + 72 * i, 155 + 72 * i)
    for i in range(3):
        quad_at(picture, border, 80 * i - 30, 80 * i + 50)
        picture.arc(border, 0.5, 80 * i - 22, 80 * i + 42)
    for first in (-45, 135):
        quad_at(picture, touching, first, first + 90, SIDES[2])
        picture.arc(touching, 0.5, first + 8, first + 82, RED)
    for middle, words in [(inner, "one fan that closes"), (border, "one fan with two ends"), (touching, "two fans")]:
        picture.dot(middle, radius=0.09, fill=INK)
        picture.text((middle[0], 0.2), words, 15, RED if middle == touching else INK)
    picture.write("fans.svg")


def copies(left, top, count):
    """The places of a node's copies, from the top down."""
    return [(left, top - 0.8 * i) for i in range(count)]


def fan_out(picture, start, points, name, ink, chosen=None):
    """Edges from the start to the copies of a node; the chosen one is of the matching."""
    for point in points:
        picture.line([start, point], ink, 4 if point == chosen else 1.2)
    for i, point in enumerate(points):
        picture.dot(point, f"{name}{'₁₂₃'[i]}", ink=ink, radius=0.24)


def unit():
    picture = Picture("A unit of the matching graph with the copies of its nodes", 13.4, 4.6)
    # Unlike signs: one vertex between the copies of both nodes.
    picture.text((2, 4.25), "a plus and a minus end", 15, bold=True)
    node, other, middle = copies(0.6, 3.4, 3), copies(3.4, 3.0, 2), (2, 2.6)
    fan_out(picture, middle, node, "v", BLUE, node[1])
    fan_out(picture, middle, other, "w", GREEN)
    picture.dot(middle, "u", radius=0.26)
    picture.text((1.1, 1.35), "on: c", 14, BLUE)
    picture.text((3.0, 1.35), "off: 0", 14, GREEN)
    # Like signs: two vertices with an edge between them.
    picture.text((6.8, 4.25), "two plus ends", 15, bold=True)
    node, other, first, second = copies(5.0, 3.4, 3), copies(8.6, 3.0, 2), (6.2, 2.6), (7.4, 2.6)
    picture.line([first, second], GREEN, 1.2)
    fan_out(picture, first, node, "v", BLUE, node[1])
    fan_out(picture, second, other, "w", BLUE, other[0])
    picture.dot(first, "u₁", radius=0.26)
    picture.dot(second, "u₂", radius=0.26)
    picture.text((6.8, 2.75), "off: 0", 14, GREEN)
    picture.text((5.6, 1.35), "on: c", 14, BLUE)
    picture.text((8.1, 1.35), "on: 0", 14, BLUE)
    # One end: the second vertex is at the rim.
    picture.text((11.4, 4.25), "one plus end", 15, bold=True)
    node, first, second = copies(10.1, 3.4, 3), (11.4, 2.6), (12.6, 2.6)
    picture.line([first, second], GREEN, 1.2)
    picture.line([second, (13.3, 2.6)], INK, 1.2, dashed=True)
    fan_out(picture, first, node, "v", BLUE, node[1])
    picture.dot(first, "u", radius=0.26)
    picture.dot(second, "r", radius=0.26)
    picture.text((12.0, 2.75), "off: 0", 14, GREEN)
    picture.text((10.7, 1.35), "on: c", 14, BLUE)
    picture.text((12.6, 2.05), "the rim", 14)
    words = "Thick: a matching where the unit is on, which costs c once. Green: what says that it is off."
    picture.text((6.7, 0.7), words, 14)
    words = "At minus ends the edges to the copies say off and cost 0, and the other edge costs c."
    picture.text((6.7, 0.3), words, 14)
    for left in (4.3, 9.4):
        picture.line([(left, 1.1), (left, 4.4)], FAINT, 1)
    picture.write("unit.svg")


def rim():
    picture = Picture("The rim, the ladder and the lone vertex", 12.4, 3.9)
    low, high = 1.2, 2.9
    names = ["b₀", "a₁", "b₁", "a₂", "b₂", "a₃", "b₃"]
    ladder = [(1.0 + 1.7 * i, low) for i in range(7)]
    rims = [(1.85 + 3.4 * i, high) for i in range(3)] + [(11.6, high)]
    for i in range(3):
        picture.line([ladder[2 * i], rims[i], ladder[2 * i + 1], ladder[2 * i]], INK, 1.5)
        picture.line([ladder[2 * i + 1], ladder[2 * i + 2]], BLUE, 2.5)
    picture.line([ladder[6], rims[3]], INK, 1.5)
    for i, point in enumerate(rims):
        picture.line([point, (point[0], high + 0.75)], FAINT, 1.5, dashed=True)
        picture.dot(point, f"r{'₁₂₃₄'[i]}", radius=0.28, fill=FILL)
    for name, point in zip(names, ladder):
        picture.dot(point, name, radius=0.28, ink=RED if name == "b₀" else INK)
    picture.text((1.0, 0.55), "the lone vertex,", 14, RED)
    picture.text((1.0, 0.2), "or none", 14, RED)
    picture.text((7.5, 0.55), "The pairs of the ladder (blue) match each other where no rim vertex needs them.", 14)
    picture.text((6.95, 3.5), "each to its unit, too", 14, FAINT)
    picture.write("rim.svg")


def flaps():
    picture = Picture("Three flaps", 11, 10, 52)
    middle, unit_length = (5.5, 5.0), 0.86

    def seen(x, y, z):
        right = (y - x) * math.cos(math.radians(30))
        up = z - (x + y) * math.sin(math.radians(30))
        return (middle[0] + unit_length * right, middle[1] + unit_length * up)

    turned = [lambda x, y, z: seen(x, y, z), lambda x, y, z: seen(z, x, y), lambda x, y, z: seen(y, z, x)]
    for side, place in enumerate(turned):
        for a in range(5):
            for b in range(5):
                if a < 3 or b < 3:
                    corners = [place(a, b, 0), place(a + 1, b, 0), place(a + 1, b + 1, 0), place(a, b + 1, 0)]
                    # The flap that goes on from this side in the direction of its first or second axis.
                    fill = SIDES[side] if a >= 3 else SIDES[(side + 1) % 3] if b >= 3 else "white"
                    picture.area(corners, fill, FAINT, 1)
    for place in turned:
        picture.line([place(0, 0, 0), place(3, 0, 0), place(3, 3, 0), place(0, 3, 0)], INK, 3)
        picture.line([place(3, 3, 0), place(5, 3, 0), place(5, 0, 0)], INK, 3)
        picture.line([place(3, 3, 0), place(3, 5, 0), place(0, 5, 0)], INK, 3)
    for i, place in enumerate(turned):
        x, y = place(1.5, 0, 0)
        picture.text((x + [0.25, -0.35, 0.4][i], y + [-0.35, -0.35, 0][i]), f"s{'₁₂₃'[i]}", 17, RED, bold=True)
        picture.dot(place(3, 3, 0), radius=0.09, fill=RED, ink=RED)
    picture.dot(seen(0, 0, 0), radius=0.1, fill=INK)
    far = [((1.5, 2.1), "s₂ + s₃"), ((9.5, 2.1), "s₃ + s₁"), ((5.5, 9.55), "s₁ + s₂")]
    for point, words in far:
        picture.text(point, words, 16, BLUE, bold=True)
    picture.text((5.5, 0.2), "Three sides of 3 by 3 faces (white) and three flaps, each round two of them.", 14)
    picture.write("three_flaps.svg")


if __name__ == "__main__":
    darts()
    fans()
    unit()
    rim()
    flaps()

#!/usr/bin/env python3
"""Draws how riders move over a small flat mesh, one picture an instant: motion.svg beside this file."""

from draw import BLUE, FAINT, FILL, GREEN, INK, RED, Picture

# The rows of faces from the top down.
ROWS = ["##...", "#####", "#####", ".####", "..###"]
INKS = [BLUE, RED, GREEN, "#8e44ad", "#d35400", "#16a085"]


class Rider:
    """A rider at a vertex, with its direction, the vertices of its trail, and why it stopped."""

    def __init__(self, start, way):
        self.at, self.way, self.trail, self.stop = start, way, [start], ""

    def ahead(self):
        return (self.at[0] + self.way[0], self.at[1] + self.way[1])


def faces_of_rows():
    return {(x, len(ROWS) - 1 - y) for y, row in enumerate(ROWS) for x, it in enumerate(row) if it == "#"}


def faces_at(faces, vertex):
    x, y = vertex
    return sum((x - a, y - b) in faces for a in (0, 1) for b in (0, 1))


def is_inner_edge(faces, one, other):
    """Whether there is a face on both sides of the edge."""
    (x, y), (z, w) = sorted((one, other))
    return ((x, y) in faces and (x, y - 1) in faces) if y == w else ((x, y) in faces and (x - 1, y) in faces)


def starts(faces):
    """A rider on each inner edge of each vertex with three faces."""
    corners = sorted({(x + a, y + b) for x, y in faces for a in (0, 1) for b in (0, 1)}, key=lambda it: (it[1], it[0]))
    ways = [(1, 0), (0, 1), (-1, 0), (0, -1)]
    reflex = [it for it in corners if faces_at(faces, it) == 3]
    riders = [Rider(it, way) for it in reflex for way in ways]
    return [it for it in riders if is_inner_edge(faces, it.at, it.ahead())]


def step(faces, riders, stood):
    """One instant: each running rider rides one edge, and then the rules decide."""
    running = [it for it in riders if not it.stop]
    rides = {it: (it.at, it.ahead()) for it in running}
    arrived = []
    for rider in running:
        one, other = rides[rider]
        if (other, one) in rides.values():
            rider.trail.append(((one[0] + other[0]) / 2, (one[1] + other[1]) / 2))
            rider.stop = "middle"
            continue
        rider.trail.append(other)
        rider.at = other
        arrived.append(rider)
        if faces_at(faces, other) < 4:
            rider.stop = "boundary"
        elif other in stood:
            rider.stop = "trail"
    for rider in [it for it in arrived if not it.stop]:
        others = [it for it in arrived if it.at == rider.at and it is not rider]
        to_the_right = (rider.way[1], -rider.way[0])
        # Who comes from the right rides to the left of this rider's way.
        gives_way = [it for it in others if it.way == (-to_the_right[0], -to_the_right[1])]
        if len(others) > 1 or gives_way or (others and others[0].way == (-rider.way[0], -rider.way[1])):
            rider.stop = "tie"
    stood.update(it.at for it in arrived)


def panel(picture, faces, riders, left, title):
    for x, y in faces:
        corners = [(left + x + a, 1.3 + y + b) for a, b in ((0, 0), (1, 0), (1, 1), (0, 1))]
        picture.area(corners, FILL, FAINT, 1)
    for x, y in faces:
        corners = [(x, y), (x + 1, y), (x + 1, y + 1), (x, y + 1)]
        for one, other in zip(corners, corners[1:] + corners[:1]):
            if not is_inner_edge(faces, one, other):
                picture.line([(left + p[0], 1.3 + p[1]) for p in (one, other)], INK, 2)
    for rider, ink in zip(riders, INKS):
        points = [(left + x, 1.3 + y) for x, y in rider.trail]
        if len(points) > 1:
            picture.line(points, ink, 4)
        x, y = points[-1]
        if not rider.stop:
            tip = (x + 0.34 * rider.way[0], y + 0.34 * rider.way[1])
            side = (0.15 * rider.way[1], 0.15 * rider.way[0])
            foot = (x + 0.08 * rider.way[0], y + 0.08 * rider.way[1])
            feet = [(foot[0] + sign * side[0], foot[1] + sign * side[1]) for sign in (1, -1)]
            picture.area([tip, *feet], ink, ink)
        else:
            picture.dot((x, y), fill=ink, ink="white", radius=0.17)
    for x, y in {it.trail[0] for it in riders}:
        picture.dot((left + x, 1.3 + y), fill=INK, ink=INK, radius=0.13)
    picture.text((left + 2.5, 6.75), title, 15, INK, bold=True)


def main():
    faces, stood = faces_of_rows(), set()
    riders = starts(faces)
    stood.update(it.at for it in riders)
    picture = Picture("The motion of riders, instant by instant", 24.2, 7.4, 38)
    panel(picture, faces, riders, 0.4, "at the start")
    seen = set()
    for instant in range(1, 4):
        step(faces, riders, stood)
        left = 0.4 + 6.1 * instant
        panel(picture, faces, riders, left, f"instant {instant}")
        new = sorted({it.stop for it in riders if it.stop and id(it) not in seen})
        seen.update(id(it) for it in riders if it.stop)
        picture.text((left + 2.5, 0.75), "new stops: " + ", ".join(new), 13)
    picture.text((12.1, 0.2), "Black: where riders start. Arrows: riders that run. Dots: riders that have stopped.", 13)
    picture.write("motion.svg")


if __name__ == "__main__":
    main()

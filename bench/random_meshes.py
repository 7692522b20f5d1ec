"""Quad meshes by chance, as texts in an order and a spelling that any file may have. Most of them quadq accepts."""
from decimal import Decimal


def random_text(rng):
    """The text of a mesh. Some of its edges are marked by `l` lines."""
    faces = rng.choice((plate, plate, grown))(rng)
    return text_of(rng, [face[::-1] for face in faces] if rng.random() < 0.5 else faces)


def plate(rng):
    """A grid with rectangles left out, which may come round in one direction or in both, then with a shift."""
    wide, high = rng.randint(1, 12), rng.randint(1, 12)
    is_round, is_torus = wide > 2 and rng.random() < 0.4, high > 2 and rng.random() < 0.4
    shift = rng.randrange(wide) if is_round and is_torus else 0
    gone = set()
    for _ in range(rng.randint(0, 4)):
        x, y = rng.randrange(wide), rng.randrange(high)
        columns, rows = range(x, x + rng.randint(1, 4)), range(y, y + rng.randint(1, 4))
        gone |= {(i, j) for i in columns for j in rows}

    def at(x, y):
        turns, row = divmod(y, high) if is_torus else (0, y)
        column = x + turns * shift
        return row * (wide + 1) + (column % wide if is_round else column)

    return [[at(x, y), at(x + 1, y), at(x + 1, y + 1), at(x, y + 1)]
            for y in range(high) for x in range(wide) if (x, y) not in gone]


def grown(rng):
    """Squares that were set on sides of the boundary, or filled a gap of it, or of which two sides became one; each is
    then divided in so many by so many."""
    faces = [[0, 1, 2, 3]]
    for _ in range(rng.randint(1, 30)):
        after = {start: end for start, end in darts_of(faces) if (end, start) not in darts_of(faces)}
        if not after:
            break
        new = rng.choice((set_on, filled, zipped))(faces, after, rng.choice(sorted(after)))
        faces = new if are_quads(new) else faces
    return divided(faces, rng.randint(1, 3))


def darts_of(faces):
    return {dart for face in faces for dart in zip(face, face[1:] + face[:1])}


def are_quads(faces):
    """Whether no face has a vertex twice, and no edge has two faces on one side."""
    return all(len(set(face)) == 4 for face in faces) and len(darts_of(faces)) == 4 * len(faces)


def set_on(faces, after, start):
    least = 1 + max(map(max, faces))
    return [*faces, [after[start], start, least, least + 1]]


def filled(faces, after, start):
    path = [start]
    for _ in range(3):
        path.append(after.get(path[-1], start))
    return [*faces, [path[0], *path[:0:-1]]]


def zipped(faces, after, start):
    end = after.get(after[start], start)
    return [[start if it == end else it for it in face] for face in faces]


def divided(faces, parts):
    """Each face in so many by so many."""
    numbers = {}

    def at(face, i, j):
        """The number of a point of a face, by what it lies on: a vertex, an edge or the face."""
        a, b, c, d = face
        near = {a: (parts - i) * (parts - j), b: i * (parts - j), c: i * j, d: (parts - i) * j}
        return numbers.setdefault(frozenset(it for it in near.items() if it[1]), len(numbers))

    steps = range(parts)
    return [[at(face, i, j), at(face, i + 1, j), at(face, i + 1, j + 1), at(face, i, j + 1)]
            for face in faces for j in steps for i in steps]


def text_of(rng, faces):
    """Vertices at places by chance, in whatever order, some of them unused; faces in whatever order, each from whatever
    corner; and marks."""
    used = sorted({it for face in faces for it in face})
    count = len(used) + rng.choice((0, 0, 1, 5))
    name = dict(zip(used, rng.sample(range(1, count + 1), len(used))))
    far = rng.choice((10**3, 10**7, 10**9, 10**14))
    lines = ["v " + " ".join(f"{Decimal(rng.randint(-far, far)).scaleb(-6):f}" for _ in range(3)) for _ in range(count)]
    for face in rng.sample(faces, len(faces)):
        turn = rng.randrange(4)
        names = (name[it] for it in face[turn:] + face[:turn])
        lines.append("f " + " ".join(str(it if rng.random() < 0.9 else it - count - 1) for it in names))
    return "\n".join([*lines, *marks_of(rng, sorted((name[a], name[b]) for a, b in darts_of(faces)))]) + "\n"


def marks_of(rng, darts):
    """`l` lines for some edges."""
    share = rng.choice((0, 0.05, 0.2))
    return [f"l {start} {end}" for start, end in darts if rng.random() < share]

"""The matching graph of a list of lengths, built from its description alone, to give the tests of qm_gadget
their values."""


def deviation(arc, length, p, q):
    return arc["weight"] * abs(q * length - p * arc["old"])


def units_of(net, x, step):
    """(arc, cost, on) for each unit, in order of arcs and units, with the lows and caps of the arcs."""
    units, lows, caps = [], [], []
    for arc, length in zip(net["arcs"], x):
        down = min(2, (length - net["floor"]) // step)
        low, cap = length - down * step, down + 2
        lows.append(low)
        caps.append(cap)
        for k in range(cap):
            lower, upper = low + k * step, low + (k + 1) * step
            cost = deviation(arc, upper, net["p"], net["q"]) - deviation(arc, lower, net["p"], net["q"])
            units.append((arc, cost, k < down))
    return units, lows, caps


def matching_graph(net, x, step):
    units, lows, caps = units_of(net, x, step)
    active = [0] * net["nodes"]
    for arc, _, on in units:
        for node, plus in arc["ends"]:
            if plus == on:
                active[node] += 1
    count, copies = 0, []
    for v in range(net["nodes"]):
        copies.append(list(range(count, count + active[v])))
        count += active[v]
    own = []
    for arc, _, _ in units:
        signs = [plus for _, plus in arc["ends"]]
        size = 1 if len(signs) == 2 and signs[0] != signs[1] else 2
        own.append(list(range(count, count + size)))
        count += size
    alone = [i for i, (arc, _, _) in enumerate(units) if len(arc["ends"]) == 1]
    odd = sum(units[i][0]["ends"][0][1] == units[i][2] for i in alone) % 2 == 1
    b = {}
    a = {}
    if odd:
        b[0] = count
        count += 1
    m = len(alone)
    for i in range(1, m):
        a[i], b[i] = count, count + 1
        count += 2
    edges = []
    for (arc, c, _), vertices in zip(units, own):
        ends = arc["ends"]
        u = vertices[0]
        if len(ends) == 1:
            (node, plus), = ends
            edges += [(u, copy, c if plus else 0) for copy in copies[node]]
            edges.append((u, vertices[1], 0 if plus else c))
        elif ends[0][1] != ends[1][1]:
            for node, plus in ends:
                edges += [(u, copy, c if plus else 0) for copy in copies[node]]
        else:
            plus = ends[0][1]
            u1, u2 = vertices
            edges += [(u1, copy, c if plus else 0) for copy in copies[ends[0][0]]]
            edges += [(u2, copy, 0) for copy in copies[ends[1][0]]]
            edges.append((u1, u2, 0 if plus else c))
    for i in range(1, m + 1):
        r = own[alone[i - 1]][1]
        if i - 1 in b:
            edges.append((b[i - 1], r, 0))
        if i in a:
            edges.append((r, a[i], 0))
        if i - 1 in b and i in a:
            edges.append((b[i - 1], a[i], 0))
        if i in a:
            edges.append((a[i], b[i], 0))
    return count, edges, lows, caps, odd


def checksum(edges):
    """A number that tells lists of edges apart: digits u, v and cost + 2^31, each times its place."""
    total = 0
    for k, (u, v, cost) in enumerate(edges):
        total += (k + 1) * (u * 1009 + v * 9176263 + (cost + 2**31) * 31337)
    return total % 2**64


def arc(ends, old, weight):
    return {"ends": ends, "old": old, "weight": weight}


QUAD = {"nodes": 2, "floor": 1, "p": 1, "q": 1, "arcs": [
    arc([(0, True)], 1, 1), arc([(1, True)], 1, 1), arc([(0, False)], 1, 1), arc([(1, False)], 1, 1)]}
MIXED = [
    arc([(0, True), (1, True)], 3, 1), arc([(0, False), (1, False)], 2, 7), arc([(1, True), (1, False)], 5, 1),
    arc([(0, False)], 4, 2), arc([(1, False)], 1, 1000)]
LOOPS = [
    arc([(0, True), (0, True)], 9, 3), arc([(0, False), (1, True)], 6, 1), arc([(1, False)], 6, 5),
    arc([(2, True), (2, False)], 1, 1), arc([(0, False)], 2, 2), arc([(2, True), (2, True)], 4, 1),
    arc([(2, False), (2, False)], 4, 1)]


RIM = [
    arc([(0, True)], 2, 1), arc([(0, False)], 3, 4), arc([(0, True), (0, False)], 1, 1), arc([(1, True)], 5, 2),
    arc([(1, False), (1, False)], 2, 3)]
NETS = {"quad": (2, QUAD["arcs"]), "mixed": (2, MIXED), "loops": (3, LOOPS), "rim": (2, RIM)}


def net(name, floor, p, q):
    nodes, arcs = NETS[name]
    return {"nodes": nodes, "floor": floor, "p": p, "q": q, "arcs": arcs}


# name, floor, p, q, step, the list, and a list in its box
CASES = [
    ("quad", 1, 1, 1, 1, [1, 1, 1, 1], [1, 1, 1, 1]),
    ("quad", 1, 3, 1, 1, [1, 2, 1, 2], [3, 1, 3, 1]),
    ("mixed", 2, 1, 2, 1, [4, 2, 9, 2, 2], [5, 3, 8, 2, 2]),
    ("mixed", 1, 1, 2, 2, [7, 2, 9, 5, 5], [9, 4, 5, 5, 5]),
    ("mixed", 3, 1000, 7, 16, [80, 40, 35, 40, 40], [96, 40, 67, 56, 56]),
    ("loops", 1, 3, 2, 1, [5, 7, 7, 1, 3, 2, 2], [4, 5, 5, 2, 3, 3, 3]),
    ("loops", 2, 3, 2, 2, [8, 9, 9, 3, 7, 3, 3], [8, 13, 13, 5, 3, 5, 5]),
    ("loops", 1, 1, 4, 16, [20, 19, 19, 33, 21, 17, 17], [20, 35, 35, 1, 5, 1, 1]),
    ("rim", 1, 2, 3, 1, [2, 2, 7, 4, 2], [4, 4, 6, 2, 1]),
    ("rim", 2, 2, 3, 2, [5, 5, 3, 8, 4], [3, 3, 7, 12, 6]),
    ("rim", 3, 9, 2, 16, [19, 19, 3, 38, 19], [35, 35, 19, 6, 3]),
]


def admissible(network, x):
    sums = {}
    for a, length in zip(network["arcs"], x):
        for node, plus in a["ends"]:
            sums[node] = sums.get(node, 0) + (length if plus else -length)
    return all(length >= network["floor"] for length in x) and not any(sums.values())


def total(network, x):
    return sum(deviation(a, length, network["p"], network["q"]) for a, length in zip(network["arcs"], x))


if __name__ == "__main__":
    for name, floor, p, q, step, x, other in CASES:
        network = net(name, floor, p, q)
        n, edges, lows, caps, odd = matching_graph(network, x, step)
        assert admissible(network, x), (name, x)
        assert admissible(network, other), (name, other)
        steps = [divmod(b - low, step) for b, low in zip(other, lows)]
        assert all(r == 0 and 0 <= j <= cap for (j, r), cap in zip(steps, caps)), (name, lows, caps)
        print(name, floor, p, q, step, x, other, "n", n, "edges", len(edges), "checksum", checksum(edges),
              "cost", total(network, other) - total(network, lows), "lone" if odd else "")

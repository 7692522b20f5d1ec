#!/usr/bin/env python3
"""Measures quadq's solver on networks, and on even ones integer programming with cbc, where Debian's coinor-cbc is
installed. Where both end, their least deviations have to be equal.

usage: bench/solve.py [--alone] [--old] [--far | --boundary] [FILE.net..]     without files: the networks of generated
meshes; alone: without cbc; old: the descent without a start, from a multiple of the old lengths; far: with far targets
only; boundary: of plates with many ends at the boundary only, without cbc

All seconds but those of the parts are of the processor, user and system, so that they mean something on a busy machine
too. The columns: the searches that are left to the matching in all rounds; the seconds and megabytes of the whole
program, and its microseconds for each arc; the percentages of the clock's time that went into reading, the start and
the rounds; the seconds of cbc, and the ratio of quadq's to these. Where cbc did not end within its time, what it has
found by then stands behind.

A network is a text: a line `net nodes N arcs A floor F scale P/Q`, and for each arc a line `arc OLD WEIGHT NODE SIGN
NODE SIGN` with `rim` in place of the second end at the boundary.
"""
import math
import os
import random
import re
import shutil
import subprocess
import sys
import tempfile

from measuring import bench_program

HERE = os.path.dirname(os.path.realpath(__file__))
DESCENT = "descend_old" if "--old" in sys.argv else "descend"
MESHES = [["holes", "512", "512"], ["holes", "1024", "1024"], ["voxels", "20"], ["voxels", "40"]]
LARGE = [["holes", "4096", "4096"], ["voxels", "100"], ["voxels", "208"]]
# Where many ends lie at the boundary, and the settings at which these are measured: scale and floor.
BOUNDARY = [["plate", side] for side in ("171", "342", "684", "1080")]
BOUNDARY += [["steps", plates] for plates in ("1000", "4000", "8000", "29500")]
SETTINGS = [(1, 2, 1), (1, 3, 1), (1, 1, 3)]
SECONDS = 60
# The greatest sum of the old lengths of an even network.
MAX_SUM = 8388608


def read_net(text):
    """The floor, P and Q, and the arcs as old length, weight and ends, each end as its node and its sign."""
    lines = text.splitlines()
    head = re.fullmatch(r"net nodes (\d+) arcs \d+ floor (\d) scale (\d+)/(\d+)", lines[0])
    nodes, floor, p, q = map(int, head.groups())
    arcs = []
    for line in lines[1:]:
        _, old, weight, *ends = line.split()
        pairs = [(int(ends[i]), ends[i + 1]) for i in range(0, len(ends), 2) if ends[i] != "rim"]
        arcs.append((int(old), int(weight), pairs))
    return nodes, floor, p, q, arcs


def net_of_graph(text, p, q, floor=1):
    """The network of a graph text: two nodes for each patch, plus at south and east, minus at north and west."""
    old, ends, patches = [], [], 0
    for line in text.splitlines():
        word, *numbers = line.split()
        if word == "arc":
            old.append(int(numbers[3]))
            ends.append([])
        elif word == "patch":
            patches += 1
        elif word in ("south", "north", "east", "west"):
            node = 2 * patches - (2 if word in ("south", "north") else 1)
            for arc in numbers:
                ends[int(arc) - 1].append((node, "+" if word in ("south", "east") else "-"))
    return 2 * patches, floor, p, q, [(a, 1, b) for a, b in zip(old, ends)]


def programme(net):
    """The integer programme in the LP format: x the lengths, d how far each is from its wish."""
    nodes, floor, p, q, arcs = net
    rows = [[] for _ in range(nodes)]
    lines = ["Minimize", " least: " + " + ".join(f"{arc[1]} d{a}" for a, arc in enumerate(arcs)), "Subject To"]
    for a, (old, _, ends) in enumerate(arcs):
        lines.append(f" over{a}: d{a} - {q} x{a} >= {-p * old}")
        lines.append(f" under{a}: d{a} + {q} x{a} >= {p * old}")
        for node, sign in ends:
            rows[node].append(f"{sign} x{a}")
    lines += [f" node{v}: {' '.join(row)} = 0" for v, row in enumerate(rows) if row]
    lines += ["Bounds", *(f" x{a} >= {floor}" for a in range(len(arcs)))]
    lines += ["General", *(f" x{a}" for a in range(len(arcs))), "End"]
    return "\n".join(lines) + "\n"


# A child is charged with the memory that its parent had, so a small process stands between.
BETWEEN = """import os, subprocess, sys
child = subprocess.Popen(sys.argv[1:])
_, status, usage = os.wait4(child.pid, 0)
print(f"taken: {status} {usage.ru_utime + usage.ru_stime} {usage.ru_maxrss / 1024}", file=sys.stderr)"""


def run(words, text=os.devnull):
    """What a command prints, and the seconds of the processor and the megabytes that it takes."""
    with open(text, "rb") as given:
        words = [sys.executable, "-c", BETWEEN, *words]
        ran = subprocess.run(words, stdin=given, stdout=subprocess.PIPE, stderr=subprocess.PIPE, check=True)
    status, seconds, megabytes = re.search(r"^taken: (\S+) (\S+) (\S+)$", ran.stderr.decode(), re.MULTILINE).groups()
    if status != "0":
        sys.exit(f"{words[3]} ended with {status}")
    return (ran.stdout + ran.stderr).decode(), float(seconds), float(megabytes)


def solved(net, room):
    """The deviation that cbc found, if any, whether it is known to be the least, and the seconds."""
    with open(f"{room}/it.lp", "w", encoding="ascii") as out:
        out.write(programme(net))
    _, seconds, _ = run(["cbc", f"{room}/it.lp", "sec", str(SECONDS), "solve", "solution", f"{room}/it.sol"])
    with open(f"{room}/it.sol", encoding="ascii") as told:
        head = told.readline()
    found = None if "no integer solution" in head else re.search(r"objective value +([-\d.]+)", head)
    return round(float(found[1])) if found else None, head.startswith("Optimal"), seconds


def text_of(net):
    """The network as a text."""
    nodes, floor, p, q, arcs = net
    lines = [f"net nodes {nodes} arcs {len(arcs)} floor {floor} scale {p}/{q}"]
    for old, weight, ends in arcs:
        words = [f"{node} {sign}" for node, sign in ends] + ["rim"] * (2 - len(ends))
        lines.append(f"arc {old} {weight} {' '.join(words)}")
    return "\n".join(lines) + "\n"


def measured(net, room):
    """What quadq tells of a network, by name, with the seconds and megabytes of the run."""
    with open(f"{room}/it.net", "w", encoding="ascii") as out:
        out.write(text_of(net))
    told, seconds, megabytes = run([bench_program(), DESCENT], f"{room}/it.net")
    found = {name: float(value) for name, value in re.findall(r"^([a-z ]+): ([-\d.]+)", told, re.MULTILINE)}
    return found, seconds, megabytes


def is_even(net):
    """Whether the old lengths are in balance and have no great sum: then quadq promises an answer."""
    nodes, _, _, _, arcs = net
    sums = [0] * nodes
    for old, _, ends in arcs:
        for node, sign in ends:
            sums[node] += old if sign == "+" else -old
    return not any(sums) and sum(old for old, *_ in arcs) <= MAX_SUM


def far_even(net):
    """The network with old lengths up to 997 times as great, as far as an even network's sum goes, and in balance. The
    factor has no divisor in common with the scale's, so that wishes come no nearer to whole numbers."""
    nodes, floor, p, q, arcs = net
    most = min(997, MAX_SUM // sum(old for old, *_ in arcs))
    factor = next(it for it in range(most, 0, -1) if math.gcd(it, q) == 1)
    return nodes, floor, p, q, [(old * factor, *rest) for old, *rest in arcs]


def far_uneven(net):
    """The network with old lengths a thousand times as great and by chance up to a half more or less, which are in no
    balance: so are the lengths that a size in place of a scale asks for."""
    nodes, floor, _, _, arcs = net
    chance = random.Random(1)
    moved = [(max(1, int(old * 1000 * chance.uniform(0.5, 1.5))), *rest) for old, *rest in arcs]
    return nodes, floor, 1, 1, moved


def far(name, net):
    """The network with far targets, in balance and in none."""
    yield f"{name}, far", far_even(net)
    yield f"{name}, far, in no balance", far_uneven(net)


def graphs(room, meshes):
    """The graph texts of generated meshes, with their names."""
    for name in ("meshes", "graph"):
        command = ["g++", "-O2", "-std=c++20", "-o", f"{room}/{name}", f"{HERE}/{name}.cpp"]
        subprocess.run(command, check=True)
    for words in meshes:
        mesh = subprocess.run([f"{room}/meshes", *words], stdout=subprocess.PIPE, check=True).stdout
        text = subprocess.run([f"{room}/graph"], input=mesh, stdout=subprocess.PIPE, check=True).stdout.decode()
        yield " ".join(words), text


def generated(room, only_far):
    """The networks of generated meshes at two scales, and with far targets."""
    for name, text in graphs(room, MESHES + LARGE):
        for p, q in () if only_far else ((1, 2), (3, 2)):
            yield name, net_of_graph(text, p, q)
        yield from far(name, net_of_graph(text, 1, 2))


def at_boundary(room):
    """The networks of meshes with a long boundary, at each setting."""
    for name, text in graphs(room, BOUNDARY):
        for p, q, floor in SETTINGS:
            yield name, net_of_graph(text, p, q, floor)


def given(names, only_far):
    """The networks of files, or these with far targets."""
    for it in names:
        with open(it, encoding="ascii") as text:
            name, net = os.path.basename(it)[:-4], read_net(text.read())
        yield from far(name, net) if only_far else ((name, net),)


def chosen(names, room):
    """The networks that the words of the command ask for."""
    if "--boundary" in sys.argv:
        return at_boundary(room)
    only_far = "--far" in sys.argv
    return given(names, only_far) if names else generated(room, only_far)


def row_of(name, net, room):
    """A network's line of the table, without the peer, and its least deviation and seconds."""
    nodes, floor, p, q, arcs = net
    told, seconds, megabytes = measured(net, room)
    row = f"{name[-39:]:<40}{nodes:>8}{len(arcs):>8}{floor:>6}{f'{p}/{q}':>7}"
    row += f"{told['start']:>12.0f}{told['least']:>12.0f}"
    row += f"{told['rounds']:>7.0f}{told['searches left']:>6.0f}{told['sets']:>6.0f}"
    row += f"{seconds:>8.3f}{megabytes:>6.0f}{seconds * 1e6 / len(arcs):>8.1f}"
    parts = [told[f"{part} seconds"] for part in ("reading", "start", "rounds")]
    row += "".join(f"{100 * part / sum(parts):>8.0f}" for part in parts)
    return row, told["least"], seconds


def peer_of(net, room, least, seconds):
    """What cbc adds to the line."""
    found, is_least, peer_seconds = solved(net, room)
    row = f"{peer_seconds:>8.2f}{seconds / peer_seconds:>8.3f}"
    if not is_least:
        return f"{row} stopped at {'no list' if found is None else found}"
    return row if found == least else f"{row} OTHER LEAST DEVIATION {found}"


def main():
    names = [word for word in sys.argv[1:] if not word.startswith("--")]
    has_peer = shutil.which("cbc") and not {"--alone", "--boundary"} & set(sys.argv)
    if not has_peer:
        print("cbc: not measured")
    head = f"{'network':<40}{'nodes':>8}{'arcs':>8}{'floor':>6}{'scale':>7}{'start':>12}{'least':>12}"
    head += f"{'rounds':>7}{'left':>6}{'sets':>6}{'s':>8}{'MB':>6}{'us/arc':>8}{'read %':>8}{'start %':>8}{'rest %':>8}"
    print(head + f"{'cbc s':>8}{'ratio':>8}" * bool(has_peer))
    with tempfile.TemporaryDirectory() as room:
        for name, net in chosen(names, room):
            row, least, seconds = row_of(name, net, room)
            if has_peer and is_even(net):
                row += peer_of(net, room, least, seconds)
            print(row, flush=True)


if __name__ == "__main__":
    main()

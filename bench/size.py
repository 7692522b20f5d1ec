#!/usr/bin/env python3
"""Measures what edges of a given length cost: the descent from targets in thousandths of an edge that are in no balance.

usage: bench/size.py [FILE.net..]      networks with targets that are by chance up to a half longer or shorter than their
                                       old lengths, then 16 times as great, then as great as they may be
       bench/size.py --meshes          `quadq size` on generated meshes whose vertices are moved, beside `remesh` at 1/1

Seconds of the processor, user and system. A network is a text as bench/solve.py has it; without files it is those of
generated meshes. The columns of a network: how many new edges an old one is to have; the seconds and megabytes of the
whole program, its microseconds for each arc, and the percentages of the clock's time that went into the start and into
the rounds. Those of a mesh: the faces of the new one, and seconds and megabytes of both commands.
"""
import os
import random
import subprocess
import sys
import tempfile

import solve
from measuring import program, taken

HERE = os.path.dirname(os.path.realpath(__file__))
MESHES = [["cube", "100"], ["holes", "1024", "1024"], ["voxels", "40"], ["voxels", "100"], ["voxels", "208"]]
PARTS = 1000
# So many new edges for an old one make about as many faces of a part as a new mesh may have.
FINE = 16
# What the targets of all arcs may add up to, and the most new edges that an old one is to have here.
MAX_TARGETS = 4_000_000_000
MOST = 1000
# As a part of the mean edge, so that nearly each length changes.
EDGE = 0.7
ROUNDS = 3


def sized(net, times):
    """The network with targets in thousandths of an edge: so many times the old lengths, by chance up to a half more or
    less."""
    nodes, floor, _, _, arcs = net
    chance = random.Random(1)
    wished = [(max(1, int(old * times * PARTS * chance.uniform(0.5, 1.5))), 1, ends) for old, _, ends in arcs]
    return nodes, floor, 1, PARTS, wished


def most_times(net):
    """How many times the old lengths may be such targets, with some room for chance."""
    return max(1, min(MOST, int(0.9 * MAX_TARGETS / PARTS / sum(old for old, *_ in net[4]))))


def networks(names, room):
    """The networks of files, or of generated meshes, with their names."""
    for name in names:
        with open(name, encoding="ascii") as text:
            yield os.path.basename(name)[:-4], solve.read_net(text.read())
    if not names:
        for name, text in solve.graphs(room, solve.MESHES + solve.LARGE):
            yield name, solve.net_of_graph(text, 1, 1)


def show_networks(names, room):
    print(f"{'network':<40}{'arcs':>8}{'times':>6}{'least':>14}{'rounds':>7}{'left':>6}{'s':>8}{'MB':>6}{'us/arc':>8}{'start %':>8}{'rest %':>8}")
    for name, net in networks(names, room):
        arcs = len(net[4])
        most = most_times(net)
        for times in sorted({1, min(FINE, most), most}):
            told, seconds, megabytes = solve.measured(sized(net, times), room)
            parts = [told[f"{part} seconds"] for part in ("reading", "start", "rounds")]
            row = f"{name[-39:]:<40}{arcs:>8}{times:>6}{told['least']:>14.0f}{told['rounds']:>7.0f}"
            row += f"{told['searches left']:>6.0f}{seconds:>8.3f}{megabytes:>6.0f}{seconds * 1e6 / arcs:>8.1f}"
            print(row + "".join(f"{100 * part / sum(parts):>8.0f}" for part in parts[1:]), flush=True)


def moved(mesh):
    """A mesh whose edges are 1 long with each vertex moved by chance, up to a third in each direction."""
    chance = random.Random(1)
    for line in mesh.decode().splitlines():
        if line.startswith("v "):
            place = [float(it) + chance.uniform(-1 / 3, 1 / 3) for it in line.split()[1:4]]
            line = "v " + " ".join(f"{it:.6f}" for it in place)
        yield line + "\n"


def least(words, text, out):
    """The least seconds and megabytes of some runs, and their status."""
    runs = [taken([program(), *words], text, out) for _ in range(ROUNDS)]
    return min(it[1] for it in runs), min(it[2] for it in runs), runs[0][3]


def show_meshes(room):
    subprocess.run(["g++", "-O2", "-std=c++20", "-o", f"{room}/meshes", f"{HERE}/meshes.cpp"], check=True)
    print(f"{'mesh':<20}{'faces':>9}{'new faces':>11}{'size s':>9}{'MB':>6}{'remesh s':>10}{'MB':>6}")
    for words in MESHES:
        mesh = subprocess.run([f"{room}/meshes", *words], stdout=subprocess.PIPE, check=True).stdout
        text, out = f"{room}/mesh.obj", f"{room}/out.obj"
        with open(text, "w", encoding="ascii") as put:
            put.writelines(moved(mesh))
        peer, peer_mb, _ = least(["remesh", "--scale", "1/1", "--floor", "1", "--weight", "plain"], text, out)
        ours, ours_mb, status = least(["size", "--edge", str(EDGE), "--floor", "1"], text, out)
        with open(out, "rb") as lines:
            new = sum(line.startswith(b"f ") for line in lines) if status == 0 else f"status {status}"
        row = f"{' '.join(words):<20}{mesh.count(b'f '):>9}{new:>11}{ours:>9.3f}{ours_mb:>6.0f}"
        print(f"{row}{peer:>10.3f}{peer_mb:>6.0f}", flush=True)


def main():
    with tempfile.TemporaryDirectory() as room:
        if sys.argv[1:] == ["--meshes"]:
            show_meshes(room)
        else:
            show_networks(sys.argv[1:], room)


if __name__ == "__main__":
    main()

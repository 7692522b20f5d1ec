#!/usr/bin/env python3
"""Measures least perfect matchings against LEMON, where Debian's liblemon-dev is installed: of random sparse graphs,
and of the matching graphs of networks. Both have to find the same cost.

usage: bench/matching.py [FILE.net..]     without files: the networks of generated meshes

quadq is given a perfect matching of each graph, as its solver has one; LEMON takes none. All seconds are those that the
processor spent, which other work on the machine changes little.
"""
import os
import re
import subprocess
import sys
import tempfile

from measuring import bench_program
from solve import net_of_graph

HERE = os.path.dirname(os.path.realpath(__file__))
RANDOM = [1000, 5000, 20000]
LAYOUTS = [["holes", "1024", "1024"], ["voxels", "30"], ["voxels", "70"]]
ROUNDS = 3


def built(room, name, *more):
    program = f"{room}/{name}"
    command = ["g++", "-O2", "-std=c++17" if more else "-std=c++20", "-o", program, f"{HERE}/{name}.cpp", *more]
    return program if subprocess.run(command, stderr=subprocess.DEVNULL).returncode == 0 else None


def piped(words, text):
    return subprocess.run(words, input=text, stdout=subprocess.PIPE, check=True).stdout


def net_text(net):
    """The text of a network."""
    nodes, floor, p, q, arcs = net
    lines = [f"net nodes {nodes} arcs {len(arcs)} floor {floor} scale {p}/{q}"]
    for old, weight, ends in arcs:
        rim = " rim" if len(ends) == 1 else ""
        lines.append(f"arc {old} {weight} " + " ".join(f"{n} {s}" for n, s in ends) + rim)
    return "\n".join(lines) + "\n"


def graphs(room, files):
    """The name and the text of each graph, with a perfect matching."""
    writer, mesher, tracer = (built(room, it) for it in ("graphs", "meshes", "graph"))
    for n in RANDOM:
        text = piped([writer, "random", "1", str(n)], b"")
        known = " ".join(map(str, range(n // 2)))
        yield f"random {n}", text + f"known {known}\n".encode()
    nets = [(os.path.basename(file)[:-4], open(file, "rb").read()) for file in files]
    if not files:
        for words in LAYOUTS:
            layout = piped([tracer], piped([mesher, *words], b"")).decode()
            nets.append((" ".join(words), net_text(net_of_graph(layout, 1, 2)).encode()))
    for name, text in nets:
        yield name, piped([bench_program(), "pair"], text)


def run(words, text):
    """Seconds of the processor, MB and output of a run."""
    with tempfile.TemporaryFile() as file:
        file.write(text)
        file.seek(0)
        child = subprocess.Popen(words, stdin=file, stdout=subprocess.PIPE)
        said = child.stdout.read().decode()
        _, status, usage = os.wait4(child.pid, 0)
    if status != 0:
        sys.exit(f"{words} ended with {status}")
    return usage.ru_utime + usage.ru_stime, usage.ru_maxrss / 1024, said


def main():
    with tempfile.TemporaryDirectory() as room:
        lemon = built(room, "matching", "-llemon")
        if lemon is None:
            print("LEMON: not measured, since Debian's liblemon-dev is not installed")
        head = f"{'graph':<44}{'vertices':>9}{'edges':>9}{'sets':>7}"
        print(head + f"{'quadq s':>9}{'MB':>6}{'LEMON s':>9}{'MB':>6}{'ratio':>7}")
        for name, text in graphs(room, sys.argv[1:]):
            vertices, edges = map(int, text.split(b"\n", 1)[0].split()[1:])
            ours, theirs, megabytes = None, None, [0, 0]
            for _ in range(ROUNDS):
                none, base, _ = run([bench_program(), "match", "0"], text)
                one, peak, said = run([bench_program(), "match", "1"], text)
                cost, sets = re.fullmatch(r"cost (-?\d+) sets (\d+)\n", said).groups()
                ours = min(one - none, ours or one - none)
                megabytes[0] = peak - base
                if lemon:
                    _, megabytes[1], said = run([lemon], text)
                    other, seconds = re.fullmatch(r"cost (-?\d+) seconds ([\d.]+)\n", said).groups()
                    theirs = min(float(seconds), theirs or float(seconds))
                    if other != cost:
                        sys.exit(f"{name}: quadq {cost}, LEMON {other}")
            peer = f"{theirs:>9.3f}{megabytes[1]:>6.0f}{ours / max(theirs, 0.001):>7.2f}" if lemon else ""
            print(f"{name:<44}{vertices:>9}{edges:>9}{sets:>7}{ours:>9.3f}{megabytes[0]:>6.0f}{peer}")


main()

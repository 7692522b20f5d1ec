#!/usr/bin/env python3
"""Measures reading and writing the lines of a certificate of a million lines against plain C++: wall time of one call,
as the difference between many calls and one, and the peak memory of a run with one call."""
import os
import subprocess
import sys
import tempfile
import time

from measuring import bench_program

HERE = os.path.dirname(os.path.realpath(__file__))
ROUNDS = 5
TIMES = 11


def write_certificate(path):
    """A head line, 300,000 lengths, 600,000 numbers of vertices and 100,000 of sets, of one to nine digits."""
    with open(path, "w", encoding="ascii") as out:
        out.write("#quadq 1 remesh scale 1/2 floor 1 weight length\n")
        number = 1
        for i in range(1_000_000):
            number = number * 48271 % 2147483647
            size = number % 10 ** (1 + number % 9)
            if i < 300_000:
                out.write(f"#x {1 + size % 4096}\n")
            elif i < 900_000:
                out.write(f"#y {size if i % 2 else -1 - size} {number % 100_001}\n")
            else:
                out.write(f"#s {size} {number % 100_001}\n")


def measured(words, text):
    """Seconds, MB and output of one run."""
    with open(text, "rb") as source:
        start = time.perf_counter()
        child = subprocess.Popen(words, stdin=source, stdout=subprocess.PIPE)
        output = child.stdout.read()
        _, status, usage = os.wait4(child.pid, 0)
        seconds = time.perf_counter() - start
    if status != 0:
        sys.exit(f"{words[0]} ended with {status}")
    return seconds, usage.ru_maxrss / 1024, output


def main():
    quadq = bench_program()
    with tempfile.TemporaryDirectory() as room:
        plain, text = f"{room}/certs", f"{room}/text"
        subprocess.run(["g++", "-O2", "-std=c++17", "-o", plain, f"{HERE}/certs.cpp"], check=True)
        write_certificate(text)
        programs = [("quadq", quadq), ("plain C++", plain)]
        print(f"{'task':<8}{'program':<12}{'ms a call':>10}{'MB':>7}")
        for task in ("read", "write"):
            once, often, room_mb, outputs = {}, {}, {}, set()
            for _ in range(ROUNDS):
                for name, program in programs:
                    for times, best in ((1, once), (TIMES, often)):
                        seconds, megabytes, output = measured([program, task, str(times)], text)
                        best[name] = min(best.get(name, seconds), seconds)
                        if times == 1:
                            room_mb[name] = megabytes
                        outputs.add(output)
            calls = {name: (often[name] - once[name]) / (TIMES - 1) * 1000 for name, _ in programs}
            for name, _ in programs:
                print(f"{task:<8}{name:<12}{calls[name]:>10.2f}{room_mb[name]:>7.0f}")
            same = "the same output" if len(outputs) == 1 else "OTHER OUTPUT"
            print(f"{task:<8}{same}; time ratio {calls['quadq'] / calls['plain C++']:.2f}")


main()

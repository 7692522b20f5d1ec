#!/usr/bin/env python3
"""Measures the matching graph of 10,000 arcs, and the verdict on three duals over it, against plain C++: wall time of
one call, as the difference between many calls and one, and the peak memory of a run."""
import os
import subprocess
import sys
import tempfile
import time

from measuring import bench_program

HERE = os.path.dirname(os.path.realpath(__file__))
ROUNDS = 7
TIMES = 21


def measured(words):
    """Seconds, MB and output of one run."""
    start = time.perf_counter()
    child = subprocess.Popen(words, stdout=subprocess.PIPE)
    output = child.stdout.read()
    _, status, usage = os.wait4(child.pid, 0)
    seconds = time.perf_counter() - start
    if status != 0:
        sys.exit(f"{words[0]} ended with {status}")
    return seconds, usage.ru_maxrss / 1024, output


def main():
    with tempfile.TemporaryDirectory() as room:
        plain = f"{room}/flow"
        subprocess.run(["g++", "-O2", "-std=c++17", "-o", plain, f"{HERE}/flow.cpp"], check=True)
        programs = [("quadq", bench_program()), ("plain C++", plain)]
        print(f"{'task':<8}{'program':<12}{'ms a call':>10}{'MB':>7}")
        for task in ("graph", "nest", "tree", "comb"):
            once, often, room_mb, outputs = {}, {}, {}, set()
            for _ in range(ROUNDS):
                for name, program in programs:
                    for times, best in ((1, once), (TIMES, often)):
                        seconds, megabytes, output = measured([program, task, str(times)])
                        best[name] = min(best.get(name, seconds), seconds)
                        room_mb[name] = megabytes
                        outputs.add(output)
            calls = {name: (often[name] - once[name]) / (TIMES - 1) * 1000 for name, _ in programs}
            for name, _ in programs:
                print(f"{task:<8}{name:<12}{calls[name]:>10.2f}{room_mb[name]:>7.0f}")
            same = "the same output" if len(outputs) == 1 else "OTHER OUTPUT"
            print(f"{task:<8}{same}; time ratio {calls['quadq'] / calls['plain C++']:.2f}")


main()

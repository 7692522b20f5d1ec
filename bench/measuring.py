"""Runs programs and measures them: what the benchmarks of whole files share."""
import hashlib
import os
import re
import subprocess
import sys

ROOT = os.path.dirname(os.path.dirname(os.path.realpath(__file__)))
# A child is charged with the memory that its parent had, so a small process stands between.
BETWEEN = """import os, subprocess, sys, time
start = time.perf_counter()
child = subprocess.Popen(sys.argv[1:])
_, status, usage = os.wait4(child.pid, 0)
seconds = time.perf_counter() - start
processor = usage.ru_utime + usage.ru_stime
status = os.waitstatus_to_exitcode(status)
print(f"taken: {status} {seconds} {processor} {usage.ru_maxrss / 1024}", file=sys.stderr)"""


def program():
    """The path of quadq: the one that QUADQ names, or that of dist/."""
    return os.environ.get("QUADQ", f"{ROOT}/dist/quadq")


def name_of(mesh):
    """The name of a file, or that of its folder where each folder has a file of the same name."""
    return mesh.stem if mesh.suffix == ".obj" else mesh.parent.stem


def bench_program():
    """The path of the program of the work that is timed: the one that QUADQ_BENCH names, or that of the last build."""
    path = os.environ.get("QUADQ_BENCH", f"{ROOT}/crates/qm_bench/out/qm_bench")
    if not os.path.exists(path):
        sys.exit(f"{path} is not there: `rt run` in crates/qm_bench builds it, or QUADQ_BENCH names it")
    return path


def taken(words, source, target):
    """The seconds, those of the processor and the megabytes of one run from one file to another, and its status."""
    with open(source, "rb") as text, open(target, "wb") as out:
        words = [sys.executable, "-c", BETWEEN, *words]
        ran = subprocess.run(words, stdin=text, stdout=out, stderr=subprocess.PIPE, check=True)
    told = re.search(r"^taken: (\S+) (\S+) (\S+) (\S+)$", ran.stderr.decode(), re.MULTILINE)
    status, seconds, processor, megabytes = told.groups()
    return float(seconds), float(processor), float(megabytes), int(status)


def run(words, source, target):
    """The seconds and megabytes of one run from one file to another, and its status."""
    seconds, _, megabytes, status = taken(words, source, target)
    return seconds, megabytes, status


def measured(words, source, target):
    """The seconds and megabytes of a run that ends well."""
    seconds, megabytes, status = run(words, source, target)
    if status != 0:
        sys.exit(f"{words[0]} ended with {status}")
    return seconds, megabytes


def digest(path):
    """What tells the bytes of a file from others."""
    with open(path, "rb") as text:
        return hashlib.file_digest(text, "sha256").hexdigest()


def best(programs, text, room, rounds):
    """The least seconds and megabytes of each program, taken by turns, and the digests of what they wrote."""
    least, outputs = {}, {}
    for _ in range(rounds):
        for name, words in programs:
            seconds, megabytes = measured(words, text, f"{room}/out")
            old = least.get(name, (seconds, megabytes))
            least[name] = (min(old[0], seconds), min(old[1], megabytes))
            outputs[name] = digest(f"{room}/out")
    return least, outputs


def count_lines(path, front):
    """How many lines of a file begin so."""
    with open(path, "rb") as lines:
        return sum(line.startswith(front) for line in lines)

#!/usr/bin/env python3
"""Times one join in two waves beside the same rows in one, and beside two runs where the second reads all rows anew.

    bench/waves.py [--rows N] [--runs N]      40,000 rows a side and 3 runs, unless said

Each half of the rows is a file of its own, and the whole is both halves, one behind the other. A row of the table for
each way: wall time, processor time of the whole program and peak memory, each the least of the runs, and how many
pairs it prints. Two waves have to print the pairs of the whole, those of the first half first; the run over the first
half has to print just these. JM names another program than the repository's own, which is built first where it isn't.
"""
import argparse
import collections
import os
import random
import subprocess
import sys
import tempfile
import time

TOP = os.path.dirname(os.path.dirname(os.path.abspath(__file__)))
JM = os.environ.get("JM") or f"{TOP}/jm"
JOINS = [("equal numbers", "r.k = s.k"), ("a band", "abs(r.t - s.t) <= 2")]

# What a run took, and the lines that it printed.
Took = collections.namedtuple("Took", "wall processor memory lines")


def rows_of(side, count):
    """The rows of one side: numbers that are all different, the same on both sides, and others drawn freely."""
    draw = random.Random(f"{side} {count}")
    keys = list(range(count))
    draw.shuffle(keys)
    return [(key, draw.randrange(count)) for key in keys]


def write(name, rows):
    with open(name, "w", encoding="ascii") as it:
        it.write("k,t\n")
        it.writelines(f"{k},{t}\n" for k, t in rows)


def files(room, rows):
    """The files of both halves and of the whole, each the file of R and that of S."""
    half = rows // 2
    names = {}
    for part, start, end in ("first", 0, half), ("second", half, rows), ("whole", 0, rows):
        names[part] = [f"{room}/{part}_{side}.csv" for side in "rs"]
        for side, name in zip("rs", names[part]):
            write(name, rows_of(side, rows)[start:end])
    return names


def run(on, names):
    """What one run took; memory in MB."""
    with tempfile.TemporaryFile() as out, tempfile.TemporaryFile() as err:
        begun = time.monotonic()
        running = subprocess.Popen([JM, "--on", on, *names], stdout=out, stderr=err)
        _, status, used = os.wait4(running.pid, 0)
        wall = time.monotonic() - begun
        running.returncode = os.waitstatus_to_exitcode(status)
        if running.returncode:
            err.seek(0)
            sys.exit(f"{JM} --on {on}: status {running.returncode}, {err.read().decode().strip()}")
        out.seek(0)
        return Took(wall, used.ru_utime + used.ru_stime, used.ru_maxrss / 1024, out.read().splitlines())


def least(runs):
    """The least of each number, with the lines of the first run."""
    return Took(*(min(numbers) for numbers in list(zip(*runs))[:3]), runs[0].lines)


def both(first, second):
    """Two runs, one after the other; the lines are those of the second."""
    return Took(first.wall + second.wall, first.processor + second.processor, max(first.memory, second.memory),
                second.lines)


def told(what, on, took, fault):
    print(f"| {what} | `{on}` | {len(took.lines)}{fault} | {took.wall:.2f} s | {took.processor:.2f} s "
          f"| {took.memory:.0f} MB |", flush=True)


def measure(what, on, names, runs):
    """Prints the rows of a join, and answers whether its pairs are the right ones."""
    whole = least([run(on, names["whole"]) for _ in range(runs)])
    waves = least([run(on, names["first"] + names["second"]) for _ in range(runs)])
    first = least([run(on, names["first"]) for _ in range(runs)])
    is_right = sorted(waves.lines) == sorted(whole.lines) and waves.lines[:len(first.lines)] == first.lines
    told(f"{what}, in one wave", on, whole, "")
    told("in two waves", on, waves, "" if is_right else ", WRONG: not those of one wave")
    told("the first half, and then all files again", on, both(first, whole), "")
    return is_right


def main():
    reader = argparse.ArgumentParser(description=__doc__.splitlines()[0])
    reader.add_argument("--rows", type=int, default=40000)
    reader.add_argument("--runs", type=int, default=3)
    words = reader.parse_args()
    subprocess.run([JM, "--on", "1 = 1", "--make", "1"], stdout=subprocess.DEVNULL, check=True)  # builds it
    well = True
    with tempfile.TemporaryDirectory() as room:
        names = files(room, words.rows)
        with open("/proc/loadavg", encoding="ascii") as it:
            print(f"{words.rows} rows a side, {words.runs} runs each; the load before: {it.read().split()[0]}\n")
        print("| | predicate | pairs | wall | processor time | memory |\n|---|---|---|---|---|---|")
        for what, on in JOINS:
            well &= measure(what, on, names, words.runs)
    return 0 if well else 1


if __name__ == "__main__":
    sys.exit(main())

#!/usr/bin/env python3
"""Times joins by equalities and ranges, and what each is to be compared with.

    bench/access.py [--rows N] [--runs N]      8,000 rows a side and 3 runs, unless said

A row of the table for each predicate: the processor time of the whole program, the least of the runs, and how many
pairs it prints. That number is compared with a plain count, and the lines with those of another form of the same
predicate, where there is one. What would print more than MOST_PAIRS is left out. JM names another program than the
repository's own, which is built first where it isn't. A file with more than 250,000 rows would be too long.
"""
import argparse
import bisect
import collections
import hashlib
import os
import random
import subprocess
import sys
import tempfile

TOP = os.path.dirname(os.path.dirname(os.path.abspath(__file__)))
JM = os.environ.get("JM") or f"{TOP}/jm"
MOST_PAIRS = 5_000_000
# `k` and `m` are texts all different, the same two together in both files; `k2` and `k100` have so many texts. `t` has
# as many values as there are rows, `a` ten times as many. From `a` to `b` are lengths of 0 to 100, to `e` a fifth of
# these, so that a row has about one match, to `p` those of a Pareto distribution, and from `c` to `d` those to `b`, but
# for one that lies over all.
COLUMNS = ["k", "m", "k2", "k100", "t", "a", "b", "e", "p", "c", "d"]

# A predicate, with the plain count of its pairs: the columns whose texts agree, and a column of the second file with
# the bounds between which a row of the first has it. `same` is the predicate of the same pairs before it; `turned` has
# the two files the other way round; `own` says of a side and a row of it whether the row passes what reads it alone.
Case = collections.namedtuple("Case", "what on texts point bounds same turned own",
                              defaults=[(), None, None, None, False, lambda side, row: True])


def rows_of(side, count):
    """The rows of one file, each a dict."""
    draw = random.Random(f"{side} {count}")
    keys = list(range(count))
    draw.shuffle(keys)
    width = 10 * count
    for key in keys:
        a = draw.randrange(width)
        b = a + draw.randrange(101)
        yield {"k": f"k{key}", "m": f"m{key}", "k2": f"k{draw.randrange(2)}", "k100": f"k{draw.randrange(100)}",
               "t": draw.randrange(count), "a": a, "b": b, "e": a + (b - a) // 5,
               "p": a + int(10 * min(draw.paretovariate(1), count)), "c": a, "d": b}


def tables(count):
    """The rows of both files."""
    r, s = list(rows_of("r", count)), list(rows_of("s", count))
    r[count // 2].update(c=0, d=10 * count)
    return r, s


def write(name, rows):
    with open(name, "w", encoding="ascii") as it:
        it.write(",".join(COLUMNS) + "\n")
        for row in rows:
            it.write(",".join(str(row[column]) for column in COLUMNS) + "\n")


def count(case, r, s):
    """How many pairs there are, by sorted lists of points, one for each group of texts."""
    groups = collections.defaultdict(list)
    for row in (it for it in s if case.own("s", it)):
        groups[tuple(row[it] for it in case.texts)].append(row[case.point] if case.point else 0)
    for points in groups.values():
        points.sort()
    pairs = 0
    for row in (it for it in r if case.own("r", it)):
        points = groups.get(tuple(row[it] for it in case.texts), [])
        low, high = case.bounds(row) if case.bounds else (0, 0)
        pairs += max(0, bisect.bisect_right(points, high) - bisect.bisect_left(points, low))
    return pairs


def text(*columns):
    return " and ".join(f"text(r.{it}) = text(s.{it})" for it in columns)


def equalities():
    """The plain equality of texts, and one more condition beside it."""
    yield Case("an equality of texts", text("k"), ("k",))
    yield Case("and an inequality", f"{text('k')} and s.a <= r.a", ("k",), "a", lambda row: (-1, row["a"]))
    yield Case("and another equality of texts", text("k", "m"), ("k", "m"), same=text("k"))


def bands():
    """A band beside texts, the band alone, and the texts alone."""
    def near(row):
        return row["t"] - 2, row["t"] + 2
    on = "abs(r.t - s.t) <= 2"
    yield Case("a band", on, (), "t", near)
    yield Case("the same, met of two bounds", "s.t >= r.t - 2 and s.t <= r.t + 2", (), "t", near, on)
    for column, many in ("k2", "2"), ("k100", "100"), ("k", "all different"):
        if column != "k":  # (else it is the first of all)
            yield Case(f"texts, {many}", text(column), (column,))
        yield Case(f"a band and texts, {many}", f"{on} and {text(column)}", (column,), "t", near)


def intervals(rows, r, s):
    """Intervals, and a band with about as many matches."""
    for what, low, high in (("0 to 20", "a", "e"), ("0 to 100", "a", "b"), ("Pareto", "a", "p"),
                            ("0 to 100, one over all", "c", "d")):
        def between(row, low=low, high=high):
            return row[low], row[high]
        on = f"s.a >= r.{low} and s.a <= r.{high}"
        case = Case(f"intervals, {what}", on, (), "a", between)
        yield case
        yield Case("the bounds the other way round", f"r.{high} >= s.a and r.{low} <= s.a", (), "a", between, on)
        yield Case("the files the other way round", f"r.a >= s.{low} and r.a <= s.{high}", (), "a", between, on, True)
        reach = round((10 * count(case, r, s) / rows - 1) / 2)
        yield Case("a band with about as many pairs", f"abs(r.a - s.a) <= {reach}", (), "a",
                   lambda row, reach=reach: (row["a"] - reach, row["a"] + reach))
    yield Case("intervals and texts, 100", f"{text('k100')} and s.a >= r.a and s.a <= r.b", ("k100",), "a",
               lambda row: (row["a"], row["b"]))


def members_of_one_side():
    """Members that read one file alone, beside an equality, a band, and nothing."""
    yield Case("an equality, and every second row of R", f"{text('k')} and text(r.k2) = 'k0'", ("k",),
               own=lambda side, row: side == "s" or row["k2"] == "k0")
    hundredth = "text(r.k100) = 'k7' and text(s.k100) = 'k7'"
    yield Case("a band, and each hundredth row of both", f"abs(r.t - s.t) <= 2 and {hundredth}", (), "t",
               lambda row: (row["t"] - 2, row["t"] + 2), own=lambda side, row: row["k100"] == "k7")
    yield Case("each hundredth row of both", hundredth, (), own=lambda side, row: row["k100"] == "k7")


def run(on, files):
    """The processor time of one run, and its sorted lines."""
    with tempfile.TemporaryFile() as out, tempfile.TemporaryFile() as err:
        running = subprocess.Popen([JM, "--on", on, *files], stdout=out, stderr=err)
        _, status, used = os.wait4(running.pid, 0)
        running.returncode = os.waitstatus_to_exitcode(status)
        if running.returncode:
            err.seek(0)
            sys.exit(f"{JM} --on {on}: status {running.returncode}, {err.read().decode().strip()}")
        out.seek(0)
        return used.ru_utime + used.ru_stime, out.read().splitlines()


def told(lines, turned):
    """How many lines there are, and a sum of them as they would be with the files in their order."""
    if turned:
        lines = [b",".join(reversed(line.split(b","))) for line in lines]
    return len(lines), hashlib.sha256(b"\n".join(sorted(lines))).hexdigest()


def measure(case, room, runs, wanted, seen):
    """Prints the row of a predicate, and answers whether its pairs are the right ones."""
    if wanted > MOST_PAIRS:
        print(f"| {case.what} | `{case.on}` | {wanted} | not run |", flush=True)
        return True
    files = [f"{room}/s.csv", f"{room}/r.csv"] if case.turned else [f"{room}/r.csv", f"{room}/s.csv"]
    found = [run(case.on, files) for _ in range(runs)]
    pairs = told(found[0][1], case.turned)
    is_right = pairs[0] == wanted and (case.same is None or seen[case.same] == pairs)
    seen.setdefault(case.on, pairs)
    fault = "" if is_right else f", WRONG: {wanted} by a plain count"
    print(f"| {case.what} | `{case.on}` | {pairs[0]}{fault} | {min(it[0] for it in found):.2f} s |", flush=True)
    return is_right


def main():
    reader = argparse.ArgumentParser(description=__doc__.splitlines()[0])
    reader.add_argument("--rows", type=int, default=8000)
    reader.add_argument("--runs", type=int, default=3)
    words = reader.parse_args()
    subprocess.run([JM, "--on", "1 = 1", "--make", "1"], stdout=subprocess.DEVNULL, check=True)  # builds it
    r, s = tables(words.rows)
    well, seen = True, {}
    with tempfile.TemporaryDirectory() as room:
        write(f"{room}/r.csv", r)
        write(f"{room}/s.csv", s)
        with open("/proc/loadavg", encoding="ascii") as it:
            print(f"{words.rows} rows a side, {words.runs} runs each; the load before: {it.read().split()[0]}\n")
        print("| | predicate | pairs | processor time |\n|---|---|---|---|")
        for case in [*equalities(), *bands(), *intervals(words.rows, r, s), *members_of_one_side()]:
            well &= measure(case, room, words.runs, count(case, r, s), seen)
    return 0 if well else 1


if __name__ == "__main__":
    sys.exit(main())

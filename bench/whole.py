#!/usr/bin/env python3
"""Times the whole program beside a plain hand-written join and SQLite.

    bench/whole.py [ROWS [WORKLOAD..]]      262,144 rows a side and all workloads, unless said

A row of the table for each workload and each number of joiners and workers in SETTINGS: the least wall time of RUNS runs (5,
unless said), with its processor time and the greatest memory, and both times over those of `base` (bench/base.rs, one
thread, nothing proved), which is compiled first. SQLite has the tables in memory and an index. All pairs are compared. JM
names another program than the repository's own, which is built first where it isn't. No memory below some 18 MB is told:
so much the script itself has. The load of the machine is printed:
wall times say something where it is below 1 before the first run.
"""
import hashlib
import os
import random
import subprocess
import sys
import tempfile
import time

TOP = os.path.dirname(os.path.dirname(os.path.abspath(__file__)))
JM = os.environ.get("JM") or f"{TOP}/jm"
RUNS = int(os.environ.get("RUNS") or 5)
SETTINGS = [(4, 4), (4, 1), (1, 1)]
COLUMNS = "id integer, k integer, t integer, v integer, tag text"
# Each with its predicate for `jm`, the one by which SQLite uses its index, and that index.
WORKLOADS = {
    "equal": ("r.k = s.k", "r.k = s.k", "k"),
    "skewed": ("r.k = s.k", "r.k = s.k", "k"),
    "small": ("r.k = s.k", "r.k = s.k", "k"),
    "text": ("text(r.tag) = text(s.tag)", "r.tag = s.tag", "tag"),
    "band": ("abs(r.t - s.t) <= 5", "s.t between r.t - 5 and r.t + 5", "t"),
    "inequality": ("r.v - s.v >= {cut}", "s.v <= r.v - {cut}", "v"),
}


def word(number):
    """A text of six letters for a number below 26^6."""
    number, text = number * 2654435761 % 26**6, ""
    for _ in range(6):
        number, letter = divmod(number, 26)
        text += chr(97 + letter)
    return text


def write_tables(room, workload, rows):
    """Writes r.csv and s.csv: about one match a row, three a row of a band or an inequality."""
    draw = random.Random(f"{workload} {rows}")
    rows_r = max(1, rows // 64) if workload == "small" else rows
    keys = rows_r if workload == "small" else rows

    def key(side, number):
        if workload != "skewed":
            return draw.randrange(keys)
        if side == "r":
            return 0 if draw.random() < 0.3 else int(keys ** draw.random())
        return 0 if number <= 4 else draw.randrange(keys) or 1

    for side, count in (("r", rows_r), ("s", rows)):
        with open(f"{room}/{side}.csv", "w", encoding="ascii") as it:
            it.write("id,k,t,v,tag\n")
            for number in range(1, count + 1):
                it.write(f"{number},{key(side, number)},{draw.randrange(max(1, rows * 11 // 3))},{draw.randrange(10**9)},"
                         f"{word(draw.randrange(rows))}\n")


def least(command, **options):
    """The least wall time of some runs, its processor time, the greatest memory in MB, and a sum of the sorted output."""
    best, memory = None, 0
    for _ in range(RUNS):
        began = time.monotonic()
        with tempfile.TemporaryFile() as out:
            running = subprocess.Popen(command, stdout=out, **options)
            _, status, used = os.wait4(running.pid, 0)
            running.returncode = os.waitstatus_to_exitcode(status)
            wall = time.monotonic() - began
            if running.returncode:
                sys.exit(f"{command}: status {running.returncode}")
            memory = max(memory, used.ru_maxrss // 1024)
            if best is None or wall < best[0]:
                out.seek(0)
                lines = sorted(out.read().split(b"\n")[:-1])
                best = wall, used.ru_utime + used.ru_stime, len(lines), hashlib.sha256(b"\n".join(lines)).hexdigest()
    return best[0], best[1], memory, best[2:]


def sqlite(room, condition, index):
    script = [f"create table {side}({COLUMNS});" for side in "rs"]
    script += [f".import --csv --skip 1 {room}/{side}.csv {side}" for side in "rs"]
    script += [f"create index x on s({index});", ".separator ,", f"select r.rowid, s.rowid from r join s on {condition};"]
    with open(f"{room}/sqlite.sql", "w", encoding="ascii") as it:
        it.write("\n".join(script))
    return least(["sqlite3", ":memory:", ".mode list", f".read {room}/sqlite.sql"])


def line(name, found, base):
    wall, processor, memory, pairs = found
    agrees = "" if pairs == base[3] else ", OTHER PAIRS"
    ratios = f"{wall / base[0]:.1f} | {processor / base[1]:.1f}"
    print(f"| {name}{agrees} | {wall:.2f} s | {processor:.2f} s | {memory} MB | {ratios} |", flush=True)
    return not agrees


def main():
    rows = int(sys.argv[1]) if len(sys.argv) > 1 else 262_144
    well = True
    with tempfile.TemporaryDirectory() as room:
        compiler = ["rustc", "--edition", "2021", "-C", "opt-level=3"]
        subprocess.run([*compiler, "-o", f"{room}/base", f"{TOP}/bench/base.rs"], check=True)
        with open("/proc/loadavg", encoding="ascii") as it:
            print(f"{rows} rows a side, {RUNS} runs each; the load before: {it.read().split()[0]}\n")
        print("| | wall | processor time | memory | wall over `base` | processor time over `base` |\n|---|---|---|---|---|---|")
        for workload in sys.argv[2:] or WORKLOADS:
            write_tables(room, workload, rows)
            cut = round(10**9 * (1 - (6 / rows) ** 0.5))
            on, condition, index = [it.format(cut=cut) for it in WORKLOADS[workload]]
            files = [f"{room}/r.csv", f"{room}/s.csv"]
            base = least([f"{room}/base", "--on", on, *files])
            line(f"{workload}, {base[3][0]} pairs: `base`", base, base)
            for joiners, workers in SETTINGS:
                words = ["--joiners", str(joiners), "--workers", str(workers)]
                well &= line(f"`jm`, {joiners} joiners, {workers} workers", least([JM, *files, "--on", on, *words]), base)
            well &= line("SQLite", sqlite(room, condition, index), base)
    return 0 if well else 1


if __name__ == "__main__":
    sys.exit(main())

#!/bin/sh
# Times the joined rows of 1,200 rows by as many, each pair of which matches, 254 MB: at least 100 MB are wanted for each
# second of processor time that they take more than the numbers alone.
set -eu
top=$(cd "$(dirname "$0")/.." && pwd -P)
room=$(mktemp -d)
trap 'rm -rf "$room"' EXIT
awk 'BEGIN {
    print "id,a,b,c,d"
    for (i = 0; i < 1200; i++) printf "%d,%020d,%020d,%020d,%020d\n", i, i * 7, i * 11, i * 13, i * 17
}' >"$room/rows.csv"
echo id >"$room/none.csv"
"$top/jm" --on "r.id = s.id" "$room/none.csv" "$room/none.csv" # builds it where it isn't built
python3 - "$top/jm" "$room/rows.csv" <<'PY'
import os, subprocess, sys
def spent(*options):
    before = os.times()
    with subprocess.Popen([sys.argv[1], "--on", "1 = 1", *options, sys.argv[2], sys.argv[2]], stdout=subprocess.PIPE) as run:
        size = 0
        while piece := run.stdout.read(1 << 20):
            size += len(piece)
    after = os.times()
    return size, after.children_user + after.children_system - before.children_user - before.children_system
numbers, numbers_spent = spent()
rows, rows_spent = spent("--rows")
print(f"numbers: {numbers} bytes, {numbers_spent:.2f} s of processor time")
print(f"rows: {rows} bytes, {rows_spent:.2f} s of processor time, {rows / 1e6 / (rows_spent - numbers_spent):.0f} MB for each second more")
PY

#!/bin/sh
# Times joins of 20,000 and of 262,144 rows a side on equal numbers, with messages through inboxes and over rings: with the
# default words, and with 64 joiners, 8 feeders and 16 workers. The least wall time of three runs each, with its processor
# time and the greatest memory.
# JM names another program than the repository's own.
set -eu
top=$(cd "$(dirname "$0")/.." && pwd -P)
jm=${JM:-$top/jm}
room=$(mktemp -d)
trap 'rm -rf "$room"' EXIT
# table STEP ROWS NAME: with a step that has no divisor in common with the number of rows each key stands once
table() {
    awk -v step="$1" -v rows="$2" 'BEGIN {
        print "id,k,a,b,t"
        for (i = 0; i < rows; i++) printf "%d,%d,%d,%d,%d\n", i + 1, (i * step) % rows, i % 97, i % 89, i % 100
    }' >"$room/$3.csv"
}
"$jm" --on "1 = 1" --make 1 >/dev/null # builds it where it isn't built
# timed ROWS WORDS..
timed() {
    python3 - "$jm" "$room" "$@" <<'PY'
import os, subprocess, sys, time
jm, room, rows, *words = sys.argv[1:]
least = None
for _ in range(3):
    begun = time.time()
    child = subprocess.Popen([jm, "--on", "r.k = s.k", *words, f"{room}/r.csv", f"{room}/s.csv"], stdout=subprocess.DEVNULL)
    _, status, used = os.wait4(child.pid, 0)
    assert status == 0, status
    run = (time.time() - begun, used.ru_utime + used.ru_stime, used.ru_maxrss / 1024)
    least = run if least is None else min(least, run)
wall, spent, memory = least
print(f"{rows:>7} rows  {wall:6.2f} s wall  {spent:6.2f} s of processor time  {memory:5.0f} MB  {' '.join(words)}", flush=True)
PY
}
for rows in 20000 262144; do
    table 3 $rows r
    table 7 $rows s
    for many in '' '--joiners 64 --feeders 8 --workers 16'; do
        timed $rows $many
        timed $rows --rings $many
    done
done

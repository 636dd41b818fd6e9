#!/bin/sh
# Times joins of 262,144 rows a side on equal numbers by 2, 3, 4, 5, 7 and 8 joiners: in one grid where their number is a
# power of two, and in groups. The least wall time of three runs each, with its processor time and the greatest memory.
# JM names another program than the repository's own.
set -eu
top=$(cd "$(dirname "$0")/.." && pwd -P)
jm=${JM:-$top/jm}
room=$(mktemp -d)
trap 'rm -rf "$room"' EXIT
table() {
    awk -v step="$1" 'BEGIN {
        print "id,k,a,b,t"
        for (i = 0; i < 262144; i++) printf "%d,%d,%d,%d,%d\n", i + 1, (i * step) % 262144, i % 97, i % 89, i % 100
    }' >"$room/$2.csv"
}
table 3 r
table 5 s
"$jm" --on "1 = 1" --make 1 >/dev/null # builds it where it isn't built
timed() {
    python3 - "$jm" "$room" "$@" <<'PY'
import os, resource, subprocess, sys, time
jm, room, *words = sys.argv[1:]
least = None
for _ in range(3):
    begun = time.time()
    child = subprocess.Popen([jm, "--on", "r.k = s.k", *words, f"{room}/r.csv", f"{room}/s.csv"], stdout=subprocess.DEVNULL)
    _, status, used = os.wait4(child.pid, 0)
    assert status == 0, status
    run = (time.time() - begun, used.ru_utime + used.ru_stime, used.ru_maxrss / 1024)
    least = run if least is None else min(least, run)
wall, spent, memory = least
print(f"{wall:6.2f} s wall  {spent:6.2f} s of processor time  {memory:5.0f} MB  {' '.join(words)}", flush=True)
PY
}
for joiners in 2 4 8; do
    timed --joiners $joiners
done
for joiners in 2 3 4 5 7 8; do
    timed --joiners $joiners --groups
done

#!/bin/sh
# What joined rows take: two tables of 512 rows and five columns a side, all of whose 262,144 pairs are joined, and as many
# joined rows of ten columns joined with a third table of 1,000 rows, beside the first join alone. The least wall time of
# three runs each, with its processor time and the greatest memory. JM names another program than the repository's own.
set -eu
top=$(cd "$(dirname "$0")/.." && pwd -P)
jm=${JM:-$top/jm}
room=$(mktemp -d)
trap 'rm -rf "$room"' EXIT
table() {
    awk -v rows="$1" 'BEGIN {
        print "id,k,a,b,t"
        for (i = 0; i < rows; i++) printf "%d,%d,%d,%d,%d\n", i + 1, i % 512, i % 97, i % 89, i % 100
    }' >"$room/$2.csv"
}
table 512 r
table 512 s
table 1000 q
"$jm" --on "1 = 1" --make 1 >/dev/null # builds it where it isn't built
timed() {
    python3 - "$jm" "$@" <<'PY'
import os, subprocess, sys, time
least = None
for _ in range(3):
    begun = time.time()
    child = subprocess.Popen(sys.argv[1:], stdout=subprocess.DEVNULL)
    _, status, used = os.wait4(child.pid, 0)
    assert status == 0, status
    run = (time.time() - begun, used.ru_utime + used.ru_stime, used.ru_maxrss / 1024)
    least = run if least is None else min(least, run)
wall, spent, memory = least
print(f"{wall:6.2f} s wall  {spent:6.2f} s of processor time  {memory:5.0f} MB  {' '.join(it for it in sys.argv[2:] if not it.endswith('.csv'))}", flush=True)
PY
}
timed --on "1 = 1" "$room/r.csv" "$room/s.csv"
timed --on "1 = 1" --then "r.r_id = s.id" "$room/r.csv" "$room/s.csv" "$room/q.csv"

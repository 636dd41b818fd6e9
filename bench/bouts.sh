#!/bin/sh
# What a bout costs beside the turns of its seats: the wall time of one of 20,000 rounds of 1, 2, 4, 8 and 16 kept threads, of
# which each has one number to make greater, least of five runs. A run of `jm` has one such round a bout, some 1,000 to 2,000
# with 262,144 rows a side. With more threads than processors they wait for one another.
# Builds jm_bench first, which proves every crate below it; JM_BENCH names another.
set -eu
top=$(cd "$(dirname "$0")/.." && pwd -P)
bench=${JM_BENCH:-$top/crates/jm_bench/out/jm_bench}
[ -n "${JM_BENCH:-}" ] || (cd "$top/crates/jm_bench" && rt run) >/dev/null
python3 - "$bench" <<'PY'
import resource, subprocess, sys, time

ROUNDS = 20000
for threads in 1, 2, 4, 8, 16:
    walls, spents = [], []
    for _ in range(5):
        before, began = resource.getrusage(resource.RUSAGE_CHILDREN), time.monotonic()
        ran = subprocess.run([sys.argv[1], f"rounds{threads}"], check=True, capture_output=True, text=True)
        walls.append(time.monotonic() - began)
        after = resource.getrusage(resource.RUSAGE_CHILDREN)
        spents.append(after.ru_utime + after.ru_stime - before.ru_utime - before.ru_stime)
        assert int(ran.stdout) == threads * ROUNDS, ran.stdout
    wall, spent = (least * 1e6 / ROUNDS for least in (min(walls), min(spents)))
    print(f"{threads} threads: {wall:.1f} us a round, {spent:.1f} us of processor time")
PY

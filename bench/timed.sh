#!/bin/sh
# timed.sh WORD COUNT: the processor time that jm_bench takes at a word, whole and for each of COUNT evaluations, and its
# peak memory.
# Builds it first, which proves every crate below it.
set -eu
top=$(cd "$(dirname "$0")/.." && pwd -P)
(cd "$top/crates/jm_bench" && rt run) >/dev/null
python3 - "$top/crates/jm_bench/out/jm_bench" "$1" "$2" <<'PY'
import resource, subprocess, sys
subprocess.run(sys.argv[1:3], check=True)
used = resource.getrusage(resource.RUSAGE_CHILDREN)
spent = used.ru_utime + used.ru_stime
print(f"{sys.argv[2]}: {spent:.2f} s of processor time, {spent * 1e9 / int(sys.argv[3]):.1f} ns each, {used.ru_maxrss // 1000} MB")
PY

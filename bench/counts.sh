#!/bin/sh
# Counts the instructions and the heap's calls of the whole program with one worker: 20,000 rows a side, equal numbers, one
# match a row. Other than times they are nearly the same on any machine, so a change shows by them what it costs. Fails where
# either is more than a hundredth above what stands here, which was measured once texts stood in
# place of cells. JM names another program than the repository's own. It wants valgrind.
set -eu
instructions=282300000
calls=29300
top=$(cd "$(dirname "$0")/.." && pwd -P)
jm=${JM:-$top/crates/jm/out/jm}
[ -n "${JM:-}" ] || "$top/jm" --on '1 = 2' --make 1 >/dev/null
room=$(mktemp -d)
trap 'rm -rf "$room"' EXIT
for side in r s; do
    awk -v side="$side" 'BEGIN {
        print "id,k,t,v,tag"
        for (i = 1; i <= 20000; i++) {
            k = side == "r" ? i * 7919 % 20000 : i - 1
            printf "%d,%d,%d,%d,x%d\n", i, k, i * 31 % 73333, i * 48271 % 1000003, i
        }
    }' >"$room/$side.csv"
done
count() {
    valgrind "$@" "$jm" "$room/r.csv" "$room/s.csv" --on 'r.k = s.k' --workers 1 2>&1 >"$room/out" | tr -d ,
}
found=$(count --tool=callgrind --callgrind-out-file="$room/callgrind" | awk '/Collected/ { print $NF }')
made=$(count --tool=memcheck --leak-check=no --run-libc-freeres=no | awk '/total heap usage/ { print $5 }')
[ "$(wc -l <"$room/out")" -eq 20000 ]
echo "$found instructions, $instructions before; $made calls of the heap, $calls before"
[ "$found" -le $((instructions / 100 * 101)) ] && [ "$made" -le $((calls / 100 * 101)) ]

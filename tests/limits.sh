#!/bin/sh
# Runs the program over files at the limits of bytes and rows, and one past them. It is no part of the gate:
# the files take some 55 MB in the folder for temporary files, and the runs some seconds.
# JM names another program than the repository's own.
set -eu
top=$(cd "$(dirname "$0")/.." && pwd -P)
jm=${JM:-$top/jm}
room=$(mktemp -d)
trap 'rm -rf "$room"' EXIT
cd "$room"

# So many bytes, each the same.
bytes() { head -c "$1" /dev/zero | tr '\0' "$2"; }
# A header and so many rows of a cell.
rows() { echo "$1" && yes "$2" | head -n "$3"; }

{ echo a && bytes 16777214 '\n'; } >bytes-r
{ echo a && bytes 16777215 '\n'; } >bytes-past-r
{ echo b && bytes 16777215 '\n'; } >bytes-past-s
rows a 7 262144 >rows-r
rows a 7 262145 >rows-past-r
rows b 7 262145 >rows-past-s
{ rows a 7 262143 && echo 7,8 && echo 7; } >wide-before-r
{ rows a 7 262144 && echo 7,8; } >wide-behind-r
rows a 8 1 >few-r
rows b 9 1 >few-s

failed=0
# The R file, the S file, the status that is wanted, and the line on standard error. No output is wanted.
expect() {
    status=0
    "$jm" --on "r.a = s.b" "$1" "$2" >output 2>told || status=$?
    printf '%s' "${4:+$4
}" >wanted
    if [ "$status" -ne "$3" ] || [ -s output ] || ! cmp -s told wanted; then
        echo "FAILED: $1 and $2: status $status, $(wc -c <output) bytes of output, told: $(cat told)"
        failed=1
    else
        echo "ok: $1 and $2: status $status${4:+, $4}"
    fi
}

"$jm" --on "r.a = s.b" few-r few-s # builds the program where it isn't built
expect bytes-r few-s 0 ""
expect bytes-past-r few-s 5 "limit: R has more than 16777216 bytes"
expect few-r bytes-past-s 5 "limit: S has more than 16777216 bytes"
expect rows-r few-s 0 ""
expect rows-past-r few-s 5 "limit: R has more than 262144 rows"
expect few-r rows-past-s 5 "limit: S has more than 262144 rows"
expect rows-past-r bytes-past-s 5 "limit: R has more than 262144 rows"
expect wide-before-r few-s 4 "input: R row 262144 has 2 fields"
expect wide-behind-r few-s 5 "limit: R has more than 262144 rows"
exit "$failed"

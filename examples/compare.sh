#!/bin/sh
# Joins the tables of this folder by jm and by sqlite3, and compares the pairs of row numbers. It is no part of the gate,
# in which no test may start a program. JM names another program than the repository's own.
set -u
here=$(cd "$(dirname "$0")" && pwd -P)
jm=${JM:-$here/../jm}
room=$(mktemp -d)
trap 'rm -rf "$room"' EXIT
passed=0
failed=0
command -v sqlite3 >/dev/null || {
    echo 'compare.sh: sqlite3 is needed' >&2
    exit 1
}

# table NAME FILE: statements that read a file into a table of texts, whose row ids are the numbers of its rows
table() {
    columns=$(sed -n 1p "$here/$2.csv" | tr -d '\r' | sed 's/[^,]*/& TEXT/g')
    echo "CREATE TABLE $1 ($columns);"
    echo ".import --csv --skip 1 $here/$2.csv $1"
}

# same R S PREDICATE SQL: both programs find the same pairs, in the same order
same() {
    {
        table r "$1"
        table s "$2"
        echo ".separator ,"
        echo "SELECT r.rowid, s.rowid FROM r JOIN s ON $4 ORDER BY r.rowid, s.rowid;"
    } | sqlite3 :memory: >"$room/want" || exit 1
    "$jm" --on "$3" "$here/$1.csv" "$here/$2.csv" >"$room/got"
    status=$?
    if [ $status = 0 ] && cmp -s "$room/want" "$room/got"; then
        passed=$((passed + 1))
        echo "$(wc -l <"$room/got") pairs of $1 and $2: $3"
    else
        failed=$((failed + 1))
        echo "failed, status $status: $1 and $2: $3" >&2
        diff "$room/want" "$room/got" >&2
    fi
}

# the states of each country
same countries states 'text(r.code) = text(s.country)' 'r.code = s.country'
# the same of those whose names begin with N
same countries states "text(r.code) = text(s.country) and text(s.name) >= 'N' and text(s.name) < 'O'" \
    "r.code = s.country AND s.name >= 'N' AND s.name < 'O'"
# the block of each currency sign
same blocks currency_signs 's.code >= r.first and s.code <= r.last' \
    's.code + 0 BETWEEN r.first + 0 AND r.last + 0'
# releases at most two weeks apart; a release that has no date yet is near none
same debian ubuntu 'abs(r.release_day - s.release_day) <= 14' \
    "abs(nullif(r.release_day, '') - nullif(s.release_day, '')) <= 14"
# what came out while the other was supported, by the dates as texts
same debian ubuntu 'text(r.release) <= text(s.release) and text(s.release) <= text(r.end)' \
    's.release BETWEEN r.release AND r.end'
# what was supported for fewer days than the other
same debian ubuntu 'r.end_day - r.release_day < s.end_day - s.release_day' \
    "nullif(r.end_day, '') - nullif(r.release_day, '') < nullif(s.end_day, '') - nullif(s.release_day, '')"

echo "$passed passed, $failed failed"
[ "$failed" = 0 ]

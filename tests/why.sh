#!/bin/sh
# Runs jm-why over small files: what it says of files that can't be read, that a pipe will do, and that its status is
# that of jm for the same words, where jm refuses them, and 0 where jm joins. It is no part of the gate, in which no
# test may start a program. JM and JM_WHY name other programs than the repository's own.
set -u
top=$(cd "$(dirname "$0")/.." && pwd -P)
jm=${JM:-$top/jm}
jm_why=${JM_WHY:-$top/jm-why}
room=$(mktemp -d)
trap 'rm -rf "$room"' EXIT
cd "$room" || exit 1
passed=0
failed=0

pass() { passed=$((passed + 1)); }

fail() {
    failed=$((failed + 1))
    echo "failed: $1" >&2
}

# file NAME TEXT, where TEXT may have printf's escapes
file() { printf "$2" >"$1"; }

# says STATUS LINE WORDS..: jm-why ends so, its first line is this one, and nothing stands on standard error
says() {
    status=$1
    line=$2
    shift 2
    "$jm_why" "$@" >got.out 2>got.err </dev/null
    got=$?
    if [ "$got" = "$status" ] && [ "$(head -n 1 got.out)" = "$line" ] && [ ! -s got.err ]; then
        pass
    else
        fail "jm-why $*: status $got, $(head -n 1 got.out) $(cat got.err)"
    fi
}

# agrees WORDS..: jm and jm-why end with the same status
agrees() {
    "$jm" "$@" >/dev/null 2>&1 </dev/null
    wanted=$?
    "$jm_why" "$@" >got.out 2>got.err </dev/null
    got=$?
    if [ "$got" = "$wanted" ] && [ -s got.out ]; then
        pass
    else
        fail "jm-why $*: status $got, and that of jm is $wanted"
    fi
}

file r.csv 'id,x\n1,10\n2,20\n3,30\n'
file s.csv 'id,y\n1,20\n2,30\n3,20\n'
file q.csv 'id,z\n1,1\n2,3\n'
file none.csv ''
file narrow.csv 'id,x\n1,10\n2\n'
file text.csv 'id,y\n1,20\n2,30\n3,4x\n'
file twice.csv 'y,y\n1,2\n'
mkdir folder
: >shut.csv
chmod 000 shut.csv
ln -s circle circle

# why a file can't be read
says 6 "R, missing.csv, can't be read: there is no file of this name" --on 'r.x = s.y' missing.csv s.csv
says 6 "S, folder, can't be read: it is a directory" --on 'r.x = s.y' r.csv folder
says 6 "S, r.csv/x, can't be read: a part of its path is no directory" --on 'r.x = s.y' r.csv r.csv/x
says 6 "R, circle, can't be read: its links go in a circle" --on 'r.x = s.y' circle s.csv
says 6 "S2, q, can't be read: there is no file of this name" --on 'r.x = s.y' --then 'r.r_x = s.z' r.csv s.csv q
if [ "$(id -u)" != 0 ]; then
    says 6 "R, shut.csv, can't be read: permission is denied" --on 'r.x = s.y' shut.csv s.csv
fi

# a file is read once, so a pipe will do, and the line of a row is told of it
cat narrow.csv | "$jm_why" --on 'r.x = s.y' /dev/stdin s.csv >got.out 2>got.err
if [ $? = 4 ] && grep -q '^row 2 (line 3) of R, /dev/stdin, has 1 fields, and the header has 2' got.out; then
    pass
else
    fail "a pipe: $(cat got.out got.err)"
fi

# what can't be written
if [ -w /dev/full ]; then
    "$jm_why" --on 'r.x = s.y' r.csv s.csv >/dev/full 2>got.err
    if [ $? = 7 ]; then pass; else fail 'output is full'; fi
fi

# the same status as jm, where jm refuses and where it joins
agrees
agrees --help
agrees --version
agrees --on
agrees --on 'r.x = s.y'
agrees --on 'r.x = s.y' r.csv
agrees --on 'r.x = s.y' r.csv s.csv q.csv
agrees --on 'r.x = s.y' --joiners 3 r.csv s.csv
agrees --on 'r.x = s.y' --joiners 65 r.csv s.csv
agrees --on 'r.x = s.y' --joiners 3 --groups r.csv s.csv
agrees --on 'r.x = s.y' --rings r.csv s.csv
agrees --on 'r.x = s.y' --rings --early r.csv s.csv
agrees --on 'r.x = s.y' --fixed 3 r.csv s.csv
agrees --on 'r.x = s.y' --fixed 2 r.csv s.csv
agrees --on 'r.x = s.y' --feed both r.csv s.csv
agrees --on 'r.x = s.y' --weight-r 1025 r.csv s.csv
agrees --on 'r.x = s.y' --early --rows r.csv s.csv
agrees --on 'r.x = s.y' --early r.csv s.csv
agrees --on 'r.x = s.y' --replay 1 r.csv s.csv
agrees --on 'r.x = s.y' --report --rows r.csv s.csv
agrees --on 'r.key = s.key' --make 10
agrees --on 'r.nope = s.key' --make 10
agrees --on 'r.key = s.key' --make 10 r.csv
agrees --on 'r.x = s.y' r.csv s.csv
agrees --on 'text(r.id) = text(s.id) and s.y >= r.id and s.y <= r.x' r.csv s.csv
agrees --on 's.y <= r.x + 5 and s.y >= r.x' r.csv s.csv
agrees --on '1 = 1' r.csv s.csv
agrees --on 'r.x = ' r.csv s.csv
agrees --on 'x = y' missing.csv s.csv
agrees --on 'r.x = 9223372036854775808' r.csv s.csv
agrees --on 'r.x = 9223372036854775807' r.csv s.csv
agrees --on 'r.nope = s.y' r.csv s.csv
agrees --on 'r.nope = s.y' none.csv s.csv
agrees --on 'r.x = s.y' r.csv twice.csv
agrees --on 'r.x = s.y' r.csv text.csv
agrees --on 'r.x = 1 or text(s.y) = text(r.x)' r.csv text.csv
agrees --on 'r.x = s.y' narrow.csv s.csv
agrees --on 'r.x = s.y' r.csv none.csv
agrees --on 'r.x = s.y' folder s.csv
agrees --on 'r.x = s.y' --then 'r.s_id = s.z' r.csv s.csv q.csv
agrees --on 'r.x = s.y' --then 'r.s_id = ' r.csv s.csv q.csv
agrees --on 'r.x = s.y' --then 'r.id = s.z' r.csv s.csv q.csv
agrees --on 'r.x = s.y' --then 'r.s_id = s.y' r.csv s.csv text.csv
agrees --on 'r.x = s.y' --then 'r.s_id = s.z' --early r.csv s.csv q.csv
agrees --on 'r.x = s.y' --then 'r.s_id = s.z' r.csv s.csv missing.csv

echo "$passed passed, $failed failed"
[ "$failed" = 0 ]

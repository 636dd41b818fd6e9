#!/bin/sh
# Runs the built program over small files and compares its status, its output and its line on standard
# error with what docs/USAGE.md says. It is no part of the gate, in which no test may start a program.
# JM, JM_PICTURE and JM_JOURNAL name other programs than the repository's own.
set -u
top=$(cd "$(dirname "$0")/.." && pwd -P)
jm=${JM:-$top/jm}
jm_picture=${JM_PICTURE:-$top/jm-picture}
jm_journal=${JM_JOURNAL:-$top/jm-journal}
room=$(mktemp -d)
trap 'rm -rf "$room"' EXIT
cd "$room" || exit 1
passed=0
failed=0

# file NAME TEXT, where TEXT may have printf's escapes
file() { printf "$2" >"$1"; }

# check STATUS OUTPUT LINE WORDS.., where OUTPUT and LINE may have printf's escapes
check() {
    status=$1
    printf "$2" >wanted.out
    if [ -n "$3" ]; then printf '%s\n' "$3" >wanted.err; else : >wanted.err; fi
    shift 3
    "$jm" "$@" >got.out 2>got.err </dev/null
    got=$?
    if [ "$got" = "$status" ] && cmp -s wanted.out got.out && cmp -s wanted.err got.err; then
        passed=$((passed + 1))
    else
        failed=$((failed + 1))
        echo "failed: jm $*" >&2
        echo "  status $got, wanted $status" >&2
        diff wanted.out got.out >&2
        diff wanted.err got.err >&2
    fi
}

# picture WORDS..: the report of a run is drawn, and each of its numbers stands in the picture
picture() {
    "$jm" "$@" --report >got.out 2>got.err </dev/null && "$jm_picture" <got.out >got.svg 2>>got.err
    lacking=$?
    for number in $(sed -n '/^input /,$p' got.out | tr -s ' ' '\n' | grep '^[0-9]' | sort -u); do
        grep -q "[^0-9]$number[^0-9]" got.svg || lacking="$lacking $number"
    done
    if [ "$lacking" = 0 ] && [ ! -s got.err ]; then
        passed=$((passed + 1))
    else
        failed=$((failed + 1))
        echo "failed: the picture of jm $*: $lacking" >&2
    fi
}

# journal WORDS..: the journal of a run that is done is drawn; of another nothing is, and status and line are those of jm
journal() {
    "$jm" "$@" >got.out 2>wanted.err </dev/null
    status=$?
    "$jm_journal" "$@" >got.svg 2>got.err </dev/null
    got=$?
    drawn=$(grep -c '^<svg' got.svg)
    if [ "$got" = "$status" ] && [ "$drawn" = $((status == 0)) ] && cmp -s wanted.err got.err; then
        passed=$((passed + 1))
    else
        failed=$((failed + 1))
        echo "failed: the journal of jm $*: status $got, wanted $status, drawn: $drawn" >&2
        diff wanted.err got.err >&2
    fi
}

usage='usage: jm --on TEXT [options] R.csv S.csv'
file r.csv 'id,x\n1,10\n2,20\n3,30\n'
file s.csv 'id,y\n1,20\n2,30\n3,20\n'
file none.csv ''
file header.csv 'id,x\n'
file narrow.csv 'id,x\n1,10\n2\n'
file wide.csv 'id,y\n1,20,5\n'
file text.csv 'id,y\n1,20\n2,30\n3,4x\n'
file twice.csv 'y,y\n1,2\n'
file gap.csv 'id,x\n1,\n2,5\n'
file five.csv 'id,y\n1,5\n'
file three.csv 'x\n1\n2\n3\n'
file trades.csv '\357\273\277trade,"Unit Price",at\r\nT1,105,900\r\n"T,2",99,903\r\n'
file quotes.csv 'quote,bid,at\r\nQ1,100,898\r\nQ2,101,902\r\nQ3,97,903\r\n'
"$jm" >/dev/null 2>&1 # builds the program where it isn't built

check 0 '2,1\n2,3\n3,2\n' '' --on 'r.x = s.y' r.csv s.csv
check 0 '2,1\n2,3\n3,2\n' '' --on 'r.x = s.y' --rings r.csv s.csv
check 0 '' '' --on 'r.x = s.y' header.csv s.csv
check 0 '1,1\n1,2\n2,3\n' '' --on 'abs(r.at - s.at) <= 2 and r."Unit Price" >= s.bid' trades.csv quotes.csv
check 0 '1,2\n1,3\n2,3\n' '' --on 'r.x < s.x' three.csv three.csv
check 0 '1,1\n' '' --on 'not (r.x = s.y)' gap.csv five.csv
check 0 '2,1\n' '' --on 'r.x = s.y' gap.csv five.csv
check 0 '' '' --on 'r.x != s.y' gap.csv five.csv
for joiners in 1 2 4 8 16 32 64; do
    check 0 '2,1\n2,3\n3,2\n' '' --joiners $joiners --seed 7 --on 'r.x = s.y' r.csv s.csv
done
for joiners in 1 3 5 7 48 63 64; do
    check 0 '2,1\n2,3\n3,2\n' '' --groups --joiners $joiners --on 'r.x = s.y' r.csv s.csv
done
for joiners in 1 2 4 8 16 32 64; do
    check 0 '2,1\n2,3\n3,2\n' '' --rings --joiners $joiners --workers 3 --on 'r.x = s.y' r.csv s.csv
done
check 0 '' '' --rings --on 'r.x = s.y' header.csv s.csv
check 0 'rows 2000 2000\npairs 4000\nsum 8004000\n' '' --rings --on 'r.key = s.key' --make 2000
check 0 'rows 20000 20000\npairs 400000\nsum 8000400000\n' '' --rings --joiners 64 --feeders 8 --workers 16 \
    --on 'r.key = s.key' --make 20000
check 0 '2,20,1,20\n2,20,3,20\n3,30,2,30\n' '' --rings --rows --on 'r.x = s.y' r.csv s.csv
check 0 '2,1\n2,3\n3,2\ninput 3 3\nfinal 4 1 copies 15 best 12\njoiner 0 held 0 3 made 0\njoiner 1 held 1 3 made 2\njoiner 2 held 2 3 made 1\njoiner 3 held 0 3 made 0\n' '' \
    --rings --on 'r.x = s.y' --joiners 4 --fixed 0 --seed 42 --report r.csv s.csv
check 0 'rows 7 7\npairs 1\nsum 2\n' '' --groups --joiners 7 --on 'r.key = s.key' --make 7
check 0 '2,20,1,20\n2,20,3,20\n3,30,2,30\n' '' --groups --joiners 3 --rows --on 'r.x = s.y' r.csv s.csv
check 0 '2,1\n2,3\n3,2\ngroup 0 2\ninput 2 3\ngrid 1 1 2 moved 0\nfinal 1 2 copies 7 best 7\njoiner 0 held 2 2 made 1\njoiner 1 held 2 1 made 0\ngroup 1 1\ninput 1 3\nfinal 1 1 copies 4 best 4\njoiner 0 held 1 3 made 2\n' '' \
    --groups --joiners 3 --feeders 1 --seed 2 --on 'r.x = s.y' --report r.csv s.csv
check 0 '2,1\n2,3\n3,2\ninput 3 3\nfinal 4 1 copies 15 best 12\njoiner 0 held 0 3 made 0\njoiner 1 held 1 3 made 2\njoiner 2 held 2 3 made 1\njoiner 3 held 0 3 made 0\n' '' \
    --on 'r.x = s.y' --joiners 4 --fixed 0 --seed 42 --report r.csv s.csv
check 0 '2,1\n2,3\n3,2\ninput 3 3\nfinal 4 1 copies 24 best 24\njoiner 0 held 0 3 made 0\njoiner 1 held 1 3 made 2\njoiner 2 held 2 3 made 1\njoiner 3 held 0 3 made 0\n' '' \
    --on 'r.x = s.y' --joiners 4 --fixed 0 --seed 42 --weight-r 4 --report r.csv s.csv
check 0 'input 0 3\ngrid 1 1 4 moved 0\nfinal 1 4 copies 3 best 3\njoiner 0 held 0 0 made 0\njoiner 1 held 0 2 made 0\njoiner 2 held 0 1 made 0\njoiner 3 held 0 0 made 0\n' '' \
    --on 'r.x = s.y' --report header.csv s.csv
for feed in alternate rfirst sfirst; do
    check 0 '2,1\n2,3\n3,2\n' '' --on 'r.x = s.y' --feed $feed --feeders 3 --batch 1 r.csv s.csv
done
for replay in 0 7 18446744073709551615; do
    check 0 '2,1\n2,3\n3,2\n' '' --on 'r.x = s.y' --replay $replay --feeders 8 --batch 1 --joiners 64 r.csv s.csv
done

# the same words twice give the same output, with the report
"$jm" --on 'r.x < s.y' --replay 7 --batch 1 --report three.csv s.csv >once.out
"$jm" --on 'r.x < s.y' --replay 7 --batch 1 --report three.csv s.csv >twice.out
if cmp -s once.out twice.out && grep -q '^final ' once.out; then
    passed=$((passed + 1))
else
    failed=$((failed + 1))
    echo 'failed: two replays of one number differ' >&2
fi

check 2 '' "$usage"
check 2 '' "$usage" --help
check 2 '' "$usage" r.csv s.csv
check 2 '' "$usage" --on 'r.x = s.y' r.csv
check 2 '' "$usage" --on 'r.x = s.y' --joiners 3 r.csv s.csv
check 2 '' "$usage" --on 'r.x = s.y' --joiners 4 --fixed 3 r.csv s.csv
check 2 '' "$usage" --on 'r.x = s.y' --then 'r.r_x = s.x' r.csv s.csv
check 2 '' "$usage" --on 'r.x = s.y' --then 'r.r_x = s.x' --rows r.csv s.csv r.csv
check 3 '' 'then: not understood at byte 2' --on 'r.x = s.y' --then 'r.' r.csv s.csv r.csv
check 3 '' 'then: R has no column x' --on 'r.x = s.y' --then 'r.x = s.x' r.csv s.csv r.csv
check 2 '' "$usage" --on 'r.x = s.y' --groups --fixed 0 r.csv s.csv
check 2 '' "$usage" --on 'r.x = s.y' --groups --early r.csv s.csv
check 2 '' "$usage" --on 'r.x = s.y' --groups --replay 7 r.csv s.csv
check 2 '' "$usage" --on 'r.x = s.y' --groups r.csv s.csv r.csv
check 2 '' "$usage" --on 'r.x = s.y' --rings --early r.csv s.csv
check 2 '' "$usage" --on 'r.x = s.y' --rings --replay 7 r.csv s.csv
check 2 '' "$usage" --on 'r.x = s.y' --rings --groups r.csv s.csv
check 2 '' "$usage" --on 'r.x = s.y' --rings --then 'r.r_x = s.x' r.csv s.csv r.csv
check 2 '' "$usage" --on 'r.x = s.y' --rings r.csv s.csv r.csv
check 2 '' "$usage" --on 'r.x = s.y' --unknown r.csv s.csv
check 2 '' "$usage" --on 'r.x = s.y' --feeders 9 r.csv s.csv
check 2 '' "$usage" --on 'r.x = s.y' --batch 0 r.csv s.csv
check 2 '' "$usage" --on 'r.x = s.y' --feed first r.csv s.csv
check 2 '' "$usage" --on 'r.x = s.y' --weight-r 0 r.csv s.csv
check 2 '' "$usage" --on 'r.x = s.y' --weight-s 1025 r.csv s.csv
check 2 '' "$usage" --on 'r.x = s.y' --replay seven r.csv s.csv

check 3 '' 'predicate: not understood at byte 0' --on '' r.csv s.csv
check 3 '' 'predicate: not understood at byte 6' --on 'r.x = ' r.csv s.csv
check 3 '' 'predicate: not understood at byte 5' --on 'r.x == s.y' r.csv s.csv
check 3 '' 'predicate: not understood at byte 2' --on 'r.' missing.csv s.csv
check 3 '' 'predicate: number too large at byte 6' --on 'r.x = 9223372036854775808' r.csv s.csv
check 3 '' 'predicate: nested too deep at byte 32' --on '(((((((((((((((((((((((((((((((((' r.csv s.csv
check 3 '' 'predicate: sum too long at byte 32' --on '1+1+1+1+1+1+1+1+1+1+1+1+1+1+1+1 + 1 = 1' r.csv s.csv
check 3 '' 'predicate: R has no column z' --on 'r.z = s.y' r.csv s.csv
check 3 '' 'predicate: S has column y more than once' --on 'r.x = s.y' r.csv twice.csv

check 4 '' 'input: R has no header' --on 'r.x = s.y' none.csv none.csv
check 4 '' 'input: S has no header' --on 'r.x = s.y' r.csv none.csv
check 4 '' 'input: R row 2 has 1 fields' --on 'r.x = s.y' narrow.csv missing.csv
check 4 '' 'input: S row 1 has 3 fields' --on 'r.x = s.y' r.csv wide.csv
check 4 '' 'input: S row 3 column 2 is no number' --on 'r.x = s.y' r.csv text.csv
check 6 '' 'read: failed' --on 'r.x = s.y' missing.csv s.csv
check 6 '' 'read: failed' --on 'r.x = s.y' r.csv missing.csv

picture --on 'r.x = s.y' --fixed 0 r.csv s.csv
picture --on 'r.x = s.y' --joiners 1 r.csv s.csv
picture --on 'r.x = s.y' --weight-r 4 r.csv s.csv
picture --on 'r.key = s.key' --make 2000
picture --on 'r.key = s.key' --make 2000 --rings
picture --on 'r.key = s.key' --make 3000 --joiners 64 --feeders 8 --feed rfirst --replay 7
picture --on 'r.x = s.y' --rows r.csv s.csv
journal --on 'r.x = s.y' r.csv s.csv
journal --on 'r.x = s.x' header.csv header.csv
journal --on 'r.x = s.y' --early r.csv s.csv
journal --on 'r.x = s.y' --rows --report r.csv s.csv
journal --on 'r.x = s.y' --then 'r.s_y = s.y' r.csv s.csv s.csv
journal --on 'r.key = s.key' --make 2000 --joiners 64 --feed rfirst
journal --on 'r.key = s.key' --make 2000 --joiners 21 --groups
journal --on 'r.key = s.key' --make 2000 --rings
journal --on 'r.key = s.key' --make 2000 --fixed 0 --weight-s 9
journal
journal --on 'r.x =' r.csv s.csv
journal --on 'r.x = s.y' r.csv text.csv
journal --on 'r.x = s.y' r.csv missing.csv

# a sink that takes nothing
if [ -w /dev/full ]; then
    "$jm" --on 'r.x = s.y' r.csv s.csv >/dev/full 2>got.err
    if [ $? = 7 ] && [ "$(cat got.err)" = 'write: failed' ]; then
        passed=$((passed + 1))
    else
        failed=$((failed + 1))
        echo 'failed: standard output is full' >&2
    fi
fi

echo "$passed passed, $failed failed"
[ "$failed" = 0 ]

#!/bin/sh
# Runs jm-rows over small files and compares its status, its output and what it says on standard error with what
# docs/USAGE.md says; then installs all into a folder and runs what stands there. It is no part of the gate, in which no
# test may start a program. JM names another program than the repository's own, and then nothing is installed.
set -u
top=$(cd "$(dirname "$0")/.." && pwd -P)
rows=$top/jm-rows
room=$(mktemp -d)
trap 'rm -rf "$room"' EXIT
cd "$room" || exit 1
mkdir tmp
export TMPDIR="$room/tmp"
passed=0
failed=0

pass() { passed=$((passed + 1)); }
fail() {
    failed=$((failed + 1))
    echo "failed: $1" >&2
}

# file NAME TEXT, where TEXT may have printf's escapes
file() { printf "$2" >"$1"; }

# check STATUS OUTPUT LINE WORDS.., where OUTPUT may have printf's escapes; nothing is left in the temporary folder
check() {
    status=$1
    printf "$2" >wanted.out
    if [ -n "$3" ]; then printf '%s\n' "$3" >wanted.err; else : >wanted.err; fi
    shift 3
    "$rows" "$@" >got.out 2>got.err </dev/null
    got=$?
    if [ "$got" = "$status" ] && cmp -s wanted.out got.out && cmp -s wanted.err got.err && [ -z "$(ls tmp)" ]; then
        pass
    else
        fail "jm-rows $*"
        echo "  status $got, wanted $status; left: $(ls tmp)" >&2
        diff wanted.out got.out >&2
        diff wanted.err got.err >&2
    fi
}

usage='usage: jm --on TEXT [options] R.csv S.csv'
file r.csv 'id,x\n1,10\n2,20\n3,30\n'
file s.csv 'id,y\n1,20\n2,30\n3,20\n'
file none.csv ''
file header.csv 'id,x\n'
file narrow.csv 'id,x\n1,10\n2\n'
file twice.csv 'y,x,y\n1,10,2\n'
file -dash.csv 'id,x\n1,10\n'
file marks.csv '\357\273\277\357\273\277\r\n\nid,x\r\n1,20\r\n'
file old.csv 'id,x\r1,20\r'
file short.csv 'id,x'
file quotes.csv 'id,"two, ""new""","a\nb","c"d,"","e"\n1,20,"x\ny","""",,"p,q"\n'
file bytes.csv 'id,\377\\n%%s&\n1,20\n'
file cells.csv 'id,x\n1,\n2,""\n3," "\n'
file lines.csv 'id,x\n1,"input 3 3"\n2,"final\n"\n'
"${JM:-$top/jm}" >/dev/null 2>&1 # builds the program where it isn't built

# headers of every kind
check 0 'r_id,r_x,s_id,s_y\n2,20,1,20\n2,20,3,20\n3,30,2,30\n' '' --on 'r.x = s.y' r.csv s.csv
check 0 'r_id,r_x,s_id,s_y\n2,20,1,20\n2,20,3,20\n3,30,2,30\n' '' --rows --joiners 1 --on='r.x = s.y' -- r.csv s.csv
check 0 'r_id,r_x,s_id,s_y\n' '' --on 'r.x = s.y' header.csv s.csv
check 0 'r_id,r_x,s_id,s_y\n' '' --on 'r.x = s.y' short.csv s.csv
check 0 'r_id,r_x,s_id,s_y\n1,20,1,20\n1,20,3,20\n' '' --on 'r.x = s.y' marks.csv s.csv
check 0 'r_id,r_x,s_id,s_y\n1,20,1,20\n1,20,3,20\n' '' --on 'r.x = s.y' old.csv s.csv
check 0 'r_id,r_x,s_id,s_x\n1,10,1,10\n' '' --on 'r.x = s.x' -- -dash.csv -dash.csv
header='r_id,"r_two, ""new""","r_a\nb",r_cd,r_,r_e,s_id,s_y\n'
row='1,20,"x\ny","""",,"p,q"'
check 0 "$header$row,1,20\\n$row,3,20\\n" '' \
    --on 'r."two, ""new""" = s.y' quotes.csv s.csv
check 0 'r_id,r_\377\\n%%s&,s_id,s_y\n' '' --on 'r.id = 7 and s.id = 7' bytes.csv s.csv
check 0 's_y,r_y,r_x,r_y,s_id\n' '' --columns 's.y,r.*,s.id' --on 'r.x = 7 and s.y = 7' twice.csv s.csv

# chosen columns
check 0 's_id,r_x\n1,20\n3,20\n2,30\n' '' --columns 's.id, r.x' --on 'r.x = s.y' r.csv s.csv
check 0 's_id,r_x\n1,20\n3,20\n2,30\n' '' --on 'r.x = s.y' r.csv s.csv --columns=' s . "id" , r."x"'
check 0 'r_x,r_x\n20,20\n20,20\n30,30\n' '' --columns r.x,r.x --on 'r.x = s.y' r.csv s.csv
check 0 '"r_a\nb",s_y,"r_two, ""new"""\n"x\ny",20,20\n"x\ny",20,20\n' '' \
    --columns 'r."a
b",s.y,r."two, ""new"""' --on 'r."two, ""new""" = s.y' quotes.csv s.csv
check 0 'r_\n""\n""\n' '' --columns 'r.""' --on 'r.id = 1 and s.y = 20' quotes.csv s.csv
check 0 'r_x,s_id\n,1\n,1\n ,1\n' '' --columns 'r.x,s.id' --on 's.id = 1' cells.csv s.csv
check 0 'r_x\n""\n""\n \n' '' --columns 'r.x' --on 's.id = 1' cells.csv s.csv
check 0 'r_x\ninput 3 3\n"final\n"\n' '' --columns 'r.x' --on 's.id = 1' lines.csv s.csv

# a report follows as it is
report='input 3 3\nfinal 4 1 copies 15 best 12\njoiner 0 held 0 3 made 0\njoiner 1 held 1 3 made 2\n'
report=$report'joiner 2 held 2 3 made 1\njoiner 3 held 0 3 made 0\n'
check 0 "r_id,r_x,s_id,s_y\n2,20,1,20\n2,20,3,20\n3,30,2,30\n$report" '' \
    --on 'r.x = s.y' --fixed 0 --seed 42 --report r.csv s.csv
check 0 "s_id\n1\n3\n2\n$report" '' --columns s.id --on 'r.x = s.y' --fixed 0 --seed 42 --report r.csv s.csv

# what is wrong with the columns
check 2 '' 'jm-rows: R has no column y' --columns r.y --on 'r.x = s.y' r.csv s.csv
check 2 '' 'jm-rows: S has no column two "x"' --columns 's."two ""x"""' --on 'r.x = s.y' r.csv s.csv
check 2 '' 'jm-rows: R has column y more than once' --columns r.y --on 'r.x = s.y' twice.csv s.csv
check 2 '' 'jm-rows: --columns is not understood at byte 0' --columns '' --on 'r.x = s.y' r.csv s.csv
check 2 '' 'jm-rows: --columns is not understood at byte 0' --columns x --on 'r.x = s.y' r.csv s.csv
check 2 '' 'jm-rows: --columns is not understood at byte 4' --columns r.x, --on 'r.x = s.y' r.csv s.csv
check 2 '' 'jm-rows: --columns is not understood at byte 4' --columns 'r.x s.y' --on 'r.x = s.y' r.csv s.csv
check 2 '' 'jm-rows: --columns is not understood at byte 2' --columns 'r."x' --on 'r.x = s.y' r.csv s.csv
check 2 '' 'jm-rows: --columns stands more than once' --columns r.x --columns r.id --on 'r.x = s.y' r.csv s.csv
check 2 '' 'jm-rows: --columns has no list' --on 'r.x = s.y' r.csv s.csv --columns
check 2 '' 'jm-rows: --columns has no list' --columns --on 'r.x = s.y' r.csv s.csv

# what jm refuses
check 2 '' "$usage"
check 2 '' "$usage" --on 'r.x = s.y' r.csv
check 2 '' "$usage" --on 'r.x = s.y' r.csv s.csv r.csv
check 2 '' "$usage" --on 'r.x = s.y' --make 10
check 2 '' "$usage" --on 'r.x = s.y' --early r.csv s.csv
check 2 '' "$usage" --on 'r.x = s.y' --joiners 3 r.csv s.csv
check 3 '' 'predicate: not understood at byte 5' --on 'r.x == s.y' r.csv s.csv
check 3 '' 'predicate: R has no column z' --columns r.x --on 'r.z = s.y' r.csv s.csv
check 4 '' 'input: R has no header' --on 'r.x = s.y' none.csv s.csv
check 4 '' 'input: R row 2 has 1 fields' --on 'r.x = s.y' narrow.csv s.csv
check 6 '' 'read: failed' --on 'r.x = s.y' missing.csv s.csv
check 6 '' 'read: failed' --on 'r.x = s.y' r.csv .

# names
check 0 'id\n"two, ""new"""\n"a\nb"\ncd\n""\ne\n' '' --names quotes.csv
check 0 'id\nx\n' '' --names marks.csv
check 2 '' "jm-rows: missing.csv can't be read" --names missing.csv
check 2 '' 'jm-rows: none.csv has no header' --names none.csv
check 2 '' 'jm-rows: usage: jm-rows [--columns LIST] --on TEXT [options] R.csv S.csv, or jm-rows --names FILE' --names

# headers without an end, one with a byte order mark and of the first bytes too many, and one of many names
{ printf '"a' && yes 'b,c' | head -n 300000; } >open.csv
check 2 '' 'jm-rows: R has a header of more than 1048576 bytes' --on 'r.x = s.y' open.csv s.csv
check 2 '' 'jm-rows: open.csv has a header of more than 1048576 bytes' --names open.csv
{ printf '\357\273\277' && printf %01048574d 0 && echo ',x'; } >long.csv
check 2 '' 'jm-rows: S has a header of more than 1048576 bytes' --on 'r.x = s.x' r.csv long.csv
awk 'BEGIN { for (i = 1; i < 20000; i++) printf "c%d,", i; print "c20000" }' >wide.csv
check 0 'r_c19999,s_id\n' '' --columns r.c19999,s.id --on 'r.c1 = s.id' wide.csv s.csv

# pipes, one for each file, and an output that is full
mkfifo r.pipe
cat r.csv >r.pipe &
"$rows" --columns r.id --on 'r.x = s.y' r.pipe /dev/stdin <s.csv >got.out 2>got.err
if [ $? = 0 ] && [ "$(tr '\n' ' ' <got.out)" = 'r_id 2 2 3 ' ]; then pass; else fail 'two pipes'; fi
if [ -w /dev/full ]; then
    for columns in --columns=r.x --joiners=4; do
        "$rows" $columns --on 'r.x = s.y' r.csv s.csv >/dev/full 2>got.err
        if [ $? = 7 ] && [ "$(cat got.err)" = 'write: failed' ]; then pass; else fail "$columns: output is full"; fi
    done
    "$rows" --names r.csv >/dev/full 2>got.err
    if [ $? = 7 ] && [ "$(cat got.err)" = 'write: failed' ]; then pass; else fail '--names: output is full'; fi
fi

# what is installed stands alone
if [ -z "${JM:-}" ]; then
    "$top/install.sh" 'a prefix' >first.out || fail 'install.sh'
    while read -r each; do [ -s "$each" ] || fail "$each"; done <first.out
    rows="$room/a prefix/bin/jm-rows"
    check 0 'r_id\n2\n2\n3\n' '' --columns r.id --on 'r.x = s.y' r.csv s.csv
    mkdir elsewhere && ln -s "../a prefix/bin/jm-rows" elsewhere/rows
    rows="$room/elsewhere/rows"
    check 0 'r_id\n2\n2\n3\n' '' --columns r.id --on 'r.x = s.y' r.csv s.csv
    bin=$room/a\ prefix/bin
    "$bin/jm" --on 'r.x = s.y' --report r.csv s.csv | "$bin/jm-picture" >got.svg
    if grep -q '^<svg' got.svg; then pass; else fail 'the installed jm and jm-picture'; fi
    "$bin/jm-journal" --on 'r.x = s.y' r.csv s.csv >got.svg
    if grep -q '^<svg' got.svg; then pass; else fail 'the installed jm-journal'; fi
    "$top/install.sh" 'a prefix' >again.out
    if [ $? = 0 ] && cmp -s first.out again.out; then pass; else fail 'install.sh once more'; fi
fi
"$top/install.sh" >got.out 2>got.err
[ $? = 2 ] && [ "$(cat got.err)" = 'usage: install.sh PREFIX' ] && pass || fail 'install.sh without a prefix'

echo "$passed passed, $failed failed"
[ "$failed" = 0 ]

#!/usr/bin/env bash
# Calls the completion of bash on lines as one would write them, with the cursor where a line has a ^ (else at its end),
# and compares what it offers. It needs no jm, and is no part of the gate, in which no test may start a program.
set -u
top=$(cd "$(dirname "${BASH_SOURCE[0]}")/.." && pwd -P)
room=$(mktemp -d)
trap 'rm -rf "$room"' EXIT
cd "$room" || exit 1
source "$top/completions/jm.bash"
PATH=$top:$PATH
passed=0
failed=0

printf 'id,x\n1,10\n' >r.csv
printf '\357\273\277id,"Unit Price",y\r\n1,20,3\r\n' >s.csv
printf '"it'\''s ""new""","two\nlines",_9\n' >'odd ones.csv'

# check LINE WORDS.. :: OFFERS..: the words as bash splits the line, and what is offered, in its order
check() {
    local line=$1 got wanted
    shift
    COMP_WORDS=()
    while [[ $1 != :: ]]; do
        COMP_WORDS+=("$1")
        shift
    done
    shift
    COMP_LINE=${line/^/}
    COMP_POINT=${#COMP_LINE}
    [[ $line == *^* ]] && COMP_POINT=${line%%^*} && COMP_POINT=${#COMP_POINT}
    COMP_CWORD=$((${#COMP_WORDS[@]} - 1))
    [[ $line == *^* ]] && COMP_CWORD=$at
    _jm 2>got.err
    got=$(printf '<%s>' "${COMPREPLY[@]}")
    wanted=$(printf '<%s>' "$@")
    if [[ $got == "$wanted" && ! -s got.err ]]; then
        passed=$((passed + 1))
    else
        failed=$((failed + 1))
        echo "failed: $line: offered $got, wanted $wanted" >&2
        cat got.err >&2
    fi
}

# columns: where the files stand before the text, behind it, and behind a quote that is open
check "jm r.csv s.csv --on r." jm r.csv s.csv --on r. :: r.id r.x
check "jm r.csv s.csv --on 'r.i" jm r.csv s.csv --on "'r.i" :: r.id 'r.id '
check "jm r.csv s.csv --on 'r.x = s.y" jm r.csv s.csv --on "'r.x = s.y" :: 'r.x = s.y' 'r.x = s.y '
check "jm r.csv s.csv --on 'r.x = s." jm r.csv s.csv --on "'r.x = s." :: 'r.x = s.id' 'r.x = s."Unit Price"' 'r.x = s.y'
check "jm r.csv s.csv --on 'abs(s.U" jm r.csv s.csv --on "'abs(s.U" :: 'abs(s."Unit Price"' 'abs(s."Unit Price" '
check "jm r.csv s.csv --on 's.\"U" jm r.csv s.csv --on "'s.\"U" :: 's."Unit Price"' 's."Unit Price" '
check 'jm r.csv s.csv --on "s.U' jm r.csv s.csv --on '"s.U' :: 's.\"Unit Price\"' 's.\"Unit Price\" '
check 'jm r.csv s.csv --on s.U' jm r.csv s.csv --on s.U :: 's.\"Unit\ Price\"'
check 'jm r.csv s.csv --on=s.y' jm r.csv s.csv --on = s.y :: s.y
check "jm --report --joiners 4 --feed = rfirst r.csv s.csv --on r." \
    jm --report --joiners 4 --feed = rfirst r.csv s.csv --on r. :: r.id r.x
check "jm r.csv 'odd ones.csv' --on 's." jm r.csv "'odd ones.csv'" --on "'s." :: "s.\"it'\\''s \"\"new\"\"\"" s._9
check "jm r.csv odd\\ ones.csv --on \"s.it" jm r.csv 'odd\ ones.csv' --on '"s.it' \
    :: "s.\\\"it's \\\"\\\"new\\\"\\\"\\\"" "s.\\\"it's \\\"\\\"new\\\"\\\"\\\" "
check "$top/jm r.csv s.csv --on r." "$top/jm" r.csv s.csv --on r. :: r.id r.x
check "jm -- r.csv s.csv --on r." jm -- r.csv s.csv --on r. :: r.id r.x
at=2
check "jm --on 'r.i^' r.csv s.csv" jm --on "'r.i'" r.csv s.csv :: r.id 'r.id '
check "jm --on 'r.i^ r.csv s.csv" jm --on "'r.i r.csv s.csv" :: r.id 'r.id '
check "jm --on s.y^ --rows r.csv s.csv > out.csv" jm --on s.y --rows r.csv s.csv '>' out.csv :: s.y
check "jm-rows --columns r.x,s.^ r.csv s.csv" jm-rows --columns r.x,s. r.csv s.csv \
    :: r.x,s.id 'r.x,s.\"Unit\ Price\"' r.x,s.y

# no columns: no file, a missing one, a folder, one file alone, no r. or s. at the cursor
check "jm --on 'r." jm --on "'r." :: ''
check "jm missing.csv s.csv --on 'r." jm missing.csv s.csv --on "'r." :: ''
check "jm . s.csv --on 'r." jm . s.csv --on "'r." :: ''
check "jm r.csv --on 's." jm r.csv --on "'s." :: ''
check "jm r.csv s.csv --on 'for.i" jm r.csv s.csv --on "'for.i" :: ''
check "jm r.csv s.csv --on 'r.x = 7" jm r.csv s.csv --on "'r.x = 7" :: ''

# options and their values
check 'jm --jo' jm --jo :: --joiners
check 'jm --we' jm --we :: --weight-r --weight-s
check 'jm --r' jm --r :: --replay --report --rows --rings
check 'jm --g' jm --g :: --groups --grow
check 'jm-rows --g' jm-rows --g :: --groups
check 'jm --grow ' jm --grow '' :: 1 2 3
check "jm --grow 1 r.csv s.csv r2.csv s2.csv --on r." jm --grow 1 r.csv s.csv r2.csv s2.csv --on r. :: r.id r.x
check 'jm --columns' jm --columns :: ''
check 'jm-rows --c' jm-rows --c :: --columns
check 'jm-why --th' jm-why --th :: --then
check 'jm --joiners 1' jm --joiners 1 :: 1 16
check 'jm --joiners=6' jm --joiners = 6 :: 64
check 'jm --joiners=' jm --joiners = :: 1 2 4 8 16 32 64
check 'jm --feeders 8' jm --feeders 8 :: 8
check 'jm --workers 1' jm --workers 1 :: 1 10 11 12 13 14 15 16
check 'jm --feed s' jm --feed s :: sfirst
check 'jm --fixed 6' jm --fixed 6 :: 6
check 'jm --batch ' jm --batch '' :: 'from 1 to 4096' ' '
check 'jm --weight-r ' jm --weight-r '' :: 'from 1 to 1024' ' '
check 'jm --make ' jm --make '' :: 'from 1 to 65536' ' '
check 'jm --seed ' jm --seed '' :: 'from 0 to 18446744073709551615' ' '
check 'jm --seed 7' jm --seed 7 :: ''
check 'jm r.c' jm r.c :: ''

# each option of USAGE stands in the completion of each shell
for option in $(grep -o '^| `--[a-z-]*' "$top/docs/USAGE.md" | sed 's/.*`//'); do
    for place in "jm.bash:[ ']$option\([ ']\|$\)" "_jm:'${option}[=[]" "jm.fish:-l ${option#--} "; do
        if grep -q -e "${place#*:}" "$top/completions/${place%%:*}"; then
            passed=$((passed + 1))
        else
            failed=$((failed + 1))
            echo "failed: ${place%%:*} doesn't know $option" >&2
        fi
    done
done

echo "$passed passed, $failed failed"
[ "$failed" = 0 ]

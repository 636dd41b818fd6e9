#!/bin/sh
# Runs what README.md, docs/USAGE.md, docs/jm.1 and examples/README.md show, and compares. It is no part of the gate, in
# which no test may start a program. JM, JM_PICTURE, JM_WHY and JM_JOURNAL name other programs than the repository's.
#
# An indented line that begins with "$ " is a command, and the lines below it, up to the next such or the block's end,
# are what it prints; the lines of --early may come in another order. An indented line that begins with "./jm" is run,
# too, and ends with 0. A line of text that ends with a colon and names files in backticks has them in the block below
# it, side by side: one that stands in examples/ is as shown, but for byte order marks and CR; another is made. A
# command names no other file. The page has each option and each message of USAGE. Of USAGE's tables the first tries
# from SQL are refused at the byte that is told, all other predicates are taken, and the commands for files as they
# really are do what is said of them.
set -u
top=$(cd "$(dirname "$0")/.." && pwd -P)
jm=${JM:-$top/jm}
jm_picture=${JM_PICTURE:-$top/jm-picture}
jm_why=${JM_WHY:-$top/jm-why}
jm_journal=${JM_JOURNAL:-$top/jm-journal}
room=$(mktemp -d)
trap 'rm -rf "$room"' EXIT
cd "$room" || exit 1
passed=0
failed=0
"$jm" >/dev/null 2>&1 # builds the program where it isn't built

pass() { passed=$((passed + 1)); }

# fail TEXT: with what was wanted and printed, if they differ
fail() {
    failed=$((failed + 1))
    echo "failed: $1" >&2
    [ $# = 1 ] || diff "$2" "$3" >&2
}

# steps TEXT: takes a document apart, into steps/NUMBER.run with .want, NUMBER.end, and NUMBER.files with .block
steps() {
    mkdir -p steps
    awk '
        function step(kind) { last_step = sprintf("steps/%03d", ++count); file = last_step "." kind }
        function note(text) { print text >file }
        /^    / {
            line = substr($0, 5)
            if (!inside) {
                inside = 1
                files = 0
                if (line !~ /^\$ / && text ~ /:$/ && text ~ /`[^` ]*\.csv`/) {
                    files = 1
                    step("files")
                    n = split(text, part, "`")
                    for (i = 2; i <= n; i += 2) if (part[i] ~ /\.csv$/) note(part[i])
                    file = last_step ".block"
                }
            }
            if (files) note(line)
            else if (line ~ /^\$ /) {
                step("run")
                note(substr(line, 3))
                file = last_step ".want"
                printf "" >file
                running = 1
            } else if (running) note(line)
            else if (line ~ /^\.\/jm/) { step("end"); note(line) }
            next
        }
        { inside = running = 0 }
        /[^ ]/ { text = $0 }
    ' "$1"
}

# the page as a document: its examples indented, names of files in backticks
page() {
    awk '
        /^\.EX/ { inside = 1; print ""; next }
        /^\.EE/ { inside = 0; print ""; next }
        /^\./ { next }
        {
            gsub(/\\-/, "-")
            gsub(/\\\(aq/, "\047")
            gsub(/\\e/, "\\")
            gsub(/\\f[IR]/, "`")
            print (inside ? "    " : "") $0
        }
    ' "$1"
}

# cut_out BLOCK NUMBER: the file that stands in this column of a block; its first line tells where the columns are
cut_out() {
    awk -v number="$2" '
        NR == 1 {
            for (at = 1; at <= length($0); at++)
                if (at == 1 || (substr($0, at - 2, 2) == "  " && substr($0, at, 1) != " ")) from[++columns] = at
            from[columns + 1] = 1000
        }
        {
            cell = substr($0, from[number], from[number + 1] - from[number])
            sub(/ +$/, "", cell)
            if (cell != "") print cell
        }
    ' "$1"
}

# the files of one step
take_files() {
    number=0
    while read -r name; do
        number=$((number + 1))
        cut_out "$1.block" "$number" >shown
        if [ -e "$top/$name" ]; then
            LC_ALL=C sed "1s/^$(printf '\357\273\277')//" "$top/$name" | tr -d '\r' >stands
            if cmp -s shown stands; then pass; else fail "$name as shown" shown stands; fi
        else
            cp shown "$name"
        fi
    done <"$1.files"
}

# each file that a command names is there
are_there() {
    for name in $(grep -o '[A-Za-z0-9_./-]*\.csv' "$1"); do
        [ -e "$name" ] || fail "$(cat "$1"): $name is neither shown nor in examples/"
    done
}

# run FILE: runs the command in it
run() {
    if grep -q '<(' "$1"; then shell=bash; else shell='sh'; fi
    PATH=$room/bin:$PATH $shell "$1" >got 2>&1 </dev/null
}

# document TEXT: runs a document's steps in a room of its own
document() {
    rm -rf here
    mkdir -p here bin
    cd here || exit 1
    steps "$1"
    ln -s "$top/examples" examples
    for place in . ../bin; do
        ln -sf "$jm" $place/jm
        ln -sf "$jm_picture" $place/jm-picture
        ln -sf "$jm_why" $place/jm-why
        ln -sf "$jm_journal" $place/jm-journal
        ln -sf "$top/jm-rows" $place/jm-rows
    done
    for step in steps/*; do
        case $step in
            *.files) take_files "${step%.files}" ;;
            *.run)
                are_there "$step"
                run "$step"
                status=$?
                cp "${step%.run}.want" want
                if grep -q -e --early "$step"; then
                    sort got -o got
                    sort want -o want
                fi
                if [ $status = 0 ] && cmp -s want got; then
                    pass
                else
                    fail "$(cat "$step"): status $status" want got
                fi
                ;;
            *.end)
                are_there "$step"
                if run "$step"; then pass; else fail "$(cat "$step"): $(cat got)"; fi
                ;;
        esac
    done
    for drawn in *.svg; do
        [ -e "$drawn" ] || continue
        if cmp -s "$drawn" "$top/docs/$drawn"; then pass; else fail "docs/$drawn is another picture"; fi
    done
    cd ..
}

# section HEADING: the lines of a part of USAGE
section() {
    awk -v heading="## $1" '/^## / { inside = $0 == heading } inside' "$top/docs/USAGE.md"
}

# header SIDE PREDICATE: the names of a side, as a header
header() {
    printf '%s\n' "$2" | awk -v side="$1" '
        {
            rest = $0
            while (match(rest, /[rs]\.("([^"]|"")*"|[A-Za-z_][A-Za-z0-9_]*)/)) {
                name = substr(rest, RSTART, RLENGTH)
                rest = substr(rest, RSTART + RLENGTH)
                if (substr(name, 1, 1) == side && !seen[name]++) line = line "," substr(name, 3)
            }
            print (line == "" ? "none" : substr(line, 2))
        }'
}

# accept PREDICATE: it is taken, over files that have its columns and a row of numbers
accept() {
    for side in r s; do
        header $side "$1" >$side.csv
        sed 's/"[^,]*"/1/g; s/[A-Za-z_][A-Za-z0-9_]*/1/g' $side.csv >cells
        cat cells >>$side.csv
    done
    if "$jm" --on=" $1" r.csv s.csv >got 2>&1 </dev/null; then pass; else fail "$1: $(cat got)"; fi
}

# refuse LINE PREDICATE: it is refused with this line, over files with a word in each cell
refuse() {
    for side in r s; do
        header $side "$2" >$side.csv
        sed 's/"[^,]*"/word/g' $side.csv >cells
        cat cells >>$side.csv
    done
    printf '%s\n' "$1" >want
    "$jm" --on "$2" r.csv s.csv >got 2>&1 </dev/null
    if cmp -s want got; then pass; else fail "$2" want got; fi
}

# code: the pieces in backticks of each line, one a line
code() { awk -F'`' '{ for (i = 2; i <= NF; i += 2) print $i }'; }

# tool BEGINNING: the piece of 'Files as they really are' that begins so
tool() { section 'Files as they really are' | code | begins="$1" awk 'index($0, ENVIRON["begins"]) == 1'; }

# does COMMAND WANTED: what a command prints, which may have printf's escapes
does() {
    printf '%s\n' "$1" >line.sh
    printf "$2" >want
    run line.sh
    if cmp -s want got; then pass; else fail "$1" want got; fi
}

document "$top/README.md"
document "$top/docs/USAGE.md"
page "$top/docs/jm.1" >page.md
document "$room/page.md"
document "$top/examples/README.md"

# the page names each option and each message that USAGE does
sed 's/\\-/-/g; s/\\fI//g; s/\\fR//g' "$top/docs/jm.1" >page.txt
for option in $(section 'The options' | grep -o '^| `--[a-z-]*' | sed 's/.*`//'); do
    if grep -qw -e "$option" page.txt; then pass; else fail "the page lacks $option"; fi
done
section 'Statuses and messages' | sed -n 's/^|.*| `\([^`]*\)` |$/\1/p' | sed 's/: R /: SIDE /' >lines
while read -r line; do
    if grep -qxF "$line" page.txt; then pass; else fail "the page lacks: $line"; fi
done <lines

# predicates that are taken
section 'In a minute' | code | grep '^\(jm \)\{0,1\}--on[ =]' >pieces
while read -r piece; do
    eval "set -- ${piece#jm }"
    case $1 in
        --on) accept "$2" ;;
        *) accept "${1#--on=}" ;;
    esac
done <pieces

# first tries from SQL, and what is meant
section 'From SQL' | awk -F' [|] ' '
    /^\| `/ {
        tries = split($1, try, "`")
        split($2, byte, "at byte ")
        for (i = 2; i <= tries; i += 2) print "refuse", byte[i / 2 + 1] + 0, try[i]
        n = split($3, meant, "`")
        for (i = 2; i <= n; i += 2) if (meant[i] ~ /[=<>]/) print "accept", 0, meant[i]
    }
' >pieces
while read -r what byte predicate; do
    if [ "$what" = accept ]; then
        accept "$predicate"
    elif [ "$predicate" = 'r.name = s.name' ]; then
        refuse 'input: R row 1 column 1 is no number' "$predicate"
    else
        refuse "predicate: not understood at byte $byte" "$predicate"
    fi
done <pieces
section 'In a minute' | grep -o '`[^`]*` is not understood at byte [0-9]*' >pieces
while read -r piece; do
    predicate=${piece#?}
    refuse "predicate: not understood at byte ${piece##* }" "${predicate%%\`*}"
done <pieces

# files as they really are
pairs='2,1\n2,3\n3,2\n'
printf 'id,y\n1,20\n2,30\n3,20\n' >s.csv
printf 'id,x\n1,10\n2,20\n3,30\n' >r.csv
gzip -k r.csv
ln -sf "$jm" jm
does "$(tool './jm --on TEXT <(zcat' | sed "s/TEXT/'r.x = s.y'/")" "$pairs"
does "$(tool './jm --on TEXT r.csv /dev/stdin' | sed "s/TEXT/'r.x = s.y'/")" "$pairs"
cp s.csv ./-
does "$(tool './jm --on TEXT r.csv ./-' | sed "s/TEXT/'r.x = s.y'/")" "$pairs"
does "cat s.csv | ./jm --on 'r.x = s.y' r.csv /dev/stdin" "$pairs"
does "cat s.csv | ./jm --on 'r.id = s.id' /dev/stdin /dev/stdin" 'input: S has no header\n'
sed 1d r.csv >rows.csv
does "./jm --on 'r.x = s.y' $(tool '<(echo id,x;' | sed 's/r.csv/rows.csv/') s.csv" "$pairs"
printf 'a;b\n1;2\n' >old.csv
does "$(tool "tr ';'") <old.csv" 'a,b\n1,2\n'
printf 'a\tb\n1\t2\n' >old.csv
does "$(tool "tr '\\t'") <old.csv" 'a,b\n1,2\n'
printf 'id,x\n1,3.5\n2,-0.07\n3,\n4,12\n' >old.csv
does "$(tool "awk -F, -v OFS=, 'NR > 1") <old.csv" 'id,x\n1,350\n2,-7\n3,\n4,1200\n'
printf 'id,x\nNA,1\n2,NA\n3,NAN\n' >old.csv
does "$(tool "awk -F, -v OFS=, '{ for") <old.csv" 'id,x\n,1\n2,\n3,NAN\n'
printf 'a,b\n1,1\n2,2\n3,3\n4,4\n5,5\n6,6\n7,7,7,7\n' >r.csv
does "./jm --on 'r.a = s.id' r.csv s.csv" "$(tool 'input: R row 7')\n"
does "$(tool 'sed -n 8p')" '7,7,7,7\n'

echo "$passed passed, $failed failed"
[ "$failed" = 0 ]

#!/bin/sh
# Tries the launchers, jm and jm-picture with tools/launch.sh and tools/build.sh, in a small made tree, over what
# stands in tests/stand-ins for rt and for the programs; no Rattle is needed. It is no part of the gate, in which no
# test may start a program. Tried are: a first build, of just the crates below the program, each behind those that it
# uses; a second start, which builds nothing; sources edited in each place that counts, and in those that don't; a
# second program, over what the first has proved; another kit; two first runs at once; a failed build, its report and
# the next start; the same where rt can be used as a module; rt missing; statuses, signals and standard
# input of the program, over pipes and files; links to a launcher; and, on a pseudo terminal (by script, of util-
# linux), statuses and standard input again, an interrupt of a run, what ends a launcher otherwise, and an interrupt
# of a build.
set -u
top=$(cd "$(dirname "$0")/.." && pwd -P)
room=$(mktemp -d)
trap 'rm -rf "$room"' EXIT
cd "$room" || exit 1
passed=0
failed=0

pass() { passed=$((passed + 1)); }

# fail TEXT [FILE..]: with the files
fail() {
    failed=$((failed + 1))
    echo "failed: $1" >&2
    shift
    [ $# = 0 ] || sed 's/^/  /' "$@" >&2
}

# holds TEXT COMMAND..: the command ends with 0
holds() {
    text=$1
    shift
    if "$@"; then pass; else fail "$text" got.out got.err rt.log; fi
}

# same TEXT WANTED GOT
same() {
    if [ "$2" = "$3" ]; then pass; else fail "$1: wanted '$2', got '$3'" got.err; fi
}

# lacks TEXT FILE: the text doesn't stand in the file
lacks() { ! grep -q -e "$1" "$2"; }

# until COMMAND..: waits until the command ends with 0, for at most 20 seconds
until_so() {
    rounds=0
    until "$@"; do
        rounds=$((rounds + 1))
        [ $rounds -lt 200 ] || return 1
        sleep 0.1
    done
}

is_gone() { ! kill -0 "$1" 2>/dev/null; }

export RT_LOG="$room/rt.log"
PATH=$top/tests/stand-ins:$PATH

# A tree whose name has a space: jm over high over low and side, jm_picture over low and draw; nothing uses other.
tree="$room/a tree"
mkdir -p "$tree/tools"
cp "$top/jm" "$top/jm-picture" "$tree"
cp "$top/tools/launch.sh" "$top/tools/build.sh" "$top/tools/prove.py" "$tree/tools"
cp "$top/HANDLES" "$tree"
cat >"$tree/crates.txt" <<'CRATES'
# each crate, with those that it uses
low:
side:
draw:
high: low side
other: low
jm: high
jm_picture: low draw
CRATES
for crate in low side draw high other jm jm_picture; do
    mkdir -p "$tree/crates/$crate/src" "$tree/crates/$crate/specs" "$tree/crates/$crate/proofs/deep"
    echo source >"$tree/crates/$crate/src/lib.rt"
    echo spec >"$tree/crates/$crate/specs/Says.antt"
    echo proof >"$tree/crates/$crate/proofs/deep/Answers.antt"
done

# start LAUNCHER WORDS..: leaves got.out, got.err and status, and in rt.log what rt was asked for
start() {
    launcher=$1
    shift
    : >rt.log
    "$tree/$launcher" "$@" >got.out 2>got.err </dev/null
    status=$?
}

# asked TEXT WORDS..: what rt was asked for, in any order
asked() {
    text=$1
    shift
    same "$text" "$(printf '%s\n' "$@" | sort)" "$(sort rt.log)"
}

place_of() { grep -n "^$1\$" rt.log | cut -d: -f1; }
stands_before() { [ "$(place_of "$1")" -lt "$(place_of "$2")" ]; }

# edit PATH TEXT: writes a source anew, at a date behind that of each build so far
edit() {
    sleep 0.05
    echo "$2" >"$tree/crates/$1"
}

forget_builds() { rm -rf "$tree"/crates/*/out; }

# a first build
start jm --on 'r.x = s.y' r.csv
same 'a first run has the status of the program' 2 "$status"
same 'a first run prints what the program prints' 'jm over 3 words: --on r.x = s.y r.csv' "$(cat got.out)"
asked 'a first run builds what stands below jm' 'lib low' 'lib side' 'lib high' 'run jm'
holds 'low is proved before high' stands_before 'lib low' 'lib high'
holds 'side is proved before high' stands_before 'lib side' 'lib high'
holds 'high is proved before jm' stands_before 'lib high' 'run jm'
holds 'a first run says that it builds' grep -q '^jm: building; .* an hour' got.err
holds 'it says which crate it is at' grep -q '^jm: proving high, crate 3 of 4$' got.err
holds 'it comes to the program' grep -q '^jm: proving jm, crate 4 of 4$' got.err
holds 'and says where a refusal is explained' grep -q '^jm: built; .*/jm-why ' got.err
same 'each line of a build begins with the name' '' "$(grep -v '^jm: ' got.err)"
same 'no room is left' '' "$(ls -d "$tree"/crates/jm/out/rooms 2>/dev/null)"

# a second start
start jm status 0
same 'a second start has the status of the program' 0 "$status"
asked 'a second start asks rt for nothing' ''
same 'a second start says nothing' '' "$(cat got.err)"

# edited sources
edit low/src/lib.rt 'another source'
start jm status 0
asked 'an edited source is built, with what stands above it' 'lib low' 'lib high' 'run jm'
holds 'what is proved is counted' grep -q '^jm: proving low, crate 2 of 4$' got.err
edit high/specs/Says.antt 'another spec'
start jm status 0
asked 'an edited spec is built' 'lib high' 'run jm'
edit side/src/more.rt 'one more file'
start jm status 0
asked 'a new source is built' 'lib side' 'lib high' 'run jm'
edit side/src/.more.rt.swp 'what an editor leaves'
start jm status 0
asked 'a file that is no source is none' ''
edit jm/src/lib.rt 'another program'
start jm status 0
asked 'the program is built over what is proved' 'run jm'
sleep 0.05
echo '# one more line' >>"$tree/crates.txt"
start jm status 0
asked 'crates.txt is a source' 'run jm'
mkdir "$tree/crates/side/specs/deep"
edit side/specs/deep/More.antt 'a spec in a folder of its own'
start jm status 0
asked 'a new folder is looked into' 'lib side' 'lib high' 'run jm'
edit low/proofs/deep/Answers.antt 'another proof'
start jm status 0
asked 'an edited proof changes no program' ''
edit draw/src/lib.rt 'another source'
edit other/src/lib.rt 'another source'
start jm status 0
asked 'a crate that does not stand below jm is no source' ''
edit side/src/lib.rt 'another source'
start jm status 0
asked 'a proof that was edited before is tried with the next source' 'lib low' 'lib side' 'lib high' 'run jm'
rm "$tree/crates/jm/out/sources"
start jm status 0
asked 'what rt itself built is as good' ''
holds 'the list of folders is made again' test -s "$tree/crates/jm/out/sources"

# a second program, and another kit
start jm-picture a word
same 'jm-picture takes no words' 'jm_picture over 0 words: ' "$(cat got.out)"
asked 'a second program builds what the first has not' 'lib draw' 'run jm_picture'
holds 'its lines begin with its own name' grep -q '^jm-picture: proving draw, crate 2 of 3$' got.err
edit jm/src/lib.rt 'a third program'
export KIT='kit 2'
start jm status 0
asked 'another kit is asked for all' 'lib low' 'lib side' 'lib high' 'run jm'
unset KIT

# two first runs at once
forget_builds
: >rt.log
export SLOW=0.5
for run in 1 2; do
    "$tree/jm" number >"both.out.$run" 2>"both.err.$run" </dev/null &
done
"$tree/jm-picture" >both.out.3 2>both.err.3 </dev/null
wait
unset SLOW
cat both.err.* >got.err
asked 'two first runs, and a third of another program, prove each crate once' \
    'lib low' 'lib side' 'lib high' 'run jm' 'lib draw' 'run jm_picture'
same 'two of three wait' 2 "$(grep -c 'another run builds in this tree; waiting for it$' got.err)"
same 'both run the program' 2 "$(cat both.out.1 both.out.2 | grep -c '^[0-9]*$')"
same 'so does the third' 'jm_picture over 0 words: ' "$(cat both.out.3)"

# a failed build
edit high/src/lib.rt 'a fault'
start jm status 0
same 'a failed build ends with 1' 1 "$status"
same 'a failed build prints nothing' '' "$(cat got.out)"
holds 'the crate that failed is named' grep -qx 'jm: high could not be proved or built' got.err
holds 'its own error is told' grep -qx 'error: high has a fault' got.err
holds 'the log is named' grep -q "^jm: the whole log is $tree/crates/jm/out/build.log;" got.err
holds 'the log is there' grep -qx 'error: high has a fault' "$tree/crates/jm/out/build.log"
start jm status 0
same 'the next start fails, too' 1 "$status"
edit high/src/lib.rt 'mended'
start jm status 0
same 'a mended build runs' 0 "$status"
asked 'what was proved is kept' 'lib high' 'run jm'

# where rt can be used as a module
mkdir -p kit/bin
cp "$top"/tests/stand-ins/program kit/bin
cp "$top"/tests/stand-ins/rt-as-module kit/bin/rt
beside=$PATH
PATH=$room/kit/bin:$PATH
forget_builds
start jm --on 'r.x = s.y'
same 'the program runs' 2 "$status"
asked 'each crate is proved, and so is the program' 'ci low' 'ci side' 'ci high' 'ci jm'
holds 'low is proved before high' stands_before 'ci low' 'ci high'
holds 'high is proved before jm' stands_before 'ci high' 'ci jm'
holds 'it says which crate it is at' grep -q '^jm: proving high, crate 3 of 4$' got.err
same 'each line of a build begins with the name' '' "$(grep -v '^jm: ' got.err)"
same 'no room is left' '' "$(ls -d "$tree"/crates/jm/out/rooms 2>/dev/null)"
start jm status 0
asked 'a second start asks rt for nothing' ''
edit side/src/lib.rt 'yet another source'
start jm status 0
asked 'an edited source is proved, with what stands above it' 'ci side' 'ci high' 'ci jm'
start jm-picture a word
asked 'a second program takes what the first has proved' 'ci draw' 'ci jm_picture'
edit high/src/lib.rt 'a fault'
start jm status 0
same 'a failed build ends with 1' 1 "$status"
holds 'the crate that failed is named' grep -qx 'jm: high could not be proved or built' got.err
holds 'its own error is told' grep -qx 'error: high has a fault' got.err
edit high/src/lib.rt 'refused words'
start jm status 0
holds 'what rt says of a text is told' grep -qx 'rt: high has refused words' got.err
edit high/src/lib.rt 'mended'
start jm status 0
asked 'what was proved of the same text is kept' ''
same 'the program runs' 0 "$status"
edit low/src/lib.rt 'one more source'
FREE=1 start jm status 0
asked 'where memory is little each crate is a whole library' 'lib low' 'lib side' 'lib high' 'run jm'
holds 'and that is told' grep -q '^jm: .* whole libraries: .* GB are free' got.err
edit low/src/lib.rt 'and one more'
WITHOUT=copy_crates start jm status 0
asked 'so is it over another rt' 'lib low' 'lib high' 'run jm'
same 'the program runs' 0 "$status"
PATH=$beside

# rt missing
forget_builds
if env PATH=/usr/bin:/bin sh -c 'command -v rt' >/dev/null; then
    fail 'rt stands in /usr/bin or /bin, so nothing can be started without it'
else
    env PATH=/usr/bin:/bin "$tree/jm" >got.out 2>got.err </dev/null
    same 'without rt the status is 1' 1 $?
    holds 'without rt it says what is wanted' grep -q '^jm: rt, the command of the toolchain .* README.md' got.err
fi

# over pipes and files the program stands in the launcher's place
start jm status 0
for wanted in 0 2 7 77 130 255; do
    start jm status $wanted
    same "a status is handed on" $wanted "$status"
done
for signal in TERM KILL ABRT PIPE; do
    start jm signal $signal
    same "the program ended by $signal" "$signal" "$(kill -l "$status")"
done
"$tree/jm" number >got.out &
wait $!
same 'the program has the number of the launcher' $! "$(cat got.out)"
same 'standard input is handed on' 'some text' "$(echo 'some text' | "$tree/jm" input)"
unset GLIBC_TUNABLES
same 'the C library is asked for large pages' glibc.malloc.hugetlb=1 "$("$tree/jm" tunables)"
same 'unless it is told otherwise' glibc.malloc.hugetlb=0 "$(GLIBC_TUNABLES=glibc.malloc.hugetlb=0 "$tree/jm" tunables)"

# links
mkdir -p elsewhere/deep
ln -s "$tree/jm" elsewhere/absolute
ln -s ../absolute elsewhere/deep/relative
for each in elsewhere/absolute elsewhere/deep/relative; do
    same "$each leads to the launcher" 'jm over 1 words: word' "$("$each" word)"
done
same 'found on the path' 'jm over 1 words: word' "$(env PATH="$room/elsewhere:$PATH" absolute word)"
same 'read by a shell' 'jm over 1 words: word' "$(cd "$tree" && sh jm word)"
same 'by a path that goes up' 'jm over 1 words: word' "$(cd "$tree/tools" && CDPATH=/ ../jm word)"

# on_terminal COMMAND: runs a command on a pseudo terminal with what comes on standard input typed; leaves what the
# terminal shows in got.out
on_terminal() { SHELL=/bin/sh script -qec "$1" /dev/null >got.out 2>got.err; }

# ends STATUS COMMAND: the command ends so on a terminal
ends() {
    on_terminal "$2" </dev/null
    same "$2: the status" "$1" $?
}

# once_at_work TEXT: waits for the program, types a text, and keeps the terminal until the program is gone
once_at_work() {
    until_so test -e work && printf '%b' "$1"
    until_so is_gone "$(cat work)"
    sleep 0.3
}

# The program is at work: runs a command on a terminal, types, and shows that the line was blanked last of all.
blanks() {
    rm -f work
    once_at_work "$1" | on_terminal "$3"
    same "$3: the status" "$2" $?
    same "$3: the program is gone" gone "$(is_gone "$(cat work)" && echo gone)"
    holds "$3: the program had shown its line" grep -q 'jm: 42 % done' got.out
    same "$3: the line is blanked" "$(printf '\r%20s\r.' '')" "$(tail -c 22 got.out)."
    same "$3: nothing else is shown" "$(printf 'jm: 42 %% done\r.')" "$(head -c -22 got.out | sed 's/\^[C\\]//')."
}

if ! command -v script >/dev/null; then
    fail 'script (util-linux) is not there, so nothing was tried on a terminal'
else
    jm="'$tree/jm'"
    for wanted in 0 7 77 130 255; do
        ends $wanted "exec $jm status $wanted"
    done
    ends 137 "exec $jm signal KILL"
    ends 141 "exec $jm signal PIPE"
    ends 0 "echo input | $jm input"
    same 'standard input is handed on' 'input' "$(tr -d '\r' <got.out)"
    printf 'a line\n\004' | on_terminal "exec $jm input"
    same 'so is that of the terminal' 2 "$(grep -c 'a line' got.out)"
    echo 'ninth' >ninth
    ends 0 "exec $jm nine 9<ninth"
    same 'so is 9' 'ninth' "$(tr -d '\r' <got.out)"
    ends 0 "exec $jm status 0 <&-"

    blanks '\003' 130 "exec $jm work '$room/work'"
    blanks '\034' 131 "ulimit -c 0; exec $jm work '$room/work'"
    blanks '\003' 130 "bash -c \"$jm work '$room/work'; echo behind\""
    holds 'what stands behind it in a script is not run' lacks behind got.out
    for signal in TERM HUP; do
        rm -f work
        (until_so test -e work && kill -$signal "$(cat work.launcher)") &
        once_at_work '' | on_terminal "exec $jm work '$room/work'"
        same "$signal is what ended the launcher" $signal "$(kill -l $?)"
        same "$signal ends the program, too" gone "$(is_gone "$(cat work)" && echo gone)"
    done

    # an interrupted build
    forget_builds
    : >rt.log
    export SLOW=1
    { until_so grep -q 'lib low' rt.log && printf '\003' && sleep 2; } | on_terminal "exec $jm"
    holds 'an interrupted build says so' grep -q 'jm: interrupted; what was proved is kept' got.out
    holds 'it builds nothing more' lacks 'run jm' rt.log
    unset SLOW
    start jm status 0
    same 'the next start goes on' 0 "$status"
fi

echo "$passed passed, $failed failed"
[ "$failed" = 0 ]

#!/bin/sh
# Joins small files again and again, each time with another allocation refused, until none is refused: by their numbers, by
# numbers with `--early`, and in a run whose grid changes twice, all with threads. Each run must end with the right output,
# or with want of memory; then nothing is written, but early lines of the output, none twice, the last perhaps cut.
# It works on a copy of the crates and proves nothing. It is no part of the gate.
set -eu
top=$(cd "$(dirname "$0")/.." && pwd -P)
room=$(mktemp -d)
trap 'rm -rf "$room"' EXIT
(cd "$top" && tar cf - --exclude=out crates crates.txt HANDLES) | (cd "$room" && tar xf -)
cd "$room/crates/join_cli_tests"
rm -rf src/tests

# Test number n takes memory n times before it begins, so one build tries as many allocations of the join as there
# are tests: the refused one less n.
tests=320

# write_tests WORDS R S OUTPUT EARLY, each but the last as the code of a list of texts or of bytes
write_tests() {
    cat <<RT
use join_cli::join_main;
use join_rows::{ListSink, MapShelf};
use std::alloc::{AllocError, Global};
use std::sync::Wait;
use std::test::Fail;
use std::thread::Threads;
use worker_gate::NoGate;

const OUTPUT: &str = "$4";

const EARLY: bool = $5;

fn words(alloc: Global) -> Result<Vec<String>, AllocError> {
    let mut words = Vec::new(alloc);
    for word in [$1] {
        words.push(String::from_str(alloc, word)?)?;
    }
    Ok(words)
}

// How often a text has this line.
fn times(text: &str, line: &str) -> u32 {
    let mut times = 0;
    for other in text.split('\\n') {
        if other == line {
            times += 1;
        }
    }
    times
}

// Whether the bytes are lines of the output, none twice, the last perhaps cut.
fn are_lines(written: &[u8]) -> bool {
    let Ok(text) = std::str::from_utf8(written) else {
        return false;
    };
    let (whole, cut) = match text.rfind('\\n') {
        Some(end) => (&text[..end], &text[end + 1..]),
        None => ("", text),
    };
    for line in whole.split('\\n') {
        if !whole.is_empty() && (times(whole, line) != 1 || times(OUTPUT, line) != 1) {
            return false;
        }
    }
    let mut begins = cut.is_empty();
    for line in OUTPUT.split('\\n') {
        begins = begins || line.starts_with(cut);
    }
    begins
}

fn is_right(written: &[u8]) -> bool {
    if EARLY {
        are_lines(written) && written.len() == OUTPUT.len()
    } else {
        written == OUTPUT.as_bytes()
    }
}

// Whether the output is right, or else memory is wanting and nothing is written that may not be.
fn joins_after<R: Threads + Wait + Sync>(rt: &R, alloc: Global, taken: u32) -> Result<bool, AllocError> {
    for _ in 0..taken {
        let byte = Vec::from_slice(alloc, b"x")?;
        drop(byte);
    }
    let mut shelf = MapShelf::new(alloc);
    shelf.add("r", b"$2")?;
    shelf.add("s", b"$3")?;
    let mut sink = ListSink::new(alloc, 1000)?;
    let words = words(alloc)?;
    let outcome = join_main(rt, alloc, &words, &mut shelf, &mut sink, &NoGate);
    let written = sink.written();
    if outcome.status() == 8 && (written.is_empty() || EARLY && are_lines(written)) {
        return Err(AllocError);
    }
    Ok(outcome.status() == 0 && is_right(written))
}
RT
    n=0
    while [ "$n" -lt "$tests" ]; do
        printf '\n#[test]\nfn after_%d(rt: HostRuntime) -> Result<(), Fail> {\n    assert!(rt; joins_after(&rt, rt.alloc(), %d)?);\n    Ok(())\n}\n' "$n" "$n"
        n=$((n + 1))
    done
}

# Refuses each allocation in turn.
refuse_each() {
    refused=$tests
    lacking=0
    while :; do
        rt try --test --fail-alloc "$refused" >log 2>&1 || :
        # A test that failed has want of memory as its cause, and no other line than these.
        if grep -v -e '^tests: ' -e '^test tests::after_.* \(ok\|FAILED\)$' -e '^test result: ' -e '^run=ended ' -e '^races: ' \
            -e '^    error: AllocError$' -e '^    the test failed: its result gives status 1$' \
            -e '^    the test exited with status 101$' log >odd; then
            echo "FAILED where allocation $((refused - tests + 1)) or one of the $((tests - 1)) after it is refused:"
            cat log
            exit 1
        fi
        ended=$(grep -c '^test tests::after_.* \(ok\|FAILED\)$' log || :)
        failures=$(grep -c '^    error: AllocError$' log || :)
        if [ "$ended" -ne "$tests" ] || [ "$failures" -ne "$(grep -c ' FAILED$' log || :)" ]; then
            echo "FAILED: not each test ended, or one failed with no want of memory:"
            cat log
            exit 1
        fi
        lacking=$((lacking + failures))
        [ "$failures" -gt 0 ] || break
        echo "allocations $((refused - tests + 1)) to $refused: $failures runs lacked memory, $((tests - failures)) gave the right output"
        refused=$((refused + tests))
    done
    echo "$1: $lacking runs lacked memory, and each other gave the right output"
}

equal='"jm", "--on", "r.x = s.y", "r", "s"'
write_tests "$equal" 'id,x\n1,10\n2,20\n3,30\n' 'id,y\n1,20\n2,30\n3,20\n' '2,1\n2,3\n3,2\n' false >src/tests.rt
refuse_each 'equal numbers'
write_tests "$equal, \"--early\"" 'id,x\n1,10\n2,20\n3,30\n' 'id,y\n1,20\n2,30\n3,20\n' '2,1\n2,3\n3,2\n' true >src/tests.rt
refuse_each 'early pairs'
# The grid has one column after the eight rows of R, and two after those of S.
ones='1\n1\n1\n1\n1\n1\n1\n1\n'
output=
for i in 1 2 3 4 5 6 7 8; do
    for j in 1 2 3 4 5 6 7 8; do output="$output$i,$j\\n"; done
done
write_tests '"jm", "--on", "1 = 1", "--feeders", "1", "--batch", "4", "--feed", "rfirst", "r", "s"' "x\\n$ones" "y\\n$ones" "$output" false >src/tests.rt
refuse_each 'two changes of the grid'
echo ok

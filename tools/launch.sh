# shellcheck shell=sh
# Sourced by the launchers at the top of the tree: starts a program of crates/, built first where it isn't built or a
# source of it is newer. A launcher sets self, its own path, with a slash in it and not that of a link, and calls
#   make_ready CRATE TIME [HINT]   builds that crate's program where that is needed; TIME says how long a first build
#                            takes, and HINT is told once it is built
# and then either exec "$program" or, if the program shows on a terminal how far it has come,
#   run_clearing WORDS..     runs it, and leaves no line of it on the terminal that is half done

# shellcheck disable=SC2154
top=${self%/*}
name=${self##*/}
unset CDPATH

# Whether the program is built and no source of it is newer. What it does, and what is proved of it, stands in src and
# specs of its crate and those below it. A proof changes neither, so proofs, most of the files, aren't looked at. What
# can't be read counts as newer.
is_fresh() {
    # (sources is a list)
    # shellcheck disable=SC2086
    [ -x "$program" ] && [ -z "$(
        cd -- "$top/crates" && exec find ../crates.txt $sources -type f \
            \( -name '*.rt' -o -name '*.antt' -o -name crates.txt \) -newer "$crate/out/$crate" 2>&1
    )" ]
}

# Builds the program where that is needed, and ends with 1 where it can't be built. The list of the folders to look at,
# which crates.txt tells, is kept from the last build.
make_ready() {
    crate=$1
    program=$top/crates/$crate/out/$crate
    list=$top/crates/$crate/out/sources
    # (-nt is in POSIX since 2024, and was in the shells long before)
    # shellcheck disable=SC3013
    if [ "$list" -nt "$top/crates.txt" ]; then
        # shellcheck source=/dev/null
        . "$list"
        ! is_fresh || return 0
    fi
    . "$top/tools/build.sh"
    build_once "$2" "${3:-}" || exit 1
}

# Ends by a signal, as the program would, but without a core, which would be the shell's and lie over the program's.
end_as_by() {
    # (-c is in POSIX since 2024)
    # shellcheck disable=SC3045
    ulimit -c 0
    kill -"$1" $$ 2>/dev/null
}

# Ends the program, blanks its line, and ends by the signal that came, so that whoever started the launcher sees it.
# What a shell starts in the background ignores INT and QUIT, so the program always gets TERM.
end_by() {
    trap '' INT QUIT TERM HUP
    if [ -n "$!" ]; then
        kill -TERM "$!" 2>/dev/null
        wait "$!" 2>/dev/null
    fi
    printf '\r                    \r' >&2
    trap - "$1"
    end_as_by "$1"
}

# Runs a program that shows on a terminal how far it has come. At an interrupt its line would stay, and the prompt be
# written over it; so it runs as a child of the launcher there, which blanks the line. (In the background, since a shell
# heeds signals while it stands at `wait`; by 9, since what is in the background has no standard input else.) Where
# standard error is no terminal, 9 is in use, or standard input is closed, it runs in the launcher's place.
run_clearing() {
    # (the C library then asks for large pages, unless it is told otherwise: a tenth less time over large files)
    export GLIBC_TUNABLES="${GLIBC_TUNABLES-glibc.malloc.hugetlb=1}"
    if [ ! -t 2 ] || [ -e /dev/fd/9 ] || [ ! -e /dev/fd/0 ]; then
        exec "$program" "$@"
    fi
    for signal in INT QUIT TERM HUP; do
        # shellcheck disable=SC2064
        trap "end_by $signal" "$signal"
    done
    exec 9<&0
    "$program" "$@" <&9 9<&- &
    # (what ended the program is told by the shell that started the launcher)
    wait "$!" 2>/dev/null
    status=$?
    trap - INT QUIT TERM HUP
    [ "$status" -le 128 ] || end_as_by $((status - 128))
    exit "$status"
}

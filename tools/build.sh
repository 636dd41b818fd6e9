# shellcheck shell=sh
# Sourced by launch.sh where a program may not be built: proves the libraries below it side by side, and builds it.
# From there come name, crate, top, program, list and is_fresh.

# shellcheck disable=SC2154
top=$(cd -- "$top/" && pwd -P) || exit 1
program=$top/crates/$crate/out/$crate
list=$top/crates/$crate/out/sources
log=$top/crates/$crate/out/build.log

# What all programs of the tree have in common. (rt ci refuses sources outside of crates/, and those of an interrupted
# build may stay in the rooms.)
shared=$top/crates/jm/out
rooms=$shared/rooms
lock=$shared/lock
kit=$shared/kit

# The lines of crates.txt, each with the number of the crate's lines of code: "crate lines: used ..".
sized_crates() {
    sed 's/#.*//' "$top/crates.txt" | while IFS=: read -r left used; do
        one=${left%% *}
        [ -z "$one" ] || echo "$one $(cat "$top/crates/$one"/src/*.rt | wc -l):$used"
    done
}

# The crates that the program stands on, and its own. Each line has a crate, "chain" or "beside" as the longest way up to
# the program through it is nearly the longest of all or not (nineteen twentieths, by lines of code), and then the crates
# that it uses. Those with the most above them come first, so each stands behind those that it uses.
plan_build() {
    sized_crates | awk -F: -v top="$crate" '
        { split($1, words, " "); name = words[1]; size[name] = words[2] + 100; uses[name] = $2 }
        function reach(name, used, i, n) {
            if (name in seen || !(name in uses)) return
            seen[name] = 1
            n = split(uses[name], used, " ")
            for (i = 1; i <= n; i++) {
                reach(used[i])
                if (below[name] < below[used[i]] + size[used[i]]) below[name] = below[used[i]] + size[used[i]]
            }
            order[++count] = name
        }
        END {
            reach(top)
            for (at = count; at >= 1; at--) {
                name = order[at]
                above[name] += size[name]
                n = split(uses[name], used, " ")
                for (i = 1; i <= n; i++) if (above[name] > above[used[i]]) above[used[i]] = above[name]
            }
            longest = below[top] + size[top]
            for (at = 1; at <= count; at++) {
                name = order[at]
                kept = ""
                n = split(uses[name], used, " ")
                for (i = 1; i <= n; i++) if (used[i] in seen) kept = kept " " used[i]
                print above[name], name, (20 * (below[name] + above[name]) >= 19 * longest ? "chain" : "beside") kept
            }
        }
    ' | sort -rn | cut -d' ' -f2-
}

# Sets sources to the folders whose files make the program, and keeps them for the next start, where that can be done.
list_sources() {
    sources=
    for each in $(plan_build | cut -d' ' -f1); do
        for part in src specs; do
            [ ! -d "$top/crates/$each/$part" ] || sources="$sources $each/$part"
        done
    done
    { echo "sources='$sources'" >"$list.$$" && mv -f "$list.$$" "$list"; } 2>/dev/null
}

# All crates that this one stands on.
all_below() {
    awk -v name="$1" '
        { for (i = 3; i <= NF; i++) uses[$1] = uses[$1] " " $i }
        function reach(crate, used, i, n) {
            n = split(uses[crate], used, " ")
            for (i = 1; i <= n; i++) if (!(used[i] in seen)) { seen[used[i]] = 1; reach(used[i]); print used[i] }
        }
        END { reach(name) }
    ' "$rooms/plan"
}

# Proves a library in a room of its own, over what those below it left: `rt` lets only one command at a time into the
# crates that two of them use. What it leaves comes back to its folder.
prove() {
    room=$rooms/$1/crates
    mkdir -p "$room"
    cp "$top/HANDLES" "$rooms/$1"
    for each in $(all_below "$1") "$1"; do
        grep "^${each}[ :]" "$top/crates.txt" >>"$rooms/$1/crates.txt"
        mkdir -p "$room/$each/out"
        for part in src specs proofs; do
            [ ! -d "$top/crates/$each/$part" ] || cp -R "$top/crates/$each/$part" "$room/$each"
        done
        [ "$each" = "$1" ] || cp -Rl "$top/crates/$each/out/rlib" "$room/$each/out"
    done
    [ ! -d "$top/crates/$1/out" ] || { rmdir "$room/$1/out" && mv "$top/crates/$1/out" "$room/$1"; }
    if [ "$2" = chain ] || [ "$places" = 1 ]; then
        (cd "$room/$1" && rt lib --jobs "$processors")
    else
        (cd "$room/$1" && nice -n 19 rt lib --jobs 1)
    fi
    proved=$?
    mv "$room/$1/out" "$top/crates/$1"
    rm -rf "${rooms:?}/$1"
    return $proved
}

# Proves a crate and says in a file how it ended.
prove_and_tell() {
    if prove "$@" >"$rooms/$1.log" 2>&1; then
        touch "$rooms/$1.proved"
    else
        echo "$1" >>"$rooms/failed"
    fi
}

# Whether each crate below this one is proved.
is_ready() {
    for below in $(all_below "$1"); do
        [ -e "$rooms/$below.proved" ] || return 1
    done
}

# Whether what an earlier proof of a crate left is newer than its files, than what those that it uses left, and than
# this kit. (Dates may mislead, after a copy say: the program's own build compares sums, and proves what is left.)
is_kept() (
    cd -- "$top/crates" && [ -e "$1/out/rlib/stamp" ] && is_ready "$1" || exit 1
    older=jm/out/kit
    uses=$(sed -n "s/^$1 [a-z]*//p" "$rooms/plan")
    for used in $uses; do
        older="$older $used/out/rlib/stamp"
    done
    for part in src specs proofs; do
        [ ! -d "$1/$part" ] || older="$older $1/$part"
    done
    # shellcheck disable=SC2086 # (a list)
    [ -z "$(find $older -type f \( -name '*.rt' -o -name '*.antt' -o -name stamp -o -name kit \) \
        -newer "$1/out/rlib/stamp" 2>&1)" ]
)

# Marks the libraries that an earlier build, also of another program, has proved.
mark_kept() {
    version=$(rt version 2>&1)
    [ "$version" = "$(cat "$kit" 2>/dev/null)" ] || echo "$version" >"$kit"
    while read -r each _; do
        if [ "$each" != "$crate" ] && is_kept "$each"; then
            touch "$rooms/$each.begun" "$rooms/$each.proved"
            begun_count=$((begun_count + 1))
        fi
    done <"$rooms/plan"
}

# How many files there are of a kind: "begun" or "proved".
count_of() {
    set -- "$rooms"/*."$1"
    if [ -e "$1" ]; then echo $#; else echo 0; fi
}

# How many crates are begun and have not ended.
count_running() {
    echo $(($(count_of begun) - $(count_of proved)))
}

# Whether there is a place for one more crate. Where several stand side by side, one of the longest ways up has a place
# more, so that it never waits for one that stands on none of them.
has_place() {
    most=$places
    if [ "$1" = chain ] && [ "$places" -gt 1 ]; then most=$((places + 1)); fi
    [ "$(count_running)" -lt "$most" ]
}

# Begins the first crate that is ready, has a place and is not begun, where there is one.
begin_one() {
    while read -r each way _; do
        if [ "$each" != "$crate" ] && [ ! -e "$rooms/$each.begun" ] && has_place "$way" && is_ready "$each"; then
            touch "$rooms/$each.begun"
            begun_count=$((begun_count + 1))
            echo "$name: proving $each, crate $begun_count of $crate_count" >&2
            prove_and_tell "$each" "$way" &
            return
        fi
    done <"$rooms/plan"
    return 1
}

# Proves the libraries side by side: those on the longest ways up to the program with all processors, the others behind
# them. Where memory is too little for that they are proved one by one, each with all processors.
prove_libraries() {
    while [ -d "$rooms" ] && [ ! -e "$rooms/failed" ]; do
        [ "$(count_of proved)" -lt $((crate_count - 1)) ] || return 0
        begin_one || sleep 1
    done
    [ ! -e "$rooms/failed" ] || echo "$name: $(head -n 1 "$rooms/failed") failed; waiting for what is under way" >&2
    wait
    return 1
}

# Takes back what libraries have kept in the rooms of a build that was interrupted.
leave_rooms() {
    for room in "$rooms"/*/; do
        each=$(basename "$room")
        if [ -d "$room/crates/$each/out" ] && [ ! -e "$top/crates/$each/out" ]; then
            mv "$room/crates/$each/out" "$top/crates/$each"
        fi
    done
    rm -rf "$rooms"
}

# How many GB of memory are free.
free_memory() {
    awk '/^MemAvailable/ { gb = int($2 / 1048576) } END { print gb + 0 }' /proc/meminfo 2>/dev/null
}

# Says why a build failed: the crate, and the first lines of its log that speak of an error.
tell_failure() {
    failed=$(head -n 1 "$rooms/failed" 2>/dev/null || echo "$crate")
    [ ! -e "$rooms/$failed.log" ] || cp "$rooms/$failed.log" "$log"
    echo "$name: $failed could not be proved or built" >&2
    grep -m 5 -e 'error' -e '^rt: ' "$log" >&2 || tail -n 5 "$log" >&2
    echo "$name: the whole log is $log; what was proved is kept, and the next start goes on from there" >&2
}

# Proves the crates and builds the program over the statements of what lies below each, as `rt ci` does. Fails where that
# can't be done here; where a crate was refused, that stands in a file.
build_over_statements() {
    python3 "$top/tools/prove.py" "$top" "$crate" "$name"
    case $? in
        0 | 4) ;;
        *)
            rm -f "$rooms"/*.log "$rooms"/*.proved
            return 1
            ;;
    esac
}

# Proves the crates and builds the program over whole libraries, by `rt lib` and `rt run`.
build_over_libraries() {
    processors=$(nproc 2>/dev/null || echo 1)
    places=1
    free=$(free_memory)
    [ "${free:-0}" -ge 16 ] && places=4
    plan_build >"$rooms/plan"
    crate_count=$(wc -l <"$rooms/plan")
    begun_count=0
    mark_kept
    if prove_libraries; then
        echo "$name: proving $crate, crate $crate_count of $crate_count" >&2
        (cd "$top/crates/$crate" && rt run) >"$rooms/$crate.log" 2>&1
    fi
}

# Proves the libraries and builds the program.
build() {
    if ! command -v rt >/dev/null; then
        echo "$name: rt, the command of the toolchain (rattle-kit), is not on the path;" \
            'README.md says what is wanted' >&2
        return 1
    fi
    echo "$name: building; every crate is proved first, which may take $1 on a fresh machine" >&2
    leave_rooms
    mkdir -p "$rooms"
    touch "$rooms/started"
    rm -f "$program"
    # (what works side by side in the background would outlive an interrupt)
    trap 'trap - INT; echo "$name: interrupted; what was proved is kept" >&2; kill 0' INT
    build_over_statements || build_over_libraries
    trap - INT
    if [ ! -x "$program" ]; then
        tell_failure
        rm -rf "$rooms"
        return 1
    fi
    # (a source that was edited in the meantime is newer)
    touch -r "$rooms/started" "$program"
    rm -rf "$rooms"
    [ -z "$2" ] || echo "$name: $2" >&2
}

# Builds under a lock, where the system has one: of two first runs in one tree, also of two programs, the second waits,
# and takes what the first built.
build_once() {
    mkdir -p "$shared" "$top/crates/$crate/out"
    list_sources
    ! is_fresh || return 0
    (
        if command -v flock >/dev/null && ! flock -n 9; then
            echo "$name: another run builds in this tree; waiting for it" >&2
            flock 9
        fi
        is_fresh || build "$1" "$2" 9>&-
    ) 9>"$lock" </dev/null
}

#!/bin/sh
# Copies the built programs, jm-rows, the man page and the completions of three shells to a place of their own:
#   ./install.sh PREFIX
# What isn't built is built first, as ./jm, ./jm-picture, ./jm-why and ./jm-journal do it at their first run: each is
# run once here, over a made table. Nothing that is copied looks back at this tree. Each file that was written is told
# on standard output.

if [ $# != 1 ] || [ -z "$1" ]; then
    echo 'usage: install.sh PREFIX' >&2
    exit 2
fi
prefix=$1
top=$(cd "$(dirname "$0")" && pwd -P) || exit 1

report=$("$top/jm" --on '1 = 1' --make 1 --report </dev/null) || exit 1
echo "$report" | "$top/jm-picture" >/dev/null || exit 1
"$top/jm-why" --on '1 = 1' --make 1 >/dev/null || exit 1
"$top/jm-journal" --on '1 = 1' --make 1 </dev/null >/dev/null || exit 1

# put MODE FILE PLACE: copies a file; one of that name, which may be at work, is replaced whole
put() {
    mkdir -p "$(dirname "$prefix/$3")" &&
        cp "$top/$2" "$prefix/$3.new" &&
        chmod "$1" "$prefix/$3.new" &&
        mv -f "$prefix/$3.new" "$prefix/$3" &&
        echo "$prefix/$3"
}

# another NAME PLACE: a second name, in the same folder
another() {
    rm -f "$(dirname "$prefix/$2")/$1" &&
        ln -s "$(basename "$2")" "$(dirname "$prefix/$2")/$1" &&
        echo "$(dirname "$prefix/$2")/$1"
}

put 755 crates/jm/out/jm bin/jm &&
    put 755 crates/jm_picture/out/jm_picture bin/jm-picture &&
    put 755 crates/jm_why/out/jm_why bin/jm-why &&
    put 755 crates/jm_journal/out/jm_journal bin/jm-journal &&
    put 755 jm-rows bin/jm-rows &&
    put 644 docs/jm.1 share/man/man1/jm.1 &&
    another jm-rows.1 share/man/man1/jm.1 &&
    another jm-picture.1 share/man/man1/jm.1 &&
    another jm-why.1 share/man/man1/jm.1 &&
    another jm-journal.1 share/man/man1/jm.1 &&
    put 644 completions/jm.bash share/bash-completion/completions/jm &&
    another jm-rows share/bash-completion/completions/jm &&
    another jm-why share/bash-completion/completions/jm &&
    another jm-journal share/bash-completion/completions/jm &&
    put 644 completions/_jm share/zsh/site-functions/_jm &&
    put 644 completions/jm.fish share/fish/vendor_completions.d/jm.fish &&
    another jm-rows.fish share/fish/vendor_completions.d/jm.fish &&
    another jm-why.fish share/fish/vendor_completions.d/jm.fish &&
    another jm-journal.fish share/fish/vendor_completions.d/jm.fish

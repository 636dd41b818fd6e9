# Completion of jm, jm-rows, jm-why and jm-journal in bash: the options and their values, files, and in the text of
# --on (and in the list of --columns) the names of the two files' columns behind r. and s., where the files stand on the
# line. jm-rows, beside jm or on the path, reads the headers.

# _jm_plain WORD: the word without its quotes in _jm_word, and in _jm_quote the quote that is left open
_jm_plain() {
    local raw=$1 c i
    _jm_word=
    _jm_quote=
    if [[ $raw == \~/* ]]; then
        _jm_word=$HOME
        raw=${raw:1}
    fi
    for ((i = 0; i < ${#raw}; i++)); do
        c=${raw:i:1}
        case $_jm_quote$c in
            "''" | '""') _jm_quote= ;;
            "'" | '"') _jm_quote=$c ;;
            \\)
                i=$((i + 1))
                _jm_word+=${raw:i:1}
                ;;
            '"\')
                [[ ${raw:i+1:1} == [\"\\\$\`] ]] && i=$((i + 1))
                _jm_word+=${raw:i:1}
                ;;
            *) _jm_word+=$c ;;
        esac
    done
}

# the part of the line's word at hand that stands before the cursor in _jm_cur, and what stands behind it in _jm_tail
_jm_current() {
    local i at=0 before
    for ((i = 0; i < COMP_CWORD; i++)); do
        before=${COMP_LINE:at}
        before=${before%%"${COMP_WORDS[i]}"*}
        at=$((at + ${#before} + ${#COMP_WORDS[i]}))
    done
    while ((at < COMP_POINT)) && [[ ${COMP_LINE:at:1} == [[:blank:]] ]]; do at=$((at + 1)); done
    _jm_cur=${COMP_LINE:at:COMP_POINT-at}
    _jm_tail=${COMP_WORDS[COMP_CWORD]:${#_jm_cur}}
}

# the words of the line that are files, in _jm_files; those behind an open quote count, too
_jm_find_files() {
    local i word rest words=("${COMP_WORDS[@]}") only=
    words[COMP_CWORD]=
    _jm_plain "$_jm_cur"
    if [[ $_jm_quote && $_jm_tail != *"$_jm_quote"* ]]; then
        read -ra rest <<<"$_jm_tail"
        words+=("${rest[@]}")
    fi
    _jm_files=()
    for ((i = 1; i < ${#words[@]}; i++)); do
        word=${words[i]}
        [[ $word ]] || continue
        if [[ ! $only ]]; then
            case $word in
                --early | --report | --rows) continue ;;
                --)
                    only=yes
                    continue
                    ;;
                --*)
                    [[ ${words[i + 1]-} == '=' ]] && i=$((i + 1))
                    i=$((i + 1))
                    continue
                    ;;
            esac
        fi
        case $word in
            *[\<\>]*) i=$((i + 1)) ;;
            *)
                _jm_plain "$word"
                _jm_files+=("$_jm_word")
                ;;
        esac
    done
}

# _jm_names SIDE: the names of that file's columns, one a line, each as a predicate spells it; those without a line end
_jm_names() {
    local rows=${COMP_WORDS[0]} file
    _jm_find_files
    case $1 in
        r) file=${_jm_files[0]-} ;;
        s) file=${_jm_files[1]-} ;;
    esac
    _jm_plain "$rows"
    case $_jm_word in
        */*) rows=${_jm_word%/*}/jm-rows ;;
        *) rows=jm-rows ;;
    esac
    [[ -f $file ]] || return
    "$rows" --names "$file" 2>/dev/null | LC_ALL=C grep -Ex '[A-Za-z_][A-Za-z0-9_]*|"([^"[:cntrl:]]|"")*"'
}

# a text as it stands within the open quote, or without one
_jm_within_quote() {
    case $_jm_quote in
        \') REPLY=${1//\'/\'\\\'\'} ;;
        \")
            REPLY=${1//\\/\\\\}
            REPLY=${REPLY//\"/\\\"}
            REPLY=${REPLY//\$/\\\$}
            REPLY=${REPLY//\`/\\\`}
            ;;
        *) printf -v REPLY %q "$1" ;;
    esac
}

# the columns behind the r. or s. with which the text before the cursor ends; those that need quotes of their own come
# where no other begins so
_jm_columns() {
    local front side partial name plain=() quoted=() REPLY
    [[ $_jm_cur =~ ^((.*[^A-Za-z0-9_])?([rs])\.)(\\?\"[^\"]*|[A-Za-z0-9_]*)$ ]] || return
    front=${BASH_REMATCH[1]}
    side=${BASH_REMATCH[3]}
    partial=${BASH_REMATCH[4]#\\}
    while read -r name; do
        if [[ $name == "$partial"* ]]; then
            plain+=("$name")
        elif [[ $name == '"'"$partial"* ]]; then
            quoted+=("$name")
        fi
    done < <(_jm_names "$side")
    ((${#plain[@]})) || plain=("${quoted[@]}")
    _jm_plain "$_jm_cur"
    [[ $_jm_quote && $_jm_cur == "$_jm_quote"* ]] && front=${front:1}
    for name in "${plain[@]}"; do
        _jm_within_quote "$name"
        COMPREPLY+=("$front$REPLY")
    done
    # a single reply would have the quote closed behind it; of two with one beginning it isn't
    [[ $_jm_quote && ${#COMPREPLY[@]} == 1 ]] && COMPREPLY+=("${COMPREPLY[0]} ")
    compopt -o nospace 2>/dev/null
}

# _jm_range TEXT: where nothing is written yet, what may be; two replies without a common beginning are only shown
_jm_range() {
    [[ $_jm_cur ]] || COMPREPLY=("$1" ' ')
}

# _jm_one_of WORDS: those that begin as what is written
_jm_one_of() {
    mapfile -t COMPREPLY < <(compgen -W "$1" -- "$_jm_cur")
}

_jm() {
    local program=${COMP_WORDS[0]##*/} option=${COMP_WORDS[COMP_CWORD - 1]}
    local _jm_cur _jm_tail _jm_word _jm_quote _jm_files
    local options='--on --joiners --feeders --workers --batch --feed --seed --fixed --weight-r --weight-s
        --replay --early --report --rows --groups --rings --make'
    [[ $program == jm-rows ]] && options+=' --columns --names' || options+=' --then --grow'
    COMPREPLY=()
    _jm_current
    if [[ $_jm_cur == '=' ]]; then
        _jm_cur=
    elif [[ $option == '=' ]]; then
        option=${COMP_WORDS[COMP_CWORD - 2]}
    fi
    case $option in
        --on | --columns) _jm_columns ;;
        --then) ;;
        --joiners) _jm_one_of '1 2 4 8 16 32 64' ;;
        --feeders) _jm_one_of '1 2 3 4 5 6 7 8' ;;
        --workers) _jm_one_of '1 2 3 4 5 6 7 8 9 10 11 12 13 14 15 16' ;;
        --feed) _jm_one_of 'alternate rfirst sfirst' ;;
        --fixed) _jm_one_of '0 1 2 3 4 5 6' ;;
        --grow) _jm_one_of '1 2 3' ;;
        --batch) _jm_range 'from 1 to 4096' ;;
        --weight-r | --weight-s) _jm_range 'from 1 to 1024' ;;
        --make) _jm_range 'from 1 to 65536' ;;
        --seed | --replay) _jm_range 'from 0 to 18446744073709551615' ;;
        *)
            if [[ $_jm_cur == -* ]]; then
                _jm_one_of "$options"
            else
                compopt -o default 2>/dev/null
            fi
            ;;
    esac
}

complete -F _jm jm jm-rows jm-why jm-journal

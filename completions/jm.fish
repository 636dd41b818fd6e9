# Completion of jm, jm-rows, jm-why and jm-journal in fish: the options and their values, files, and in the text of
# --on (and in the list of --columns) the names of the two files' columns behind r. and s., where the files stand on the
# line. jm-rows, beside jm or on the path, reads the headers.

# the words of the line that are files
function __jm_files
    set -l at (math (count (commandline -opc)) + 1)
    set -l place 1
    set -l value no
    set -l only no
    for word in (commandline -op)[2..]
        set place (math $place + 1)
        if test $value = yes
            set value no
        else if test $place = $at
            continue
        else if test $only = yes
            echo -- $word
        else
            switch $word
                case --
                    set only yes
                case --early --report --rows '--*=*'
                case '--*'
                    set value yes
                case '*'
                    echo -- $word
            end
        end
    end
end

# the word at hand up to the cursor, without its quotes
function __jm_token
    set -l raw (string replace -r -- '^--[a-z]+=' '' (commandline -ct))
    for quote in '' \' \"
        string unescape -- $raw$quote 2>/dev/null; and return
    end
end

# the columns behind the r. or s. with which the text before the cursor ends
function __jm_columns
    set -l parts (string match -rg -- '^((?:.*[^A-Za-z0-9_])?([rs])\.)("[^"]*|[A-Za-z0-9_]*)$' (__jm_token))
    or return
    set -l files (__jm_files)
    set -l file $files[1]
    test $parts[2] = s; and set file $files[2]
    set file (string replace -r '^~/' $HOME/ -- $file)
    test -f "$file"; or return
    set -l rows jm-rows
    set -l command (commandline -op)[1]
    string match -q '*/*' -- $command; and set rows (string replace -r '[^/]*$' '' -- $command)jm-rows
    type -q $rows; or return
    set -l spelled '[A-Za-z_][A-Za-z0-9_]*|"([^"[:cntrl:]]|"")*"'
    for name in ($rows --names $file 2>/dev/null | LC_ALL=C command grep -Ex $spelled)
        printf '%s\tcolumn of %s\n' $parts[1]$name $file
    end
end

for program in jm jm-rows jm-why jm-journal
    complete -c $program -l on -x -d 'the predicate' -a '(__jm_columns)'
    complete -c $program -l joiners -x -d 'how many joiners there are: 1, 2, 4 .. 64, or any number in groups' -a '1 2 4 8 16 32 64'
    complete -c $program -l feeders -x -d 'how many feeders share the rows, from 1 to 8' -a '(seq 8)'
    complete -c $program -l workers -x -d 'how many threads work, from 1 to 16' -a '(seq 16)'
    complete -c $program -l batch -x -d 'how many rows are sent at once, from 1 to 4096'
    complete -c $program -l feed -x -d 'the order of the rows' -a 'alternate rfirst sfirst'
    complete -c $program -l seed -x -d 'where random tickets come from, from 0 to 18446744073709551615'
    complete -c $program -l fixed -x -d 'the shift at which the grid stays, 0 to log2 of the joiners' -a '(seq 0 6)'
    complete -c $program -l weight-r -x -d 'what a row of the first file weighs, from 1 to 1024'
    complete -c $program -l weight-s -x -d 'what a row of the second file weighs, from 1 to 1024'
    complete -c $program -l replay -x -d 'one thread, in this order, from 0 to 18446744073709551615'
    complete -c $program -l early -d 'pairs as they are found'
    complete -c $program -l report -d 'a report follows'
    complete -c $program -l rows -d 'joined rows in place of their numbers'
    complete -c $program -l groups -d 'any number of joiners, in groups'
    complete -c $program -l rings -d 'messages go over rings, and no thread waits'
end
for program in jm jm-why jm-journal
    complete -c $program -l then -x -d 'the predicate of a second join, with a third file'
    complete -c $program -l grow -x -d 'after how many waves each joiner splits into four, from 1 to 3' -a '(seq 3)'
    complete -c $program -l make -x -d 'both tables are made, from 1 to 65536 rows each'
end
complete -c jm-rows -l columns -x -d 'which columns are written' -a '(__jm_columns)'
complete -c jm-rows -l names -r -d "the names of one file's columns"

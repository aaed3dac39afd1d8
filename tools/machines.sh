# show, diff, patch and picture: people's questions on snapshot files, asked of the program `shell`. Read by ./gromedult, which has `fail` and `become`.
# Answers that differ are status 1 of diff alone; whatever is refused or cannot be read is status 2.

# the most bytes of a snapshot and of a list of differences (docs/FORMATS.md), and the last level
longest_snapshot=25440
longest_list=28505
last_level=6

# ---- usage

# Prints how a tool is used.
tool_usage() {
    case $1 in
    show) cat <<'END' ;;
usage: ./gromedult show SNAPSHOT

Prints the machine that a snapshot file holds: its counters, then each level with its pointer and its files by smallest key.
A level is due for compaction at 100 %: level 0 with 4 files, level 1 with 10 MiB, each deeper one with ten times as much.

A key is written user key@sequence, with the word deletion where it is one. A user key that does not print is 0x and hex digits;
one with blanks, quotes or a backslash, or that begins with 0x, stands in quotes.

Status: 0, or 2 if SNAPSHOT cannot be read or is no snapshot.
END
    diff) cat <<'END' ;;
usage: ./gromedult diff [--list OUT] LEFT RIGHT

Compares the machines of two snapshot files. Prints a line for each difference, the left's value before the right's: files by level and
number, then pointers by level, then counters; then a line that counts them. Prints `same` if nothing differs.
A file at another level is only left there and only right here. Keys are written as `./gromedult show --help` says.

  --list OUT   also writes the list of differences to the file OUT, for ./gromedult patch

Status: 0 same, 1 they differ, 2 if a file cannot be read, is no snapshot, or OUT cannot be written.
END
    patch) cat <<'END' ;;
usage: ./gromedult patch LEFT LIST OUT

Applies a list that `./gromedult diff --list` wrote to the machine of the snapshot file LEFT, and writes the outcome's snapshot to OUT.
With the list of LEFT and RIGHT, OUT becomes RIGHT byte for byte. OUT may be LEFT. It is written whole or left as it was.

Status: 0, or 2 if a file cannot be read, is no snapshot or no list, if the list does not fit LEFT, or OUT cannot be written.
END
    picture) cat <<'END' ;;
usage: ./gromedult picture SNAPSHOT [RIGHT] > OUT.svg

Draws the machine of a snapshot file as SVG, for a browser: a row for each level, a bar for each file over the user keys from its smallest
to its largest, darker where the file is larger, and the levels' pointers. Bars say number, size and keys where the mouse rests on them.
With RIGHT it draws both machines: what only the left has and what only the right has in two colours, what is the same in grey.

Status: 0, or 2 if a file cannot be read or is no snapshot.
END
    esac
}

# Ends with a message and the tool's usage: its words are wrong.
misused() {
    printf 'gromedult: %s\n' "$1" >&2
    tool_usage "$tool" >&2
    exit 2
}

# ---- reading files

# Says what is wrong with a file, and goes on: the other file may be wrong too.
complain() {
    printf 'gromedult: %s: %s\n' "$1" "$2" >&2
    trouble=1
}

# Sets hex to a file's bytes in hex digits. $1 the file, $2 what it should be, $3 the most bytes that one has.
read_file() {
    hex=''
    if [ -d "$1" ]; then
        complain "$1" "it is a folder, not a $2"
    elif [ ! -e "$1" ]; then
        complain "$1" "there is no such file"
    elif [ ! -r "$1" ]; then
        complain "$1" "no permission to read it"
    elif ! hex=$(od -An -v -tx1 -N $(($3 + 1)) 2>/dev/null <"$1"); then
        complain "$1" "it cannot be read"
    elif [ -z "$hex" ]; then
        complain "$1" "no $2: it is empty"
    else
        hex=$(printf %s "$hex" | tr -d ' \t\n')
        [ ${#hex} -le $((2 * $3)) ] || complain "$1" "no $2: it has more than $3 bytes, the most of any $2"
    fi
}

# Prints a text's bytes in hex digits.
hex_of() {
    printf %s "$1" | od -An -v -tx1 | tr -d ' \t\n'
}

# ---- writing a file

# Whether two names are of one file, by a link perhaps.
is_same_file() {
    # shellcheck disable=SC3013
    [ "$1" = "$2" ] || [ "$1" -ef "$2" ]
}

# Sets out to the place of a file that is to be written, and room to its folder; ends if it cannot be written.
find_place() {
    out=$1
    [ -n "$out" ] || fail "OUT is to be the name of a file; none is given" 2
    [ ! -d "$out" ] || fail "$1: it is a folder; OUT is to be a file" 2
    [ ! -e "$out" ] || [ -f "$out" ] || fail "$1: it is no plain file; OUT is to be one" 2
    [ ! -L "$out" ] || out=$(readlink -f -- "$out") || fail "$1: this link leads nowhere" 2
    case $out in
    */*) room=${out%/*}/ ;;
    *) room=./ ;;
    esac
    [ -d "$room" ] || fail "$1: its folder does not exist" 2
    [ ! -e "$out" ] || [ -w "$out" ] || fail "$1: no permission to write it" 2
    [ -w "$room" ] || fail "$1: no permission to write in its folder" 2
    out=$room${out##*/}
}

# Prints the bytes that hex digits say: awk turns them into octal escapes, which printf turns into bytes, zeros too.
bytes_of() {
    printf '%s\n' "$1" | awk '
        {
            n = length($0)
            for (i = 1; i < n; i += 2) {
                printf "\\%03o", (index(digits, substr($0, i, 1)) - 1) * 16 + index(digits, substr($0, i + 1, 1)) - 1
                if (i % 128 == 127) print ""
            }
            print ""
        }' digits=0123456789abcdef - |
        while read -r line; do
            # the line has nothing but octal escapes
            # shellcheck disable=SC2059
            printf "$line" || exit 1
        done
}

# Removes what was begun and not ended.
clean() {
    [ -z "$begun" ] || rm -f "$begun"
}

# Writes bytes, given in hex digits, to the place that find_place found: to a file beside it first, which then takes its name.
write_file() {
    case $2 in
    '' | *[!0-9a-f]*) fail "the program shell answered with no bytes: $2" 2 ;;
    esac
    begun=$room.gromedult.$$
    trap clean EXIT
    trap 'exit 129' HUP
    trap 'exit 130' INT
    trap 'exit 143' TERM
    if ! (set -C && : >"$begun") 2>/dev/null; then
        begun=''
        fail "$1: cannot write in its folder" 2
    fi
    bytes_of "$2" 2>/dev/null >"$begun" && [ "$(wc -c <"$begun")" -eq $((${#2} / 2)) ] || fail "$1: cannot be written" 2
    mv -f "$begun" "$out" 2>/dev/null || fail "$1: cannot be written" 2
    begun=''
}

# ---- asking the shell

# Prints the questions on a machine. $1 its side, $2 its snapshot in hex digits.
questions() {
    printf 'echo [%s]\nload %s\ncounters\nptrs\nscore\n' "$1" "$2"
    level=0
    while [ $level -le $last_level ]; do
        printf 'files %s\nbytes %s\n' $level $level
        level=$((level + 1))
    done
}

# Prints the questions on two machines and on what differs; with the word list, also for the list's bytes.
questions_on_two() {
    questions left "$left"
    printf 'echo [kept]\nkeep a\n'
    questions right "$right"
    printf 'echo [kept]\nkeep b\n'
    printf 'echo [diff]\ndiff $a $b\n'
    [ "${1-}" != list ] || printf 'echo [list]\ndifferences $a $b\n'
}

# Prints the questions on a list applied to the left machine, and to a fresh one, where every list that was ever made passes.
questions_on_patch() {
    printf 'echo [left]\nload %s\nkeep a\n' "$left"
    printf 'echo [outcome]\napply $a %s\n' "$right"
    printf 'new\nkeep b\necho [fresh]\napply $b %s\n' "$right"
}

# Sets answers to what the shell answers to the questions that a function prints. $1 the function, then its words.
# From here on bytes are bytes, and order is theirs, for awk too.
ask() {
    export LC_ALL=C
    answers=$({ "$@" && echo 'echo [end]'; } | become)
    case $answers in
    *'[end]') ;;
    *) fail "the program shell ended before it had answered" 2 ;;
    esac
    odd=$(printf '%s\n' "$answers" | awk '/^bad / && !n++ { print substr($0, 1, 200) }')
    [ -z "$odd" ] || fail "the program shell does not know what it was asked: $odd" 2
}

# Prints the answer that stands after a label.
answer_after() {
    printf '%s\n' "$answers" | awk 'found && NR == found + 1 { print } $0 == "[" label "]" { found = NR }' label="$1" -
}

# Says which of the snapshots are refused, and ends if one is. Of a side: its file.
check_loaded() {
    while [ $# -gt 0 ]; do
        answer=$(answer_after "$1")
        case $answer in
        ok) ;;
        refused*) complain "$2" "no snapshot: its bytes are damaged or of another program (refusal ${answer#refused })" ;;
        *) complain "$2" "the program shell answered '$answer'" ;;
        esac
        shift 2
    done
    [ "$trouble" -eq 0 ] || exit 2
}

# ---- words

# Takes one more file name.
take_name() {
    names=$((names + 1))
    case $names in
    1) first=$1 ;;
    2) second=$1 ;;
    3) third=$1 ;;
    esac
}

# Takes the words of a tool: options, and names of files. After -- all are names.
take_words() {
    names=0 first='' second='' third='' list='' has_list=''
    while [ $# -gt 0 ]; do
        case $1 in
        -h | --help)
            tool_usage "$tool"
            exit 0
            ;;
        --)
            shift
            break
            ;;
        --list | --list=*)
            [ "$tool" = diff ] || misused "$tool has no option '--list'"
            has_list=list list=${1#--list=}
            if [ "$1" = --list ]; then
                [ $# -ge 2 ] || misused "--list takes the name of a file to write"
                list=$2
                shift
            fi
            ;;
        -?*) misused "$tool has no option '$1'; for a file of that name write ./$1" ;;
        *) take_name "$1" ;;
        esac
        shift
    done
    while [ $# -gt 0 ]; do
        take_name "$1"
        shift
    done
}

# Ends unless as many names are given as the tool takes. $1 the least, $2 the most, $3 what they are.
check_count() {
    [ "$names" -ge "$1" ] && [ "$names" -le "$2" ] || misused "$tool takes $3; $names given"
}

# Takes a tool's words and reads its files, before anything is asked.
prepare() {
    take_words "$@"
    trouble=0 left='' right='' begun=''
    case $tool in
    show) check_count 1 1 'one file, SNAPSHOT' ;;
    diff) check_count 2 2 'two files, LEFT and RIGHT' ;;
    patch) check_count 3 3 'three files, LEFT, LIST and OUT' ;;
    picture) check_count 1 2 'one file or two, SNAPSHOT and perhaps RIGHT' ;;
    esac
    read_file "$first" snapshot $longest_snapshot
    left=$hex
    case $tool,$names in
    diff,* | picture,2) read_file "$second" snapshot $longest_snapshot ;;
    patch,*) read_file "$second" 'list of differences' $longest_list ;;
    esac
    right=$hex
    [ "$trouble" -eq 0 ] || exit 2
    [ -z "$has_list" ] || prepare_out "$list" "$first" "$second"
    [ "$tool" != patch ] || prepare_out "$third" "$second"
}

# Finds the place of OUT, which must be none of the files named after it.
prepare_out() {
    find_place "$1"
    given=$1
    shift
    for file; do
        ! is_same_file "$given" "$file" || fail "$given: OUT is to be another file than those that are read; nothing is written" 2
    done
}

# ---- the tools

# Prints by an awk program what was answered. $1 its name.
tell() {
    printf '%s\n' "$answers" | awk -f "$here/tools/common.awk" -f "$here/tools/$1.awk" || exit 2
}

# Prints a machine.
run_show() {
    ask questions left "$left"
    check_loaded left "$first"
    export NAME="$first"
    tell show
}

# Prints what differs between two machines. Status 1 if anything does.
run_diff() {
    ask questions_on_two "$has_list"
    check_loaded left "$first" right "$second"
    [ -z "$has_list" ] || write_file "$list" "$(answer_after list)"
    tell diff
    [ "$(answer_after diff)" = same ] || exit 1
}

# Writes the outcome of a list that is applied to a machine.
run_patch() {
    ask questions_on_patch
    check_loaded left "$first"
    outcome=$(answer_after outcome)
    case $outcome,$(answer_after fresh) in
    refused*,refused*) fail "$second: no list of differences: its bytes are damaged or of another program (refusal ${outcome#refused })" 2 ;;
    refused*) fail "$second: this list does not fit $first: what it would leave is no well-formed machine (refusal ${outcome#refused })" 2 ;;
    esac
    write_file "$third" "$outcome"
}

# Draws one machine or two.
run_picture() {
    if [ "$names" -eq 1 ]; then
        ask questions left "$left"
        check_loaded left "$first"
    else
        ask questions_on_two
        check_loaded left "$first" right "$second"
    fi
    LEFT_NAME=$(hex_of "$first") RIGHT_NAME=$(hex_of "$second")
    export LEFT_NAME RIGHT_NAME
    tell picture
}

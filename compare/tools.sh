#!/bin/sh
# compare/tools.sh [AWK..]: tries show, diff, patch and picture of ./gromedult on machines that it makes in a temporary folder, once with each awk:
# those named, or else whichever of mawk, gawk and busybox awk are there. Ends with a line `N passed, M failed`; status 1 if any failed.
set -u
here=$(cd "$(dirname "$0")/.." && pwd -P)
tool=$here/gromedult
work=$(mktemp -d) || exit 2
trap 'chmod -R u+rwx "$work"; rm -rf "$work"' EXIT
trap 'exit 130' INT TERM HUP
: >"$work/out"
: >"$work/err"
passed=0 failed=0 path=$PATH

# ---- checks

# Counts a check: $1 its name, then the command that must succeed.
check() {
    label=$1
    shift
    if "$@"; then
        passed=$((passed + 1))
    else
        failed=$((failed + 1))
        echo "FAILED with $awk: $label"
        sed 's/^/    out: /' "$work/out" | cut -c1-160 | head -n 6
        sed 's/^/    err: /' "$work/err" | cut -c1-160 | head -n 3
    fi
}

# Runs gromedult with words, in the folder of the machines; its outcome is in status, out and err.
run() {
    ran=$*
    (cd "$work/m" && "$tool" "$@") >"$work/out" 2>"$work/err" </dev/null
    status=$?
}

# Checks the last run's status.
gives() {
    check "$ran: status $1, not $status" [ "$status" -eq "$1" ]
}

# Checks that standard output, or standard error, has this text.
says() {
    check "$ran: says $1" grep -qF -e "$1" "$work/out"
}
complains() {
    check "$ran: complains $1" grep -qF -e "$1" "$work/err"
}

# Checks that standard output is standard input, and that nothing else was said.
prints() {
    cat >"$work/wanted"
    check "$ran: prints what it should" cmp -s "$work/wanted" "$work/out"
    check "$ran: no word on standard error" [ ! -s "$work/err" ]
}

# Checks a refusal: status 2, nothing on standard output, this text on standard error.
refuses() {
    gives 2
    check "$ran: prints nothing" [ ! -s "$work/out" ]
    complains "$1"
}

# ---- machines

# Turns a line of hex digits on standard input into bytes.
unhex() {
    awk '{
        for (i = 1; i < length($0); i += 2) printf "\\%03o", 16 * digit(substr($0, i, 1)) + digit(substr($0, i + 1, 1))
        print ""
    }
    function digit(c) { return index("0123456789abcdef", c) - 1 }' |
        while read -r octal; do
            # shellcheck disable=SC2059
            printf "$octal"
        done
}

# Makes a snapshot file from a script on standard input. An edit that is refused is a fault of this file, and counts as one.
machine() {
    { cat && echo snapshot; } | "$tool" shell >"$work/answers"
    grep -e '^refused' -e '^bad' "$work/answers" >>"$work/unmade"
    tail -n 1 "$work/answers" | unhex >"$work/m/$1"
}

# Prints edits that add files. $1 the first number, $2 how many, $3 the level, $4 a step between files, $5 how many steps each is long.
added() {
    awk -v n="$1" -v files="$2" -v level="$3" -v step="$4" -v long="$5" 'BEGIN {
        for (i = 0; i < files; i++) {
            if (i % 64 == 0) printf "%sedit", (i ? "\n" : "")
            printf " a,%d,%d,%d,m1/axis03/%06d@%d,m1/axis03/%06d@%d", level, n + i, 1000 * (i * i % 97 + 1), i * step, 9, i * step + long, 7
        }
        print ""
    }'
}

# Prints an internal key in hex from a user key in hex, a sequence below 256, and a type.
key() {
    printf '%s%02x%02x000000000000' "$1" "$3" "$2"
}

# Prints the script of a full machine: 256 files and 7 pointers with the longest keys, files of size $1.
full_script() {
    awk -v size="$1" 'BEGIN {
        for (i = 0; i < 256; i++) {
            if (i % 64 == 0) printf "%sedit", (i ? "\n" : "")
            printf " a,%d,%d,%d,%060d%04x0109000000000000,%060d%04x0109000000000000", i % 7, i + 2, size, 0, 2 * i, 0, 2 * i + 1
        }
        printf "\nedit"
        for (i = 0; i < 7; i++) printf " p,%d,%060d%04x0109000000000000", i, 0, size
        print ""
    }'
}

# Makes all machines.
make_machines() {
    mkdir -p "$work/m"
    : | machine fresh
    sed '/^snapshot/d' "$here/days/first.txt" | grep -v '^edit a,1,5,' | grep -v '^edit a,2,6,' | machine first
    {
        sed '/^snapshot/d' "$here/days/first.txt" | grep -v '^edit a,1,5,' | grep -v '^edit a,2,6,'
        echo 'edit d,1,6 d,2,2 d,2,3 a,2,6,1048576,m1/axis04/0000@3601,m1/axis04/3599@3602d p,2,m1/axis03/1799@5'
        echo 'edit a,0,7,300,m1/axis05/0000@1,m1/axis05/0001@2'
        echo 'edit a,2,3,2097153,m1/axis03/0900@901,m1/axis03/1798@1800'
        echo 'mark 9'
    } | machine second
    added 10 2 0 10 12 | machine two
    { added 10 5 0 10 12 && added 20 15 1 10 5 && added 40 20 2 7 6 && echo 'edit p,1,m1/axis03/000042@3 p,2,m1/axis03/000070@3'; } | machine forty
    { added 10 5 0 10 12 && added 20 15 1 10 6 && added 40 15 2 7 6 && added 60 3 3 7 6 && added 55 2 4 7 6; } | machine forty2
    { added 10 12 0 3 40 && added 30 44 1 20 15 && added 80 90 2 9 8 && added 180 110 3 7 6 && echo 'edit p,3,m1/axis03/000300@3'; } | machine many
    added 2 256 0 1 200 | machine stacked
    full_script 1 | machine full
    full_script 2 | machine full2
    odd_script 5 | machine odd
    odd_script 6 | machine odd2
    awk -v n=25440 'BEGIN { for (i = 0; i <= n; i++) printf "x" }' >"$work/m/long"
    : >"$work/m/empty"
    mkdir -p "$work/m/folder"
}

# Prints the script of a machine with keys that do not print, or mean something in XML, and the largest numbers. $1 a size.
odd_script() {
    echo "edit a,0,18446744073709551615,1099511627776,00ff0101000000000000,ff00ffffffffffffff a,0,7,$1,$(key 3c612662273e22 5 1),$(key 3c7a 4 0)" \
        "a,1,8,1024,$(key 30783431 9 1),$(key 6120622063 8 1) a,1,9,1,$(key 6120622063 7 1),$(key 6120622063 6 0) p,6,$(key 7e 3 0)"
    echo 'set seq 72057594037927935'
    echo "set prev 900719925474099$1"
}

# ---- show

try_show() {
    run show first
    gives 0
    prints <<'END'
first: 4 files, 9437184 bytes (9.0 MiB)
no compaction is due; the fullest is level 1, 10.0 %

counters
  next      6  next file number
  manifest  0  manifest number
  seq       0  last sequence
  log       0  log number
  prev      0  previous log number

level 0     0.0 % full: 0 files of 4, 0 bytes
  pointer m1/axis03/3599@3602

level 1    10.0 % full: 1 file, 1048576 bytes (1.0 MiB) of 10485760 (10.0 MiB)
  file    bytes              smallest key         largest key
     6  1048576     1.0 MiB  m1/axis03/0000@3601  m1/axis03/3599@3602

level 2     8.0 % full: 3 files, 8388608 bytes (8.0 MiB) of 104857600 (100.0 MiB)
  file    bytes              smallest key         largest key
     2  2097152     2.0 MiB  m1/axis03/0000@1     m1/axis03/0899@900
     3  2097152     2.0 MiB  m1/axis03/0900@901   m1/axis03/1799@1800
     4  4194304     4.0 MiB  m1/axis03/1800@1801  m1/axis03/3599@3600

level 3     0.0 % full: 0 files, 0 bytes of 1048576000 (1000.0 MiB)
level 4     0.0 % full: 0 files, 0 bytes of 10485760000 (9.8 GiB)
level 5     0.0 % full: 0 files, 0 bytes of 104857600000 (97.7 GiB)
level 6       no limit: 0 files, 0 bytes
END
    run show odd
    gives 0
    says '18446744073709551615  1099511627776     1.0 TiB  0x00ff@1      0xff@72057594037927935 deletion'
    says '                     7              5         5 B  "<a&b'"'"'>\""@5'
    says '"0x41"@9      "a b c"@8'
    says '  pointer ~@3 deletion'
    says 'prev       9007199254740995  previous log number'
    run show many
    gives 0
    says 'compaction is due at level 0, 300.0 % full'
    says 'many: 256 files, 12022000 bytes (11.5 MiB)'
    check "show many: a line for each file" [ "$(grep -c '  m1/axis03/.* m1/axis03/' "$work/out")" -eq 256 ]
    run show fresh
    gives 0
    says 'fresh: 0 files, 0 bytes'
}

# ---- diff and patch

try_diff() {
    run diff first second
    gives 1
    prints <<'END'
level 0  file 7   only right  300 bytes, m1/axis05/0000@1 .. m1/axis05/0001@2
level 1  file 6   only left   1048576 bytes (1.0 MiB), m1/axis03/0000@3601 .. m1/axis03/3599@3602; right has it at level 2
level 2  file 2   only left   2097152 bytes (2.0 MiB), m1/axis03/0000@1 .. m1/axis03/0899@900
level 2  file 3   changed     size 2097152 (2.0 MiB) -> 2097153 (2.0 MiB); largest m1/axis03/1799@1800 -> m1/axis03/1798@1800
level 2  file 6   only right  1048576 bytes (1.0 MiB), m1/axis04/0000@3601 .. m1/axis04/3599@3602 deletion; left has it at level 1
level 2  pointer  changed     none -> m1/axis03/1799@5
counter  next     changed     6 -> 10
files: 2 only left, 2 only right (1 at another level), 1 changed; pointers: 1; counters: 1
END
    run diff odd odd2
    gives 1
    prints <<'END'
level 0  file 7  changed     size 5 -> 6
counter  prev    changed     9007199254740995 -> 9007199254740996
files: 0 only left, 0 only right, 1 changed; pointers: 0; counters: 1
END
    run diff odd fresh
    gives 1
    says 'level 6  pointer                    changed     ~@3 deletion -> none'
    for m in first odd full fresh; do
        run diff $m $m
        gives 0
        echo same | prints
    done
}

# Checks that the list of two machines, applied to the left, gives the right.
try_pair() {
    run diff --list list "$1" "$2"
    if cmp -s "$work/m/$1" "$work/m/$2"; then gives 0; else gives 1; fi
    run patch "$1" list outcome
    gives 0
    check "$1, $2: the list brings the left to the right" cmp -s "$work/m/$2" "$work/m/outcome"
    rm -f "$work/m/list" "$work/m/outcome"
}

try_patch() {
    for left in fresh first second forty many odd full; do
        for right in fresh first forty2 many odd2 full2; do try_pair $left $right; done
    done
    run diff --list empty.list first first
    gives 0
    check "the list of equal machines is six zeros" [ "$(od -An -v -tx1 "$work/m/empty.list" | tr -d ' \n')" = 000000000000 ]
    run diff --list=longest full full2
    gives 1
    cp "$work/m/first" "$work/m/place"
    run diff --list first.list first second
    run patch place first.list place
    gives 0
    check "OUT may be LEFT" cmp -s "$work/m/place" "$work/m/second"
    run patch first first.list folder/out
    gives 0
    check "OUT in another folder" cmp -s "$work/m/folder/out" "$work/m/second"
    : >"$work/m/new"
    check "OUT has the rights of a new file" [ "$(rights_of new)" = "$(rights_of folder/out)" ]
    ln -s place "$work/m/link"
    cp "$work/m/first" "$work/m/place"
    run patch first first.list link
    gives 0
    check "OUT by a link" cmp -s "$work/m/place" "$work/m/second"
    check "the link stays" [ -L "$work/m/link" ]
    rm -f "$work/m/link" "$work/m/new"
}

# Prints the rights of a file.
rights_of() {
    # shellcheck disable=SC2012
    ls -l "$work/m/$1" | cut -c1-10
}

# Checks what is refused of lists and of OUT, and that OUT stays as it was.
try_patch_refusals() {
    cp "$work/m/fresh" "$work/m/kept"
    printf 'no list at all' >"$work/m/damaged.list"
    run patch first damaged.list kept
    refuses 'damaged.list: no list of differences: its bytes are damaged or of another program (refusal 14)'
    run patch damaged.list first.list kept
    refuses 'damaged.list: no snapshot: its bytes are damaged or of another program (refusal 14)'
    run diff --list full.list fresh full
    run patch first full.list kept
    refuses 'full.list: this list does not fit first: what it would leave is no well-formed machine (refusal 14)'
    run patch first empty kept
    refuses 'empty: no list of differences: it is empty'
    awk 'BEGIN { for (i = 0; i < 28506; i++) printf "x" }' >"$work/m/longer"
    run patch first longer kept
    refuses 'longer: no list of differences: it has more than 28505 bytes'
    run patch first missing kept
    refuses 'missing: there is no such file'
    check "OUT stays as it was" cmp -s "$work/m/fresh" "$work/m/kept"
    run patch first first.list folder
    refuses 'folder: it is a folder; OUT is to be a file'
    run patch first first.list nowhere/out
    refuses 'nowhere/out: its folder does not exist'
    run patch first first.list first.list
    refuses 'first.list: OUT is to be another file than those that are read'
    run diff --list second first second
    refuses 'second: OUT is to be another file than those that are read'
    run diff --list '' first second
    refuses 'OUT is to be the name of a file; none is given'
    run patch first first.list /dev/null
    refuses '/dev/null: it is no plain file'
    check "nothing is left over" [ -z "$(find "$work" -name '.gromedult*')" ]
    rm -f "$work/m/kept" "$work/m/longer"
}

# Checks that an interrupt leaves no file: a slow printer of bytes gives it time.
try_interrupt() {
    mkdir -p "$work/slow"
    printf '#!/bin/sh\ncase "$*" in *digits=*) : >"%s/began"; sleep 3 ;; esac\nexec "%s/bin/awk" "$@"\n' "$work" "$work" >"$work/slow/awk"
    chmod +x "$work/slow/awk"
    (cd "$work/m" && PATH=$work/slow:$PATH exec "$tool" patch first first.list interrupted) >"$work/out" 2>"$work/err" &
    job=$!
    while kill -0 $job 2>/dev/null && [ ! -e "$work/began" ]; do sleep 1; done
    check "a file is begun" [ -n "$(find "$work/m" -name '.gromedult*')" ]
    kill -TERM $job
    wait $job
    check "an interrupted patch has a status" [ $? -eq 143 ]
    check "an interrupted patch leaves nothing" [ -z "$(find "$work/m" -name '.gromedult*' -o -name interrupted)" ]
    rm -f "$work/began"
}

# ---- files that are refused

try_files() {
    for words in 'show FILE' 'picture FILE' 'diff FILE first' 'diff first FILE' 'picture first FILE' 'patch FILE first.list out.snap'; do
        for file in missing folder empty long damaged short more; do
            case $file in
            missing) reason='there is no such file' ;;
            folder) reason='it is a folder, not a snapshot' ;;
            empty) reason='no snapshot: it is empty' ;;
            long) reason='no snapshot: it has more than 25440 bytes, the most of any snapshot' ;;
            *) reason='no snapshot: its bytes are damaged or of another program (refusal 14)' ;;
            esac
            # shellcheck disable=SC2046
            run $(echo "$words" | sed "s/FILE/$file/")
            refuses "gromedult: $file: $reason"
        done
    done
    check "nothing is written" [ ! -e "$work/m/out.snap" ]
    run diff empty missing
    refuses 'empty: no snapshot'
    complains 'missing: there is no such file'
    run diff damaged short
    refuses 'damaged: no snapshot'
    complains 'short: no snapshot'
}

# Makes damaged snapshots: a byte changed, the last byte cut off, a byte more.
make_damaged() {
    long=$(wc -c <"$work/m/first")
    { printf '\006' && dd if="$work/m/first" bs=1 skip=1 2>/dev/null; } >"$work/m/damaged"
    dd if="$work/m/first" bs=1 count=$((long - 1)) 2>/dev/null >"$work/m/short"
    { cat "$work/m/first" && printf '\000'; } >"$work/m/more"
}

# Checks names with blanks, a leading dash, a backslash, quotes, and letters beyond ASCII; and files that may not be read.
try_names() {
    for name in 'a b' ./-x 'a,--help' 'b,-c' 'back\nslash' 'q"<&>'"'" 'größe' '*'; do
        cp "$work/m/first" "$work/m/$name"
        run show "$name"
        gives 0
        says "$name: 4 files"
        run diff "$name" second
        gives 1
        run diff --list "$name.list" "$name" second
        run patch "$name" "$name.list" "$name.out"
        gives 0
        check "$name: patched" cmp -s "$work/m/$name.out" "$work/m/second"
        run picture "$name" second
        gives 0
        check "picture of $name is XML" is_xml
        run show "$name.missing"
        refuses "$name.missing: there is no such file"
        rm -f "$work/m/$name" "$work/m/$name.list" "$work/m/$name.out"
    done
    cp "$work/m/first" "$work/m/-y"
    run show -- -y
    gives 0
    run show -y
    refuses "show has no option '-y'; for a file of that name write ./-y"
    run diff --list -z -- -y second
    gives 1
    run patch -- -y -z -y
    gives 0
    check "OUT with a leading dash" cmp -s "$work/m/-y" "$work/m/second"
    rm -f "$work/m/-y" "$work/m/-z"
    [ "$(id -u)" -ne 0 ] || return 0
    cp "$work/m/first" "$work/m/secret"
    chmod 000 "$work/m/secret"
    run show secret
    refuses 'secret: no permission to read it'
    chmod 400 "$work/m/secret"
    run patch first first.list secret
    refuses 'secret: no permission to write it'
    rm -f "$work/m/secret"
}

# ---- words

try_words() {
    for name in show diff patch picture; do
        run $name --help
        gives 0
        says "usage: ./gromedult $name"
        check "$name --help: no word on standard error" [ ! -s "$work/err" ]
        run $name
        refuses "$name takes"
        complains "usage: ./gromedult $name"
        run $name a b c d
        refuses "; 4 given"
        run $name --such first
        refuses "$name has no option '--such'"
        run --help
        gives 0
        says "./gromedult $name "
    done
    run diff first second --list
    refuses '--list takes the name of a file to write'
    run show --list x first
    refuses "show has no option '--list'"
    run drawing first
    refuses "there is no program 'drawing'"
}

# ---- pictures

# Whether the last output is well-formed XML; where there is no xmllint, whether it begins and ends as it should.
is_xml() {
    if command -v xmllint >/dev/null; then
        xmllint --noout "$work/out" 2>>"$work/err"
    else
        head -n 1 "$work/out" | grep -q '^<svg ' && tail -n 1 "$work/out" | grep -q '^</svg>$'
    fi
}

# Prints x, y, width and height of each bar of the last picture.
bars() {
    awk -F'"' '/^<rect .*><title>file / { print $2, $4, $6, $8 }' "$work/out"
}

# Whether no bar hides another, and each is at least 2 wide and 5 high.
is_apart() {
    bars | awk '
        { x[NR] = $1; y[NR] = $2; w[NR] = $3; h[NR] = $4; if ($3 < 2 || $4 < 5) bad = 1 }
        END {
            for (i = 1; i <= NR; i++)
                for (j = 1; j < i; j++)
                    if (x[i] < x[j] + w[j] && x[j] < x[i] + w[i] && y[i] < y[j] + h[j] && y[j] < y[i] + h[i]) bad = 1
            exit bad
        }'
}

# Whether the labels of the axis leave room between them, and numbers stand within their bars. A character is 6.7 wide at most.
is_readable() {
    awk -F'"' '
        /^<text class="key"/ {
            text = $0
            sub(/^[^>]*>/, "", text)
            sub(/<title>.*/, "", text)
            gsub(/&[a-z]*;/, "x", text)
            from = $4 - length(text) * 3.35
            if (($6 in to) && from < to[$6] + 4) bad = 1
            to[$6] = $4 + length(text) * 3.35
            keys++
        }
        /^<rect .*><title>file / { left = $2; right = $2 + $6; top = $4; foot = $4 + $8 }
        /^<text class="number"/ {
            text = $0
            sub(/^[^>]*>/, "", text)
            sub(/<.*/, "", text)
            half = length(text) * 3.05
            if (/rotate/ ? ($6 - half < top || $6 + half > foot) : ($4 - half < left || $4 + half > right)) bad = 1
        }
        END { exit bad || !keys }' "$work/out"
}

# Draws a machine, or two, and checks the picture. $1 how many bars there are, then the files.
try_picture() {
    wanted=$1
    shift
    run picture "$@"
    gives 0
    check "picture $*: no word on standard error" [ ! -s "$work/err" ]
    check "picture $*: XML" is_xml
    check "picture $*: $wanted bars" [ "$(bars | wc -l)" -eq "$wanted" ]
    check "picture $*: no bar hides another" is_apart
    check "picture $*: labels apart" is_readable
    check "picture $*: seven levels" [ "$(grep -c '<text class="level"' "$work/out")" -eq 7 ]
}

try_pictures() {
    try_picture 2 two
    try_picture 40 forty
    try_picture 256 many
    try_picture 256 stacked
    try_picture 256 full
    try_picture 4 odd
    says '0x00ff@1 .. 0xff@72057594037927935 deletion'
    says '&quot;&lt;a&amp;b'"'"'&gt;\&quot;&quot;@5'
    try_picture 7 first second
    says 'file 3 at level 2, changed: this is the left'
    says 'file 6 at level 1, only left here; right has it at level 2'
    says 'file 4 at level 2, the same on both'
    says '4 files, 9437184 bytes (9.0 MiB); next <tspan class="differs">6</tspan>, manifest 0'
    try_picture 40 forty forty
    try_picture 60 forty forty2
    try_picture 512 full full2
    try_picture 4 fresh first
    run picture fresh
    gives 0
    check "picture fresh: XML" is_xml
    run picture two
    says 'class="number"'
    says '2 files, '
}

# ---- all, with each awk

# Tries everything with one awk.
try_all() {
    rm -rf "${work:?}/bin"
    mkdir -p "$work/bin"
    printf '#!/bin/sh\nexec %s "$@"\n' "$1" >"$work/bin/awk"
    chmod +x "$work/bin/awk"
    PATH=$work/bin:$path
    check "the machines are made" [ ! -s "$work/unmade" ]
    try_show
    try_diff
    try_patch
    try_patch_refusals
    try_interrupt
    try_files
    try_names
    try_words
    try_pictures
}

if [ $# -eq 0 ]; then
    for awk in mawk gawk 'busybox awk'; do
        # shellcheck disable=SC2086
        if command -v ${awk%% *} >/dev/null; then set -- "$@" "$(command -v ${awk%% *})${awk#"${awk%% *}"}"; fi
    done
    [ $# -gt 0 ] || set -- "$(command -v awk)"
fi
make_machines
make_damaged
for awk; do try_all "$awk"; done
echo "$passed passed, $failed failed"
[ "$failed" -eq 0 ]

#!/bin/sh
# Runs the commands of docs/disk1541.md, and disk1541 over many generated disks; its plain cases are data (check_cases.py).
# Usage: sh check_disk1541.sh DISK1541 [DISKS] (the path of the built program, and how many disks are generated, 1000 by
# default). Prints one line a case; ends with 1 if one is wrong.
disk=$(realpath "$1")
disks=${2:-1000}
. "$(dirname "$(realpath "$0")")/checks.sh"
cd "$work" || exit 1
printf '\001\010game' > game.prg

# The how-tos: each command of the document, in its order, and what it prints.
mkdir how_to
cp "$examples/hello.d64" how_to
printf '\001\010game' > how_to/game.prg
printf 'level' > how_to/levels.seq
printf "put game.prg\ntitle 'OUR DISK'\n" > how_to/changes.txt
ln -s "$disk" how_to/disk1541
# (its blocks of sh, without the comments at the ends of their lines)
sed -n '/^## How to/,/^## Exit/p' "$here/../../docs/disk1541.md" | sed -n '/^```sh$/,/^```$/{s/ \{4,\}#.*//;/^disk1541 /p}' > commands.txt
while read -r line; do
    echo "\$ $line"
    (cd how_to && PATH=.:$PATH && eval "$line" 2>&1) || echo "status $?"
done < commands.txt | sed 's/^[0-9a-f]\{64\}  /SUM  /' > told.txt
is "the how-tos of the document print what they should" cmp told.txt "$here/how_to.txt"
is "with equal sums of an image and the one made of it" test "$(cd how_to && ./disk1541 hash hello.d64 hello.g64 | cut -d' ' -f1 | uniq | wc -l)" = 1
is "and take out, put in and make what they say" test "$(cd how_to && echo *)" = "FOLDER built.d64 changes.txt disk1541 empty.d64 game.prg hello.d64 hello.g64 hello.prg hello.svg hello.toml levels.seq long.d64 parts saved.prg"
is "a disk built of a recipe has the files" test "$(cd how_to && ./disk1541 list built.d64)" = "$(cd how_to && ./disk1541 list hello.d64)"

# Names of any bytes, on disks that are made there: what list shows of them, and that it is taken back.
is "names of any bytes, in both sets, taken back" python3 "$here/generated_names.py" "$disk"

# 144 files in and out, in both formats
many() {
    "$disk" new "$1" --title many --id 64
    k=1
    while [ $k -le 144 ]; do
        printf 'file %d' $k > in.bin
        "$disk" put "$1" in.bin --name "FILE$k" || wrong=1
        k=$((k + 1))
    done
    case_of "a 145th file on $1" 1 "" "disk1541: $1: the directory is full: it has room for 144 files" "$disk" put "$1" in.bin --name MORE
    {
        echo '0 "MANY            " 64 2A'
        k=1
        while [ $k -le 144 ]; do
            printf '1    %-18s PRG  \n' "\"FILE$k\""
            k=$((k + 1))
        done
        echo '520 BLOCKS FREE.             '
    } > lines.txt
    case_of "144 files are listed" 0 "$(cat lines.txt)" "" "$disk" list "$1"
    rm -rf taken
    case_of "all are taken out" 0 "" "" "$disk" get-all "$1" taken
    k=1
    same=0
    while [ $k -le 144 ]; do
        printf 'file %d' $k | cmp -s - "taken/FILE$k.prg" && same=$((same + 1))
        k=$((k + 1))
    done
    is "byte for byte" test $same = 144
    case_of "and the disk is sound" 0 "sound" "" "$disk" check "$1"
}
many many.d64
many many.g64

# What a terminal shows of a command that takes long.
is "progress on a terminal" python3 "$here/on_terminal.py" "$disk" many.d64

# Generated disks: files of many kinds, names and lengths, which go to a new disk of the other format, byte for byte.
is "$disks generated disks, their files on new ones" python3 "$here/generated_disks.py" "$disk" "$disks"

# Disks that were made by commands: files of many lengths, some of them deleted; all that is left goes to a new disk of the other
# format.
number=1
next() {
    number=$(((number * 1103515245 + 12345) % 2147483648))
    got=$((number / 65536 % $1))
}
head -c 40000 /dev/urandom > noise.bin
k=0
bad=0
while [ $k -lt 100 ]; do
    old=d64
    new=g64
    [ $((k % 2)) = 0 ] || { old=g64; new=d64; }
    rm -rf old.img new.img here there
    "$disk" new old.img --title "DISK $k" --id 64 --format $old || bad=1
    next 12
    files=$got
    file=0
    while [ $file -le "$files" ]; do
        next 5000
        head -c $((got + 1)) noise.bin > in.bin
        next 3
        "$disk" put old.img in.bin --name "F$got$file" || bad=1
        file=$((file + 1))
    done
    next 3
    "$disk" delete old.img "F$got*" 2> /dev/null
    "$disk" list old.img > list.txt || bad=1
    "$disk" get-all old.img here || bad=1
    "$disk" new new.img --title "DISK $k" --id 64 --format $new || bad=1
    for path in here/*; do
        [ -e "$path" ] && { "$disk" put new.img "$path" || bad=1; }
    done
    "$disk" get-all new.img there || bad=1
    diff -r here there > /dev/null || bad=1
    [ "$("$disk" check old.img)$("$disk" check new.img)" = soundsound ] || bad=1
    k=$((k + 1))
done
is "100 disks made by commands, their files on new ones" test $bad = 0

hello='0 "TEST            " AB 2A
1    "HELLO"            PRG  
663 BLOCKS FREE.             '
# the program in its place, its page for man, and completions
if command -v rt > installed.txt; then
    is "install" sh -c "'$here/../../tools/install' prefix disk1541='$disk' > installed.txt"
    is "says what it wrote" test "$(grep -c . installed.txt)" = "$(find prefix -type f | wc -l)"
    case_of "the program runs there" 0 "$hello" "" prefix/bin/disk1541 list "$examples/hello.d64"
    is "licences of what is linked" test -s prefix/share/licenses/yellowadze1541/clap/LICENSE-MIT -a -s prefix/share/licenses/yellowadze1541/sha2/LICENSE-APACHE
    completed() {
        bash -c 'source prefix/share/bash-completion/completions/disk1541; COMP_WORDS=("$@"); COMP_CWORD=$(($# - 1)); _disk1541; echo "${COMPREPLY[*]}"' "" "$@"
    }
    if command -v bash > /dev/null; then
        is "commands are completed" test "$(completed disk1541 va)" = validate
        is "options of a command, too" test "$(completed disk1541 validate --f)" = --force
        is "and files" test "$(completed disk1541 get many.g)" = many.g64
    fi
    if command -v groff > /dev/null; then
        is "the page for man has no fault" test -z "$(groff -man -Tutf8 -ww prefix/share/man/man1/disk1541.1 2>&1 > page.txt)"
        is "and says what each command does" grep -q "Extract a file" page.txt
    fi
    ! command -v zsh > /dev/null || is "completions for zsh" zsh -n prefix/share/zsh/site-functions/_disk1541
    ! command -v fish > /dev/null || is "completions for fish" fish -n prefix/share/fish/vendor_completions.d/disk1541.fish
fi
for word in "" $("$disk" --help | sed -n '/^Commands /,/^$/s/^  \([a-z-]*\) .*/\1/p'); do
    "$disk" $word --help > out.txt
    is "help of ${word:-all commands} has examples and statuses" test "$(grep -c '^Examples:$\|^Exit status: 0 done' out.txt)" = 2
    is "within 100 columns" test "$(sed -n '/^Examples:/,$p' out.txt | wc -L)" -le 100
done

exit $wrong

#!/bin/sh
# How disk1541 saves: several programs at once, kills at any time, lack of memory, and host faults that need permissions or a full disk.
# Usage: sh check_saving.sh DISK1541 (the path of the built program). Prints one line a case; ends with 1 if one is wrong. As root it also
# tries a full disk and a folder without permission.
disk=$(realpath "$1")
. "$(dirname "$(realpath "$0")")/checks.sh"
cd "$work" || exit 1
cp "$examples/hello.d64" .
printf '\001\010game' > game.prg
head -c 2540 /dev/urandom > big.bin
nothing_is_left() { test -z "$(ls | grep '^disk1541[.].*[.]new$')"; }

# Eight programs change one image at once, again and again: no file is lost.
at_once() {
    round=1
    while [ $round -le 25 ]; do
        "$disk" new at_once.d64 --title ONCE --id 64 --replace
        for k in 1 2 3 4 5 6 7 8; do
            "$disk" put at_once.d64 game.prg --name "F$k" &
        done
        wait
        [ "$("$disk" list at_once.d64 | grep -c PRG)" = 8 ] || return 1
        round=$((round + 1))
    done
}
is "eight files put at once, twenty-five times: each is there" at_once

# Standard input that takes its time locks nothing, and a wait is told.
cp hello.d64 waits.d64
mkfifo slow
"$disk" put waits.d64 - --name SLOW < slow &
first=$!
exec 3> slow
sleep 1
case_of "put beside a put that waits for standard input" 0 "" "" timeout 20 "$disk" put waits.d64 game.prg
printf 'slow' >&3
exec 3>&-
wait $first
case_of "which ends well" 0 "slow" "" "$disk" get waits.d64 SLOW
case_of "and both files are there" 0 "$(cat game.prg)" "" "$disk" get waits.d64 GAME

# An image that changes while a command has it isn't replaced; leftovers of killed saves are in nobody's way.
cp hello.d64 host.d64
"$disk" new other.d64 --title OTHER --id 64
mkfifo pipe
"$disk" put host.d64 pipe --name LATE 2> err.txt &
{ sleep 1; cp other.d64 host.d64; printf late; } > pipe
wait $!
is "an image that was changed meanwhile: status 3" test $? = 3
is "is told" test "$(cat err.txt)" = "disk1541: host.d64: another program changed it meanwhile, so nothing was saved"
is "and stays as the other program left it" cmp -s host.d64 other.d64
is "and nothing is left beside" nothing_is_left
k=0
while [ $k -lt 150 ]; do
    : > disk1541.$k.new
    k=$((k + 1))
done
case_of "put beside 150 leftovers" 0 "" "" "$disk" put host.d64 game.prg
case_of "is there" 0 "$(cat game.prg)" "" "$disk" get host.d64 GAME
rm disk1541.*.new

# Killed at any moment, the image is as before or as after.
printf 'put big.bin\nrename HELLO OTHER\nsort\n' > lines.txt
for words in "run work.d64 lines.txt" "retype work.d64 HELLO seq" "errors work.d64 --add"; do
    cp hello.d64 work.d64
    # shellcheck disable=SC2086
    "$disk" $words
    cp work.d64 after.d64
    torn=no
    for moment in 0 1 2 3 4 5 6 7 8 9 10 12 14 16 18 20 25 30; do
        cp hello.d64 work.d64
        # shellcheck disable=SC2086
        timeout -s KILL "$(printf '0.%03d' $moment)" "$disk" $words > out.txt 2>&1
        cmp -s hello.d64 work.d64 || cmp -s after.d64 work.d64 || torn=yes
    done > /dev/null 2>&1
    is "killed while it saves: ${words%% *}" test $torn = no
done
rm -f disk1541.*.new

# Each request for memory is refused in turn: the command ends well, or with 3, one sentence and the image as it was.
if command -v cc > /dev/null; then
    cc -shared -fPIC -o refusing.so "$here/refusing.c"
    for words in "list" "put game.prg" "show HELLO" "diff $examples/hello.d64"; do
        cp "$examples/hello.d64" whole.d64
        "$disk" ${words%% *} whole.d64 ${words#"${words%% *}"} > whole.txt
        for number in $(seq 0 479); do
            cp "$examples/hello.d64" refused.d64
            REFUSED=$number LD_PRELOAD=./refusing.so "$disk" ${words%% *} refused.d64 ${words#"${words%% *}"} > out.txt 2> err.txt
            got=$?
            if [ $got = 0 ]; then
                cmp -s whole.txt out.txt && cmp -s whole.d64 refused.d64 || got=wrong
            else
                [ $got = 3 ] && [ "$(grep -c '^disk1541: .*memory' err.txt)" = 1 ] && [ "$(wc -l < err.txt)" = 1 ] && cmp -s "$examples/hello.d64" refused.d64 || got=wrong
            fi
            [ $got = wrong ] && break
        done
        is "want of memory, request by request, in $words ($number)" test $got != wrong
    done
    cp hello.d64 work.d64
    "$disk" run work.d64 lines.txt
    cp work.d64 after.d64
    torn=no
    for number in $(seq 0 9 4000); do
        cp hello.d64 work.d64
        REFUSED=$number LD_PRELOAD=./refusing.so "$disk" run work.d64 lines.txt > out.txt 2> err.txt
        case $? in
            0) cmp -s after.d64 work.d64 || torn=yes ;;
            *) cmp -s hello.d64 work.d64 || torn=yes ;;
        esac
    done
    is "want of memory, request by request, in run" test $torn = no
fi

# Faults of the host that only root can make: a sentence, a status, and the image as it was.
cp hello.d64 host.d64
mkdir -p folder
fault_of() {
    case_of "$@"
    is "the image is as it was" cmp -s host.d64 hello.d64
}
if [ "$(id -u)" = 0 ]; then
    chmod 755 "$work"
    cp "$disk" tool && chmod 755 tool
    if setpriv --reuid=65534 --regid=65534 --clear-groups "$work/tool" --version > out.txt 2>&1; then
        chmod 644 host.d64
        fault_of "no leave to write" 3 "" "disk1541: can't write host.d64: permission denied" setpriv --reuid=65534 --regid=65534 --clear-groups "$work/tool" put host.d64 game.prg
        chmod 666 host.d64
        fault_of "no leave to write beside" 3 "" "disk1541: can't write host.d64: permission denied" setpriv --reuid=65534 --regid=65534 --clear-groups "$work/tool" put host.d64 game.prg
        chmod 600 host.d64
        fault_of "no leave to read" 3 "" "disk1541: can't read host.d64: permission denied" setpriv --reuid=65534 --regid=65534 --clear-groups "$work/tool" list host.d64
    fi
    if mount -t tmpfs -o size=300k none folder 2> /dev/null; then
        cp host.d64 folder/full.d64
        cat /dev/zero > folder/filler 2> /dev/null
        case_of "a full disk" 3 "" "disk1541: can't write folder/full.d64: no storage space" "$disk" put folder/full.d64 game.prg
        is "leaves the image as it was" cmp -s folder/full.d64 hello.d64
        is "and nothing beside" test "$(ls folder | wc -l)" = 2
        umount folder
    fi
fi
exit $wrong

#!/bin/sh
# disk1541 and drive1541 change one image side by side, and what drive1541 may write over.
# Usage: sh check_beside.sh DISK1541 DRIVE1541 (the paths of the built programs). Prints one line a case; ends with 1 if one is wrong.
disk=$(realpath "$1")
drive=$(realpath "$2")
. "$(dirname "$(realpath "$0")")/checks.sh"
cd "$work" || exit 1
rounds=40
printf '\001\010game' > game.prg
printf 'open 1 ONE\nput 1 \\01\\08HI\nclose 1\nstatus\n' > one.script
printf 'open 1 TWO\nput 1 \\01\\08HI\nclose 1\nstatus\n' > two.script
has() { "$disk" list "$1" | grep -q "\"$2\""; }

# A command that ended with 0 has its file on the disk; the image is sound.
# image, then for each of the two: its status and its file
none_is_lost() {
    { [ "$2" != 0 ] || has "$1" "$3"; } && { [ "$4" != 0 ] || has "$1" "$5"; } && "$disk" check "$1" > /dev/null
}

put_beside_drive() {
    round=1
    while [ $round -le $rounds ]; do
        "$disk" new at_once.d64 --title ONCE --id 64 --replace || return 1
        "$disk" put at_once.d64 game.prg --name GAME 2> /dev/null &
        put=$!
        "$drive" at_once.d64 one.script at_once.d64 > /dev/null 2>&1
        drove=$?
        wait $put
        none_is_lost at_once.d64 $? GAME $drove ONE || return 1
        has at_once.d64 GAME && has at_once.d64 ONE || return 1
        round=$((round + 1))
    done
}
is "put beside drive1541, $rounds times: no file is lost" put_beside_drive

two_drives() {
    round=1
    while [ $round -le $rounds ]; do
        "$disk" new at_once.d64 --title ONCE --id 64 --replace || return 1
        "$drive" at_once.d64 two.script at_once.d64 > /dev/null 2>&1 &
        first=$!
        "$drive" at_once.d64 one.script at_once.d64 > /dev/null 2>&1
        drove=$?
        wait $first
        none_is_lost at_once.d64 $? TWO $drove ONE || return 1
        has at_once.d64 TWO && has at_once.d64 ONE || return 1
        round=$((round + 1))
    done
}
is "two drive1541, $rounds times: no file is lost" two_drives

# The same through a link in another folder.
mkdir links
two_writers_through_a_link() {
    round=1
    while [ $round -le $rounds ]; do
        "$disk" new at_once.d64 --title ONCE --id 64 --replace || return 1
        ln -sf ../at_once.d64 links/link.d64
        "$disk" put at_once.d64 game.prg --name GAME &
        put=$!
        "$disk" put links/link.d64 game.prg --name LINK
        linked=$?
        wait $put
        none_is_lost at_once.d64 $? GAME $linked LINK || return 1
        has at_once.d64 GAME && has at_once.d64 LINK || return 1
        round=$((round + 1))
    done
}
is "two puts, one through a link in another folder, $rounds times: no file is lost" two_writers_through_a_link

# A script that is typed locks nothing; where the image was changed meanwhile, that stays.
"$disk" new typed.d64 --title TYPED --id 64
mkfifo typed
"$drive" typed.d64 - typed.d64 < typed > out.txt 2> typed.txt &
typing=$!
exec 3> typed
printf 'open 1 LATE\nput 1 HI\nclose 1\n' >&3
sleep 1
case_of "put beside a script that is typed" 0 "" "" timeout 20 "$disk" put typed.d64 game.prg
printf 'status\n' >&3
exec 3>&-
wait $typing
is "the script ends with 3" test $? = 3
is "and says why" test "$(cat typed.txt)" = "file fault: typed.d64: another program changed it meanwhile, so nothing was saved"
is "and the image has what was put" has typed.d64 GAME

"$disk" new talk.d64 --title TALK --id 64
mkfifo talk
"$drive" reply talk.d64=talk.d64 < talk > out.txt 2> talk.txt &
talking=$!
exec 3> talk
printf '1000 atn pull\n' >&3
sleep 1
case_of "put beside a talk" 0 "" "" timeout 20 "$disk" put talk.d64 game.prg
printf 'end 3000\n' >&3
exec 3>&-
wait $talking
is "the talk ends with 3" test $? = 3
is "and says why" test "$(cat talk.txt)" = "file fault: talk.d64: another program changed it meanwhile, so nothing was saved"
is "and the image has what was put" has talk.d64 GAME

exit $wrong

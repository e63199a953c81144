#!/bin/sh
# Runs drive1541 without permission to write, without memory, and line by line from a pipe; its plain cases are data (check_cases.py).
# Usage: sh check_program.sh DRIVE1541 (the path of the built program). Prints one line a case; ends with 1 if one is wrong.
drive=$(realpath "$1")
. "$(dirname "$(realpath "$0")")/checks.sh"
cd "$work" || exit 1
cp "$examples/hello.d64" "$examples/hello.script" .
printf 'open 1 SAVED\nput 1 \\01\\08HI\nclose 1\nstatus\n' > save.script

# Root may write each file, so that another user tries it, in a folder that all may write.
printf old > locked.d64
chmod 444 locked.d64
chmod 777 "$work"
cp "$drive" drive1541
other=
if [ "$(id -u)" = 0 ]; then other="setpriv --reuid 65534 --regid 65534 --clear-groups"; fi
case_of "an OUT that may not be written" 3 any "file fault: locked.d64: permission denied" $other ./drive1541 hello.d64 hello.script locked.d64
is "what it was stays" test "$(cat locked.d64)" = old
case_of "a new OUT beside it" 0 any any $other ./drive1541 hello.d64 hello.script free.d64
is "and nothing is left beside them" test ! -e drive1541.0.new

printf old > small.d64
case_of "a limit on the file's size" 3 any "file fault: small.d64: file too large" sh -c "trap '' XFSZ; ulimit -f 100; exec $drive hello.d64 hello.script small.d64"
is "what OUT was stays" test "$(cat small.d64)" = old
is "and nothing is left beside" test ! -e drive1541.0.new

# Each request for memory is refused in turn, by functions that come before the C library's: the program ends well, or with 3 and
# nothing saved, and what it printed is a beginning.
if command -v cc > /dev/null; then
    cc -shared -fPIC -o refusing.so "$here/refusing.c"
    for script in hello.script save.script; do
        "$drive" hello.d64 $script whole.d64 > whole.txt
        for number in $(seq 0 99); do
            rm -f out.d64
            REFUSED=$number LD_PRELOAD=./refusing.so "$drive" hello.d64 $script out.d64 > out.txt 2> err.txt
            got=$?
            if [ $got = 0 ]; then
                cmp -s whole.txt out.txt && cmp -s whole.d64 out.d64 || got=wrong
            else
                [ $got = 3 ] && [ "$(cat err.txt)" = "no memory" ] && [ ! -e out.d64 ] &&
                    head -c "$(wc -c < out.txt)" whole.txt | cmp -s - out.txt || got=wrong
            fi
            [ $got = wrong ] && break
        done
        is "want of memory, request by request, in $script ($number)" test $got != wrong
    done
fi
is "each line of standard input is carried out at once" sh -c "(printf 'status\n'; sleep 1; cmp -s seen.txt - <<X || touch late
status 73,CBM DOS V2.6 1541,00,00
X
printf 'status\n') | $drive hello.d64 - > seen.txt && test ! -e late"
is "each line is seen at once" sh -c "(printf 'status\n'; sleep 1; cmp -s seen.txt - <<X || touch late
status 73,CBM DOS V2.6 1541,00,00
X
printf 'status\n') | $drive hello.d64 /dev/stdin none.d64 > seen.txt && test ! -e late"
exit $wrong

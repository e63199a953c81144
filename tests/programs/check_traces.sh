#!/bin/sh
# Checks the traces of drive1541 from outside: its VCD, decoded by sigrok-cli (if that is installed) and turned into lines by awk, and its pictures; the judge's cases are data (check_cases.py).
# Usage: sh check_traces.sh DRIVE1541 (the path of the built program). Prints one line a case; ends with 1 if one is wrong.
drive=$(realpath "$1")
. "$(dirname "$(realpath "$0")")/checks.sh"
cd "$work" || exit 1
cp "$examples/hello.d64" "$examples/hello.script" "$examples/listen.lines" .

# The parties' own lines of a VCD as lines: MOMENT WHO LINE WAY.
lines_of() {
    awk '
        $1 == "$scope" { scope = $3; sub(/^drive/, "", scope) }
        $1 == "$var" { name = $5; sub(/.*_/, "", name); if (name == "clk") name = "clock"; who[$4] = scope; line[$4] = name }
        $1 == "$upscope" { scope = "bus" }
        /^#/ { moment = substr($1, 2); next }
        /^\$dumpvars/ { listing = 1 }
        /^\$end/ { listing = 0 }
        /^[01]/ && !listing {
            code = substr($1, 2)
            if (who[code] != "bus") print moment, who[code], line[code], substr($1, 1, 1) == "0" ? "pull" : "free"
        }' "$1"
}

# The wires of a VCD are 0 just while a party pulls them.
wires_agree() {
    awk '
        $1 == "$scope" { scope = $3 }
        $1 == "$var" { name = $5; sub(/.*_/, "", name); wire[$4] = scope == "bus"; line[$4] = name }
        $1 == "$upscope" { scope = "bus" }
        function agree(name) { if ((pulls[name] > 0) != low[name]) bad = 1 }
        /^#/ { agree("atn"); agree("clk"); agree("data"); next }
        /^[01]/ {
            code = substr($1, 2)
            is_low = substr($1, 1, 1) == "0"
            if (wire[code]) low[line[code]] = is_low
            else { pulls[line[code]] += is_low - held[code]; held[code] = is_low }
        }
        END { agree("atn"); agree("clk"); agree("data"); exit bad }' "$1"
}

# name, script, further words: a script prints and saves what it does without a trace, and its trace is the same in both forms.
traced() {
    what=$1 script=$2
    shift 2
    "$drive" hello.d64 "$script" plain.d64 "$@" > plain.txt 2> plain.err
    was=$?
    "$drive" hello.d64 "$script" traced.d64 "$@" --trace trace.vcd > traced.txt 2> traced.err
    is "$what: ends as without a trace" test $? = $was
    is "$what: prints the same" cmp -s plain.txt traced.txt
    is "$what: says the same" cmp -s plain.err traced.err
    is "$what: saves the same" sh -c 'test ! -e plain.d64 && test ! -e traced.d64 || cmp -s plain.d64 traced.d64'
    "$drive" hello.d64 "$script" "$@" --trace trace.lines > /dev/null 2>&1
    lines_of trace.vcd > lines.txt
    is "$what: the VCD has the events of the lines" cmp -s trace.lines lines.txt
    is "$what: its wires are low while a party pulls them" wires_agree trace.vcd
    rm -f plain.d64 traced.d64
}

printf 'open 1 @0:SAVED\nput 1 \\01\\08HI\nclose 1\nopen 15 I\nget 15 40\nopen 0 $\nget 0 5000\nfill 3 300 41\nstatus\nget 4 9\n' > more.script
printf 'open 0 HELLO\nget 0 2\nbad\n' > bad.script
printf 'open 0 NONE\nget 0 9\nstatus\n' > missing.script
traced "requests" hello.script
traced "writing and a listing" more.script
traced "another device" more.script --device 10
traced "a KERNAL's pace" missing.script --pace kernal
traced "a protected disk" more.script --read-only --check
traced "a bad line" bad.script
traced "line changes" listen.lines
"$drive" hello.d64 listen.lines > printed.txt
"$drive" hello.d64 listen.lines --trace listen.trace > /dev/null
is "the trace of line changes is what they print" cmp -s printed.txt listen.trace

# Where the trace goes.
"$drive" hello.d64 hello.script > printed.txt
"$drive" hello.d64 hello.script --trace hello.trace > /dev/null
"$drive" hello.d64 hello.script --trace - > out.txt 2> err.txt
is "a trace to standard output is there alone" cmp -s hello.trace out.txt
is "and what the script prints on standard error" cmp -s printed.txt err.txt
"$drive" hello.d64 hello.script none.d64 --trace no/hello.vcd > out.txt 2> err.txt
is "no folder for the trace: 3" test $? = 3
is "no folder for the trace: it is said" test "$(cat err.txt)" = "file fault: no/hello.vcd: entity not found"
"$drive" hello.d64 hello.script none.d64 --trace /dev/full > out.txt 2> err.txt
is "a full device for the trace: 3" test $? = 3
is "a full device for the trace: OUT isn't written" test ! -e none.d64
"$drive" hello.d64 hello.script - --trace - > out.txt 2> err.txt
is "two things on standard output: 1" test $? = 1
COLUMNS=40 "$drive" hello.d64 hello.script --draw > out.txt 2> err.txt
is "a picture is as wide as COLUMNS" test "$(awk '{ if (length > most) most = length } END { print most }' out.txt)" -le 40
is "and has the bytes of the session" test "$(awk '/^     / { gsub(/eoi/, ""); printf "%s ", $0 }' out.txt | tr -s ' ')" = " 28 f0 48 45 4c 4c 4f 3f 48 60 01 02 03 5f 48 6f 30 30 2c 20 4f 4b 2c 30 30 2c 30 30 0d 5f "

# The bytes as another program finds them: OPEN of HELLO, its three bytes, and the status.
if command -v sigrok-cli > /dev/null; then
    "$drive" hello.d64 hello.script --trace hello.vcd > /dev/null
    decoded() {
        sigrok-cli -i "$1" -I vcd -P iec:data=data:clk=clk:atn=atn -A "iec=$2" | cut -d' ' -f2- | tr '\n' ' '
    }
    is "sigrok's bytes" test "$(decoded hello.vcd items)" = "28 F0 48 45 4C 4C 4F 3F 48 60 01 02 03 5F 48 6F 30 30 2C 20 4F 4B 2C 30 30 2C 30 30 0D 5F "
    is "sigrok's words" test "$(decoded hello.vcd gpib)" = "L8 O0 H E L L O UNL T8 R0       UNT T8 R? 0 0 ,   O K , 0 0 , 0 0 CR UNT "
    # LOAD"$",8: the directory as the drive sends it, a line each for the title, the file and the blocks that are free.
    printf 'open 0 $\nget 0 5000\nclose 0\n' > load.script
    "$drive" hello.d64 load.script --trace load.vcd > /dev/null
    hex() {
        printf "$1" | od -An -v -tx1 | tr -s ' \n' ' ' | tr a-f A-F | sed 's/^ //; s/ $//'
    }
    title=$(hex '\001\004\001\001\000\000\022"TEST            " AB 2A\000')
    file=$(hex '\001\001\001\000   "HELLO"            PRG  \000')
    free=$(hex '\001\001\227\002BLOCKS FREE.             \000\000\000')
    is "sigrok's bytes of LOAD\"\$\"" test "$(decoded load.vcd items)" = "28 F0 24 3F 48 60 $title $file $free 5F 28 E0 3F "
else
    echo "ok    sigrok-cli isn't installed: its look at a VCD is left out"
fi
exit $wrong

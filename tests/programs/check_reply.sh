#!/bin/sh
# Talks with drive1541 reply from outside: line changes and traces played by hand, a computer in Python; refused lines are data (check_cases.py).
# Usage: sh check_reply.sh DRIVE1541 [DISK1541] (the paths of the built programs). Prints one line a case; ends with 1 if one is wrong.
drive=$(realpath "$1")
tool=${2:+$(realpath "$2")}
. "$(dirname "$(realpath "$0")")/checks.sh"
cd "$work" || exit 1
cp "$examples/hello.d64" "$examples/hello.script" "$examples/listen.lines" "$examples/reply_host.py" "$examples/reply_socket.py" .

# The changes among the answers; the marks; the host's changes of a trace as lines.
changes() { grep -v '^ready\|^error' "$1"; }
marks() { grep -c '^ready' "$1"; }
host_of() { sed -n 's/ host / /p' "$1"; }

# ---- the same as a script

sed 1d listen.lines > listen.host
"$drive" hello.d64 listen.lines > listen.trace
"$drive" reply hello.d64 < listen.host > listen.answers
is "line changes: ends well" test $? = 0
changes listen.answers > listen.changes
is "line changes: the changes of the script" cmp -s listen.trace listen.changes
is "line changes: a mark for each line" test "$(marks listen.answers)" = "$(wc -l < listen.host)"

"$drive" hello.d64 hello.script --trace hello.trace > /dev/null
{ host_of hello.trace; echo "end 1000000"; } > hello.host
for word in 8 8:20 8:20:profile; do
    "$drive" reply hello.d64=hello.new --drive $word < hello.host > hello.answers
    is "a script's lines, $word: ends well" test $? = 0
    changes hello.answers > hello.changes
    is "a script's lines, $word: its trace" cmp -s hello.trace hello.changes
    is "a script's lines, $word: the disk stays" cmp -s hello.d64 hello.new
done
sed 's/$/\r/' hello.host > hello.dos
"$drive" reply hello.d64 < hello.dos > hello.answers
changes hello.answers > hello.changes
is "lines that end with a return: the same" cmp -s hello.trace hello.changes

# ---- direct access

printf 'open 2 #\nput 15 U1 2 0 18 1\nget 2 256\nput 15 M-R\\c6\\e5\\02\nget 15 2\nput 15 UI\nstatus\n' > direct.script
"$drive" --direct hello.d64 direct.script --trace direct.trace > direct.said
{ host_of direct.trace; echo "end 60000000"; } > direct.host
"$drive" reply --direct hello.d64=direct.new < direct.host > direct.answers
is "direct access: ends well" test $? = 0
changes direct.answers > direct.changes
is "direct access: its trace" cmp -s direct.trace direct.changes
is "direct access: a block is 256 bytes and more of ROM" test "$(grep -c '^get' direct.said)" = 2
is "direct access: the disk stays" cmp -s hello.d64 direct.new
"$drive" reply hello.d64 < direct.host > direct.plain
is "direct access: none unasked" test "$(changes direct.plain | cksum)" != "$(cksum < direct.trace)"
printf 'open 2 #\nput 15 U2 2 0 18 0\nstatus\n' > raw.script
"$drive" --direct=raw hello.d64 raw.script raw.d64 --trace raw.trace > raw.said
{ host_of raw.trace; echo "end 60000000"; } > raw.host
"$drive" reply --direct=raw hello.d64=raw.new < raw.host > raw.answers
is "raw access: ends well" test $? = 0
changes raw.answers > raw.changes
is "raw access: its trace" cmp -s raw.trace raw.changes
is "raw access: the BAM is written" cmp -s raw.d64 raw.new
is "raw access: it is another disk" test "$(cksum < raw.new)" != "$(cksum < hello.d64)"
"$drive" reply --direct hello.d64 hello.d64 hello.d64 hello.d64=four.new < direct.host > direct.four
is "direct access: four drives end well" test $? = 0
is "direct access: with four drives the host's lines stay" test "$(grep -c ' host ' direct.four)" = "$(grep -c ' host ' direct.trace)"
is "direct access: the fourth disk stays" cmp -s hello.d64 four.new

# ---- a talk by hand: what comes of each line

cat > talk.host <<'END'
0 atn pull
0 clock pull
until 20

; let go
200 clock free
until 220
300 clock pull
300 atn free
end 1000
END
cat > talk.wanted <<'END'
0 host atn pull
ready 0 20
0 host clock pull
ready 0 20
20 8 data pull
ready 20
ready 20
ready 20
200 host clock free
ready 200 220
220 8 data free
ready 220 440
300 host clock pull
ready 300
300 host atn free
ready 300 320
ready 1000
END
"$drive" reply hello.d64 < talk.host > talk.answers
is "a talk: the answers of docs/reply.md" cmp -s talk.wanted talk.answers

# A host that waits for each answer before it says more gets the same.
python3 - "$drive" > talk.waited <<'END'
import subprocess, sys
drives = subprocess.Popen([sys.argv[1], "reply", "hello.d64"], stdin=subprocess.PIPE, stdout=subprocess.PIPE, text=True)
for line in open("talk.host"):
    drives.stdin.write(line)
    drives.stdin.flush()
    for answer in drives.stdout:
        print(answer, end="")
        if answer.startswith("ready"):
            break
sys.exit(drives.wait())
END
is "a talk, each answer waited for: ends well" test $? = 0
is "a talk, each answer waited for: the same" cmp -s talk.wanted talk.waited

# ---- a computer

listing() {
    cat <<END
0 "TEST            " AB 2A
1    "HELLO"            PRG
1    "NOTE"             SEQ
662 BLOCKS FREE.
00, OK,00,00
END
}
listing > listing.one
for drives in "" "--drive 9:1" "--drive 8:60" "--drive 11:35:kernal" "--drive 8:20:kernal"; do
    rm -f new.d64
    python3 reply_host.py "$drive" hello.d64=new.d64 $drives > host.out
    is "a computer, $drives: ends well" test $? = 0
    is "a computer, $drives: the directory" cmp -s listing.one host.out
    printf 'open 2 NOTE,S\nget 2 100\nstatus\n' > note.script
    "$drive" new.d64 note.script > note.out
    grep -q '^get 2 48454c4c4f20[0-9]*0d eoi$' note.out
    is "a computer, $drives: the file" test $? = 0
done
if [ -n "$tool" ]; then "$tool" convert hello.d64 hello.g64; other=hello.g64; else other=hello.d64; fi
listing > listing.all
listing >> listing.all
python3 reply_host.py "$drive" hello.d64=a.new $other=b.new > host.out
is "two drives, $other: the directories" cmp -s listing.all host.out
listing >> listing.all
listing >> listing.all
python3 reply_host.py "$drive" hello.d64=a.new $other=b.new hello.d64=c.new hello.d64=d.new --drive 11:60:kernal --drive 8:1 --drive 10:20 --drive 9:33:kernal > host.out
is "four drives: the directories" cmp -s listing.all host.out
for new in a b c d; do
    "$drive" $new.new note.script > note.out
    grep -q '^get 2 48454c4c4f20[0-9]*0d eoi$' note.out
    is "four drives: the file of $new" test $? = 0
done

# ---- a socket

python3 reply_socket.py 0 "$drive" hello.d64=socket.new > port.txt &
server=$!
for _ in $(seq 100); do [ -s port.txt ] && break; sleep 0.1; done
cat > client.py <<'END'
import socket, sys
with socket.create_connection(("127.0.0.1", int(sys.argv[1]))) as it:
    it.sendall(sys.stdin.buffer.read())
    it.shutdown(socket.SHUT_WR)
    while answer := it.recv(65536):
        sys.stdout.buffer.write(answer)
END
"$drive" reply hello.d64=pipe.new < hello.host > pipe.answers
for round in one two; do
    rm -f socket.new
    python3 client.py "$(cat port.txt)" < hello.host > socket.answers
    for _ in $(seq 100); do [ -s socket.new ] && break; sleep 0.1; done
    is "a socket, connection $round: the answers of a pipe" cmp -s pipe.answers socket.answers
    is "a socket, connection $round: the image is saved" cmp -s pipe.new socket.new
done
kill $server

# ---- the end

cp hello.d64 same.d64
head -n -1 hello.host | "$drive" reply same.d64=same.d64 > ended.answers
is "no end: ends well" test $? = 0
is "no end: the image is saved" cmp -s hello.d64 same.d64
exit $wrong

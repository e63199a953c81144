# Read by the scripts of this folder: a folder to work in, and how a line is printed for each case.
# A script has: . "$(dirname "$(realpath "$0")")/checks.sh"
set -u
here=$(dirname "$(realpath "$0")")
examples=$(realpath "$here/../../examples")
work=$(mktemp -d)
trap 'rm -rf "$work"' EXIT
wrong=0

# name, expected status, standard output and standard error, then the command; `any` accepts any output
case_of() {
    name=$1 want=$2 out=$3 text=$4
    shift 4
    "$@" > out.txt 2> err.txt
    got=$?
    if [ "$got" = "$want" ] && { [ "$out" = any ] || [ "$(cat out.txt)" = "$out" ]; } && { [ "$text" = any ] || [ "$(cat err.txt)" = "$text" ]; }; then
        echo "ok    $name"
    else
        echo "WRONG $name: status $got, $(cat out.txt err.txt)"
        wrong=1
    fi
}

# name, then a command that must end with 0
is() {
    name=$1
    shift
    if "$@"; then echo "ok    $name"; else echo "WRONG $name"; wrong=1; fi
}

#!/bin/sh
# How the program ends, which no contract says: with status 0; with 1 and nothing on standard error where a junction
# is refused; with 1 and one line there, and no answer, after an error.
# Usage: tools/endings.sh PROGRAM
set -eu
program=$1
box=$(mktemp -d)
trap 'rm -rf "$box"' EXIT
faults=0

# ends NAME STATUS ANSWERS SAID WORD..: the lines wanted on standard output and on standard error; the text is $box/text.
ends() {
    name=$1 status=$2 answers=$3 said=$4
    shift 4
    got=0
    "$program" "$@" <"$box/text" >"$box/out" 2>"$box/err" || got=$?
    if [ "$got $(wc -l <"$box/out") $(wc -l <"$box/err")" != "$status $answers $said" ]; then
        echo "endings: $name: status $got, $(wc -l <"$box/out") lines and $(wc -l <"$box/err") said; wanted $status, $answers and $said" >&2
        faults=$((faults + 1))
    fi
}

printf 'cycle 60\nnorth least 8 comes 14\n' >"$box/text"
ends 'a plan' 0 1 0
ends 'a file that is not there' 1 0 1 "$box/none"
ends 'an unknown word' 1 0 1 --none
ends 'two files' 1 0 1 one two
printf 'cycle 10\nnorth least 8 comes 14\n' >"$box/text"
ends 'no plan' 0 1 0
printf 'cycle 130\nnorth least 8 comes 14\n' >"$box/text"
ends 'a refusal' 1 1 0
printf 'junction high\ncycle 130\nnorth least 8 comes 14\njunction low\ncycle 60\nnorth least 8 comes 14\n' >"$box/text"
ends 'a refusal before a plan' 1 2 0
[ "$faults" -eq 0 ]

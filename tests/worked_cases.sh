#!/bin/sh
# The cases of two folders on a built program: what each prints, to the byte, and its exit status.
#
#     tests/worked_cases.sh PROGRAM [CASE..]
#
# Short scripts, each with what it prints, stand in worked_cases/, and whole dialogues, with what RFC 9051, RFC 2033 and RFC 5321 say of them, in dialogues/.
# A case is NAME.args (a word a line), NAME.stdin, NAME.stdout and NAME.status; one of the dialogues is asked for as dialogues/NAME. Where the command line
# is refused (status 2) what the program prints is clap's, and isn't compared.
set -eu
program=$1
shift
cases=$(CDPATH= cd -- "$(dirname -- "$0")" && pwd)
if [ $# -eq 0 ]; then
    set -- $(cd "$cases" && ls -- worked_cases/*.args dialogues/*.args | sed 's/\.args$//')
fi
wrote=$(mktemp)
trap 'rm -f "$wrote"' EXIT

# Runs the program with the words of a file, one a line.
run_with() {
    words=$1
    set --
    while IFS= read -r word; do
        set -- "$@" "$word"
    done <"$words"
    "$program" "$@"
}

passed=0 failed=0
for name in "$@"; do
    case $name in
        */*) case=$name ;;
        *) case=worked_cases/$name ;;
    esac
    status=0
    run_with "$cases/$case.args" <"$cases/$case.stdin" >"$wrote" 2>/dev/null || status=$?
    if [ "$status" -ne "$(cat "$cases/$case.status")" ]; then
        failed=$((failed + 1))
        echo "$case: the status is $status, and not $(cat "$cases/$case.status")"
    elif [ "$status" -ne 2 ] && ! cmp -s "$wrote" "$cases/$case.stdout"; then
        failed=$((failed + 1))
        echo "$case: something else is printed:"
        diff "$cases/$case.stdout" "$wrote" | head -n 20 || true
    else
        passed=$((passed + 1))
    fi
done
echo "$passed passed, $failed failed"
[ "$failed" -eq 0 ]

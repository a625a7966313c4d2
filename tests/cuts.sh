#!/bin/sh
# Worked cases and a dialogue, with what each peer says cut at every position into two pieces and into single bytes: the program prints the same.
#
#     tests/cuts.sh PROGRAM [CASE..]
set -eu
program=$1
shift
tests=$(CDPATH= cd -- "$(dirname -- "$0")" && pwd)
if [ $# -eq 0 ]; then
    set -- dots bare-cr-and-lf paths-and-folders noop-lf-quit expunge append append-with-flags dialogues/literals-and-lines
fi
room=$(mktemp -d)
trap 'rm -rf "$room"' EXIT
export LC_ALL=C

passed=0 failed=0
for case in "$@"; do
    case $case in
        */*) cases=$tests ;;
        *) cases=$tests/worked_cases ;;
    esac
    words=$(cat "$cases/$case.args")
    od -An -v -tx1 "$cases/$case.stdin" >"$room/bytes"
    first=0 length=$(wc -c <"$cases/$case.stdin")
    while [ "$first" != done ]; do
        awk -v first="$first" -f "$tests/cut_script.awk" "$room/bytes" >"$room/script"
        status=0
        # (no word of these cases has a space in it)
        "$program" $words <"$room/script" >"$room/wrote" || status=$?
        if [ "$status" -eq "$(cat "$cases/$case.status")" ] && cmp -s "$room/wrote" "$cases/$case.stdout"; then
            passed=$((passed + 1))
        else
            failed=$((failed + 1))
            echo "$case, cut at $first: the status is $status; what is printed differs so:"
            diff "$cases/$case.stdout" "$room/wrote" | head -n 10 || true
        fi
        case $first in
            each) first=done ;;
            *) if [ "$first" -lt "$length" ]; then first=$((first + 1)); else first=each; fi ;;
        esac
    done
done
echo "$passed passed, $failed failed"
[ "$failed" -eq 0 ]

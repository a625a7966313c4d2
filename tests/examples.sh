#!/bin/sh
# Each script of examples/ on a built program: it prints what stands beside it as NAME.stdout, to the byte, and its status is 0.
#
#     tests/examples.sh PROGRAM
#
# The options and mailboxes are those of the line `#     ./run script .. < examples/NAME` in the script's own head, so that a reader who
# follows the line sees what is tried here.
set -eu
program=$1
examples=$(CDPATH= cd -- "$(dirname -- "$0")/../examples" && pwd)
wrote=$(mktemp)
trap 'rm -f "$wrote"' EXIT

# The words behind `./run` of an example's own line.
words_of() {
    sed -n "s|^#     \./run \(.*\) < examples/$1\$|\1|p" "$examples/$1"
}

# Why an example isn't right; nothing where it is.
fault_of() {
    words=$(words_of "$1")
    if [ -z "$words" ]; then
        echo 'its head has no line that says how it is run'
        return
    fi
    status=0
    # (no word of these lines has a space in it)
    # shellcheck disable=SC2086
    "$program" $words <"$examples/$1" >"$wrote" || status=$?
    if [ "$status" -ne 0 ]; then
        echo "the status is $status"
    elif ! diff "$examples/$1.stdout" "$wrote"; then
        echo 'what is printed differs so'
    fi
}

passed=0 failed=0
for example in $(cd "$examples" && find . -maxdepth 1 -type f ! -name '*.*' | sed 's|^\./||' | sort); do
    fault=$(fault_of "$example" 2>&1)
    if [ -z "$fault" ]; then
        passed=$((passed + 1))
    else
        failed=$((failed + 1))
        printf '%s: %s\n' "$example" "$fault"
    fi
done
echo "$passed passed, $failed failed"
[ "$passed" -gt 0 ] && [ "$failed" -eq 0 ]

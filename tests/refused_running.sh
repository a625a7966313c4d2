#!/bin/sh
# The running house with two workers, two shards and a session (the small plan of `running_bench`), with each allocation refused in turn: the
# Nth call of malloc or realloc answers NULL, for N from 1 until twenty runs in a row print the whole report, since what is refused then is
# refused behind it; and with each thread refused in turn. Each run must end within a minute, and in one of these ways:
# - with a report: each mailbox's accepted copies have their texts there, and no copy is told that isn't accepted;
# - with `no report:` and a reason, or as a program that has no memory to begin with; but never as torn.
#
#     tests/refused_running.sh PROGRAM
#
# PROGRAM is `running_bench`, as built; behind its small plan it goes on to measure, which is cut short here.
set -eu
top=$(CDPATH= cd -- "$(dirname -- "$0")/.." && pwd)
program=$(CDPATH= cd -- "$(dirname -- "$1")" && pwd)/$(basename -- "$1")
room=$(mktemp -d)
trap 'rm -rf "$room"' EXIT

compiler=
for name in ${CC:-} cc gcc clang; do
    if command -v "$name" >/dev/null; then
        compiler=$name
        break
    fi
done
"${compiler:?there is no C compiler}" -O1 -shared -fPIC -o "$room/refuse.so" "$top/tests/refuse.c" -ldl

# A run in which the thing of this number is refused. Its small plan's report is in `report`, what it says of faults in `faults`.
run_refused() {
    status=0
    timeout 60 env "$1=$2" LD_PRELOAD="$room/refuse.so" "$program" >"$room/out" 2>"$room/faults" || status=$?
    sed '/ lanes and .* are closed$/q' "$room/out" >"$room/report"
}

# Whether the small plan's report is the whole one.
is_whole() {
    cmp -s "$room/report" "$room/wanted"
}

# Why a run isn't right; nothing where it is.
fault_of() {
    if [ "$status" -eq 124 ]; then
        echo 'it takes more than a minute'
    elif grep -qi 'torn' "$room/faults"; then
        echo 'it is torn'
    elif grep -q ' are closed$' "$room/report"; then
        accepted=$(sed -n 's/^\(mailbox [0-9]*: UID [0-9]*\) is recipient .*/\1/p' "$room/report" | sort)
        there=$(sed -n 's/^\(mailbox [0-9]*: UID [0-9]*\) has .*/\1/p' "$room/report" | sort)
        [ "$accepted" = "$there" ] || echo 'what was accepted is not what is there'
        [ -z "$(printf '%s\n' "$accepted" | uniq -d)" ] || echo 'a copy is there twice'
    elif [ "$status" -ge 126 ]; then
        echo "its status is $status"
    elif [ "$status" -eq 0 ]; then
        echo 'it ends well without a report'
    fi
}

sed '/ lanes and .* are closed$/q' "$top/crates/running_bench/stdout" >"$room/wanted"
tried=0 failed=0 refused=0 whole=0
# Tries one.
try() {
    run_refused "$1" "$2"
    fault=$(fault_of)
    tried=$((tried + 1))
    if grep -q '^no report:' "$room/faults"; then refused=$((refused + 1)); fi
    if [ -n "$fault" ]; then
        failed=$((failed + 1))
        echo "$1=$2: $fault"
        cat "$room/faults"
    fi
    if is_whole; then whole=$((whole + 1)); else whole=0; fi
}

for kind in SPAWN_AT REFUSE_AT; do
    number=1 whole=0
    while [ "$number" -le 2000 ] && [ "$failed" -lt 10 ] && [ "$whole" -lt 20 ]; do
        try "$kind" "$number"
        number=$((number + 1))
    done
done
echo "of these $refused had no report"
echo "$((tried - failed)) passed, $failed failed"
[ "$tried" -gt 2 ] && [ "$failed" -eq 0 ]

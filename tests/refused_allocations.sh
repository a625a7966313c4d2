#!/bin/sh
# Worked cases, with each allocation of the program refused in turn: the Nth call of malloc or realloc answers NULL, for N from 1 until a
# run meets none (`refuse.c`). Each run must end in one of these ways:
# - with status 5, and what was written is a beginning of what the whole run writes;
# - with status 0, and what was written is that up to a first line `451 4.3.0 Out of memory` of a connection, `NO Out of memory` under a
#   tag of a session, or `* BYE Out of memory`, behind which the script goes on;
# - with status 0 and the whole output, where the program could do without that memory.
# And where a copy was answered `Delivered`, or `OK` with APPENDUID or COPYUID, and the script came to its TAIL, the mailbox has it, under the UID that was told. Each case
# ends with a TAIL for that. Whatever was refused, the text of a literal is never answered as a command: such texts have tags that begin with x.
# Where a SELECT or EXAMINE isn't answered OK no mailbox is selected, as the next CLOSE tells; and one behind another tells first that the other is closed.
# Two cases are of the compatible profile: there a literal may be an argument of any command, a response comes on a line of its own, and messages are copied.
# With no argument it builds the program; else the argument is the program.
set -eu
top=$(CDPATH= cd -- "$(dirname -- "$0")/.." && pwd)
case $# in
0)
    program=$top/crates/post_house/out/post_house
    (cd "$top/crates/post_house" && rt run -- --help) > /dev/null
    ;;
*) program=$(CDPATH= cd -- "$(dirname -- "$1")" && pwd)/$(basename -- "$1") ;;
esac
room=$(mktemp -d)
trap 'rm -rf "$room"' EXIT

compiler=
for name in ${CC:-} cc gcc clang; do
    if command -v "$name" > /dev/null; then
        compiler=$name
        break
    fi
done
"${compiler:?there is no C compiler}" -O1 -shared -fPIC -o "$room/refuse.so" "$top/tests/refuse.c" -ldl

standard='script --depth 2 --ring 16 --messages 8 --uidvalidity 7 alice bob'
compatible='script --compatible --depth 2 --ring 16 --messages 8 --uidvalidity 7 alice bob'
refusal='^(L[1-8] 451 4[.]3[.]0|I[1-8] [^ *]+ NO|I[1-8] [*] BYE) Out of memory$'

# Whether the bytes of a file are the first ones of what is wanted.
is_beginning() {
    head -c "$(wc -c < "$1")" "$want" | cmp -s - "$1"
}

# Whether the output is right for this status.
is_right() {
    case $1 in
    5) is_beginning "$room/out" ;;
    0)
        cmp -s "$want" "$room/out" && return 0
        grep -qE "$refusal" "$room/out" || return 1
        awk -v refusal="$refusal" '$0 ~ refusal { exit } { print }' "$room/out" > "$room/before"
        is_beginning "$room/before"
        ;;
    *) return 1 ;;
    esac
}

# Whether each copy that was answered as delivered, or that a client appended or had copied, stands in the mailbox, where the script came that far: the UIDs that were told are UIDs of
# messages that were added, none is told twice, and no more copies are answered than were added. Where all mail came from a client that isn't told BYE, whatever else was added is gone
# again; or all copies of the one command stand whose NO speaks of what is shown behind them. a7 and a8 copy two messages each, the other commands one.
is_kept() {
    grep -q '^T alice total' "$room/out" || return 0
    awk '
        function tell(uid) {
            answered++
            if (uid in told) wrong = 1
            told[uid] = 1
        }
        function tell_set(set, runs, ends, count, run, uid) {
            sub(/\]$/, "", set)
            count = split(set, runs, ",")
            for (run = 1; run <= count; run++) {
                if (split(runs[run], ends, ":") == 1) ends[2] = ends[1]
                for (uid = ends[1] + 0; uid <= ends[2] + 0; uid++) tell(uid)
            }
        }
        /^L1 250 2\.1\.5 Delivered$/ { answered++ }
        /^L1/ || /BYE/ { others = 1 }
        $1 == "I1" && $3 == "OK" && ($4 == "[APPENDUID" || $4 == "[COPYUID") {
            if ($5 != 7) wrong = 1
            tell_set($4 == "[COPYUID" ? $7 : $6)
        }
        $1 == "I1" && $3 == "NO" { named = $2 ~ /^a[78]$/ ? 2 : 1 }
        /^T alice add / { added[$4] = 1; count++ }
        /^T alice gone / { gone[$4] = 1 }
        END {
            for (uid in told)
                if (!(uid in added)) wrong = 1
            for (uid in added)
                if (!others && !(uid in told) && !(uid in gone)) untold++
            exit (wrong || answered > count || untold && untold != named)
        }
    ' "$room/out"
}

# Whether no text of a literal was answered as a command.
is_unanswered() {
    ! grep -q '^I[1-8] x' "$room/out"
}

# Whether a mailbox is selected just where a SELECT or EXAMINE told so, and each is told to be closed behind which another is asked for. Their tags begin with
# s, and those of CLOSE with c.
is_selected_as_told() {
    awk '
        $3 == "OK" && $4 == "[CLOSED]" { closed = 1 }
        $2 ~ /^s/ && selected != closed { wrong = 1 }
        $2 ~ /^s/ { selected = $3 == "OK"; closed = 0 }
        $2 ~ /^c/ && $3 == "OK" && !selected { wrong = 1 }
        $2 ~ /^c/ && $3 == "BAD" && selected { wrong = 1 }
        $2 ~ /^c/ && $3 == "OK" { selected = 0 }
        END { exit wrong + 0 }
    ' "$room/out"
}

# Runs the case with the allocation of this number refused.
run_at() {
    rm -f "$room/met"
    status=0
    # shellcheck disable=SC2086
    REFUSE_AT=$1 MET_AT=$room/met LD_PRELOAD=$room/refuse.so \
        "$program" $words < "$input" > "$room/out" 2> "$room/faults" || status=$?
}

# Counts a run: its number, and whether it was right.
count() {
    if test "$2" = right; then
        passed=$((passed + 1))
    else
        failed=$((failed + 1))
        echo "$case, allocation $1: status $status, and this was written:"
        cat "$room/out"
    fi
}

# All runs of a case. The last one meets no refusal, so it is the whole one.
try_case() {
    at=1
    while run_at "$at" && test -e "$room/met"; do
        if is_right "$status" && is_kept && is_unanswered && is_selected_as_told; then count "$at" right; else count "$at" wrong; fi
        at=$((at + 1))
    done
    if test "$status" = 0 && cmp -s "$want" "$room/out"; then count none right; else count none wrong; fi
}

passed=0 failed=0
for case in first-message two-recipients-one-unknown select-and-list select-behind-another expunge partial-and-seen idle append commands-in-literals literals-in-commands copies; do
    input=$top/tests/cases/$case.stdin want=$top/tests/cases/$case.stdout
    # The first message is what the program's stored run reads.
    if test "$case" = first-message; then
        input=$top/crates/post_house/stdin want=$top/crates/post_house/stdout
    fi
    words=$standard
    case $case in literals-in-commands | copies) words=$compatible ;; esac
    try_case
done
echo "$passed passed, $failed failed"
test "$failed" = 0

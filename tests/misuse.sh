#!/bin/sh
# Permits that are misused: put with a permit that was ended, ended twice, copied, or let go. Each misuse is written into a scratch copy of `shard_queue`, and
# the compiler must refuse it, at that file and with the answer that stands beside it. The same calls, used well, must be proved there: so a refusal is due to
# the misuse and to nothing else. The checkout stays as it is.
#
#     tests/misuse.sh [ShardQueue | ReplyChannel]
set -eu
top=$(CDPATH= cd -- "$(dirname -- "$0")/.." && pwd)
room=$(mktemp -d)
trap 'rm -rf "$room"' EXIT

crate=$room/crates/shard_queue
mkdir -p "$crate"
cp "$top/HANDLES" "$room/"
grep '^shard_queue:' "$top/crates.txt" > "$room/crates.txt"
for part in src specs proofs; do
    cp -R "$top/crates/shard_queue/$part" "$crate/"
done
echo 'mod misuse;' >> "$crate/src/lib.rt"

passed=0 failed=0

# Standard input is the misuse; the arguments are its name, and what the compiler must answer.
refused() {
    cat > "$crate/src/misuse.rt"
    if (cd "$crate" && rt check --jobs 1) > "$room/answer" 2>&1; then
        failed=$((failed + 1))
        echo "$1: it was proved"
    elif grep '^src/misuse\.rt:' "$room/answer" | grep -qF -- "error$2"; then
        passed=$((passed + 1))
    else
        failed=$((failed + 1))
        echo "$1: the compiler says"
        cat "$room/answer"
    fi
}

# Standard input is a function `well_used`, which must be proved; the argument is its name here.
proved() {
    cat > "$crate/src/misuse.rt"
    if (cd "$crate" && rt check --jobs 1 --only shard_queue::misuse::well_used) > "$room/answer" 2>&1; then
        passed=$((passed + 1))
    else
        failed=$((failed + 1))
        echo "$1: the compiler says"
        cat "$room/answer"
    fi
}

# The calls of one kind of lane: $1 is the lane, $2 the producer's permit, $3 what is left of it, $4 the call that puts, $5 the condition on the permit; $6 and $7 are the
# modules of the lane and of its permits, $8 that of the condition.
judge() {
    uses="use crate::$6::$1;
use crate::$7::{$3, $2};
use std::sync::Wait;

type Permit = $2<u32>;
type Answer = Result<$3<u32>, Permit>;"

    proved "$1, used well" << RT
ghost use Rattle.shard_queue.specs.$8.{$5};

$uses

pub fn well_used<R: Wait>(rt: &R, lane: &$1<u32>, mut permit: Permit) -> Answer
    requires { $5 lane.now permit }
{
    let _ = lane.$4(rt, &mut permit, 1);
    lane.end_as(rt, permit)
}
RT

    refused "$1, put after the end" '[borrow-e0382]: borrow of moved value: `permit`' << RT
$uses

pub fn misuse<R: Wait>(rt: &R, lane: &$1<u32>, mut permit: Permit) -> Answer {
    let answer = lane.end_as(rt, permit);
    let _ = lane.$4(rt, &mut permit, 1);
    answer
}
RT

    refused "$1, ended twice" '[borrow-e0382]: use of moved value: `permit`' << RT
$uses

pub fn misuse<R: Wait>(rt: &R, lane: &$1<u32>, permit: Permit) -> (Answer, Answer) {
    let first = lane.end_as(rt, permit);
    let second = lane.end_as(rt, permit);
    (first, second)
}
RT

    refused "$1, a copy of a permit" '[borrow-e0382]: use of moved value: `permit`' << RT
$uses

pub fn misuse(permit: Permit) -> (Permit, Permit) {
    let copy = permit;
    (copy, permit)
}
RT

    refused "$1, a copy from behind a reference" '[move-out-of-place]: cannot move out of `*permit` which is behind a shared reference' << RT
$uses

pub fn misuse(permit: &Permit) -> Permit {
    *permit
}
RT

    refused "$1, a permit that is let go" '[linear-value-let-go]: `_permit` is let go where its block ends' << RT
$uses

pub fn misuse(_permit: Permit) {}
RT

    refused "$1, an ended permit that is let go" '[linear-value-let-go]: `_ended` is let go where its block ends' << RT
$uses

pub fn misuse(_ended: $3<u32>) {}
RT
}

wanted=${1:-ShardQueue ReplyChannel}
for lane in $wanted; do
    case $lane in
    ShardQueue) judge ShardQueue ProducerPermit Ended put_as IsProducer queue queue Permits ;;
    ReplyChannel) judge ReplyChannel SenderPermit SenderEnded put_as IsSender reply reply Reply ;;
    *) echo "no such lane: $lane" >&2; exit 2 ;;
    esac
done

echo "$passed passed, $failed failed"
test "$failed" = 0

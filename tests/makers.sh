#!/bin/sh
# Three things that no clause refuses. Only what lays a house out makes mailboxes: a consumer that made one of its own could deliver there and
# tell that the copy is stored, since of a mailbox behind a lock nothing is known but its number. And a receipt is spent in three places alone,
# each of which tells the verdict: one who spent a receipt elsewhere could deliver a copy twice and tell of it once. The texts of a server
# are charged to the one budget of its floor: what a text stands for says nothing of its charge, so whoever made a budget of his own, or a text without one,
# would go past the limit. Crates of tests make all of these to try them, as their modules of tests do.
set -eu
cd "$(dirname -- "$0")/.."
failed=0

# The files of src/, but for those of tests, that have these words in code.
have() {
    grep -rnE "$1" crates/*/src | grep -vE '^crates/tests_[a-z_]*/|/src/tests\.rt:|:[0-9]+: *(//|ghost |ensures|requires|[(λ])' | cut -d: -f1 | sort | uniq -c | sed 's/^ *//' | tr '\n' ' '
}

expect() {
    if [ "$2" != "$3" ]; then
        echo "makers: $1: $2"
        failed=1
    fi
}

expect "mailboxes are made in" "$(have 'Mailbox::new\(')" "1 crates/delivery_core/src/make.rt 2 crates/house_shared/src/fittings.rt "
expect "receipts are spent in" "$(have 'verdict_of\(')" "1 crates/delivery_core/src/steps.rt 1 crates/locked_mailbox/src/locked.rt 1 crates/mailbox/src/answers.rt "
expect "budgets are made in" "$(have 'Budget::(new|unlimited)\(')" "1 crates/delivery_token/src/lib.rt 1 crates/house/src/house.rt 1 crates/house/src/sessions.rt 2 crates/house_shared/src/fittings.rt 1 crates/session_thread/src/life.rt "
expect "texts are made in" "$(have 'Text::(new|with_date|charged)\(')" "2 crates/delivery_token/src/lib.rt 1 crates/imap_session/src/appending.rt 1 crates/lmtp_machine/src/machine.rt "
[ $failed = 1 ] || echo "mailboxes are made in two places, receipts spent in three, and a server has one budget"
exit $failed

#!/bin/sh
# Takes the mail out of a running server into Maildirs: mbsync pulls what is new of each mailbox, and what is on the
# disk then is removed from the server. It may be run at any time and as often as one likes, also when the server has
# started anew since the last time.
#
#     examples/take_mail.sh FOLDER PORT USER..
#
# PORT is the first user's, and the users stand in the order of the server's command line, without their folders.
# FOLDER/USER/INBOX becomes a Maildir, and so does FOLDER/USER/NAME for each folder. Packages: isync (it has mbsync),
# curl.
#
# The status is 0 where each message that stood in a mailbox as mbsync selected it is in its Maildir. Else it says what
# went wrong, goes on with the next user, and what wasn't taken is in the server still: run it again. A message is
# removed from the server only behind a pull that ended well, and under the UIDVALIDITY of that pull. Nothing is removed
# from a Maildir. A pull that was killed may bring a message twice.
set -eu
if [ $# -lt 3 ]; then
    echo 'take_mail: FOLDER PORT USER..' >&2
    exit 2
fi
folder=$1
port=$2
shift 2
umask 077
# mbsync doesn't start without it, and a service may have none.
export HOME="${HOME:-/}"
mkdir -p "$folder"
# One at a time.
exec 9>"$folder/.taking"
flock 9
room=$(mktemp -d)
trap 'rm -rf "$room"' EXIT
trap 'exit 1' HUP INT TERM

# Asks the server: what stands behind the port in the address, then curl's options. Where clients log in (`--compatible`) any
# password is right; else nobody is asked for one.
ask() {
    address=imap://127.0.0.1:$port/$1
    shift
    curl -sS -m 60 -u "$user:x" -o "$room/answer" "$@" "$address"
}

# The names of the user's mailboxes, each a line.
names() {
    ask '' && tr -d '\r' <"$room/answer" | sed -n 's|^\* LIST .* "/" ||p'
}

# The UIDVALIDITY, which is one for all mailboxes of a server.
validity() {
    ask '' -X 'STATUS INBOX (UIDVALIDITY)' && tr -d '\r' <"$room/answer" | sed -n 's/^\* STATUS INBOX (UIDVALIDITY \([0-9]*\))$/\1/p'
}

# Forgets what mbsync has noted of a mailbox under another UIDVALIDITY, where that was cut short before the server started
# anew: mbsync would stop at it, and pull nothing. $1 is the mailbox's Maildir.
forget_earlier_starts() {
    notes=$1/.mbsyncstate
    if ! grep -qsxF "FarUidValidity $valid" "$notes" && ! grep -qs "^| $valid " "$notes.journal"; then
        rm -f "$notes" "$notes.new" "$notes.journal"
    fi
}

configure() {
    cat <<MBSYNC
IMAPAccount house
Host 127.0.0.1
Port $port
SSLType None
User $user
Pass x
AuthMechs LOGIN

IMAPStore far
Account house

MaildirStore near
Path $place/
Inbox $place/INBOX

Channel house
Far :far:
Near :near:
Patterns $(echo $mailboxes)
Sync PullNew
Create Near
SyncState *
MBSYNC
}

# The UID of a mailbox's first message; nothing where it has none.
first_uid() {
    ask '' -X "STATUS $1 (MESSAGES)" || return 1
    if ! grep -q '(MESSAGES 0)' "$room/answer"; then
        ask "$1" -X 'FETCH 1 UID' && tr -d '\r' <"$room/answer" | sed -n 's/^\* 1 FETCH (UID \([0-9]*\))$/\1/p'
    fi
}

# Removes from the server what the last pull of a mailbox has brought, fifty UIDs at a time, since curl takes no long
# answers. It goes no further where the mailbox has another UIDVALIDITY by now.
remove_pulled() {
    notes=$place/$1/.mbsyncstate
    last=$(sed -n 's/^MaxPulledUid //p' "$notes")
    pulled=$(sed -n 's/^FarUidValidity //p' "$notes")
    while first=$(first_uid "$1") || return 1; [ "${first:-4294967295}" -le "${last:-0}" ]; do
        to=$((first + 49))
        [ "$to" -le "$last" ] || to=$last
        ask "$1;UIDVALIDITY=$pulled" -X "UID STORE $first:$to +FLAGS.SILENT (\\Deleted)" &&
            ask "$1;UIDVALIDITY=$pulled" -X "UID EXPUNGE $first:$to" || return 1
    done
    # What was pulled is gone from the server, so there is nothing to be noted any more.
    rm -f "$notes"
}

take() {
    place=$folder/$user
    mkdir -p "$place" && mailboxes=$(names) && valid=$(validity) && [ -n "$mailboxes" ] && [ -n "$valid" ] || return 1
    if [ "$valid" -eq 1 ]; then
        echo 'take_mail: the server was given no UIDVALIDITY that grows' >&2
        return 1
    fi
    for name in $mailboxes; do
        forget_earlier_starts "$place/$name" || return 1
    done
    configure >"$room/mbsyncrc" && mbsync -q -c "$room/mbsyncrc" house || return 1
    for name in $mailboxes; do
        remove_pulled "$name" || return 1
    done
}

status=0
for user in "$@"; do
    take || {
        echo "take_mail: not all mail of $user was taken" >&2
        status=1
    }
    port=$((port + 1))
done
exit "$status"

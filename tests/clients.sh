#!/bin/sh
# A server and the clients that people use: mail is brought by Postfix's lmtp(8), by swaks and by msmtp; curl reads
# messages, sets flags and appends, mbsync pulls a mailbox, twice, with messages gone and come in between, and Python's
# imaplib reads, appends, sets flags and expunges. What each of them reads is what was brought, byte for byte.
#
#     tests/clients.sh PROGRAM
#
# PROGRAM is the built program. Postfix runs as an instance of its own, with its configuration and its queue in a
# scratch folder, and is started by the superuser alone. Packages: postfix, swaks, msmtp, isync, curl, python3; what is
# missing is a failure that names it.
set -eu
program=$1
PATH=$PATH:/usr/sbin
export LC_ALL=C
here=$(CDPATH='' cd -- "$(dirname -- "$0")" && pwd)
room=$(mktemp -d)
# Postfix's own users look for their files below it.
chmod 755 "$room"
server='' postfix_runs=''

clean() {
    trap '' HUP INT TERM
    if [ -n "$postfix_runs" ]; then
        postfix -c "$room/postfix" stop >/dev/null 2>&1 || true
    fi
    if [ -n "$server" ]; then
        kill "$server" 2>/dev/null || true
    fi
    rm -rf "$room"
}
trap clean EXIT
trap 'exit 1' HUP INT TERM

passed=0 failed=0

# A check: its name, then a command, whose output is shown where it fails.
check() {
    name=$1
    shift
    if "$@" >"$room/log" 2>&1; then
        passed=$((passed + 1))
        echo "ok: $name"
    else
        failed=$((failed + 1))
        echo "FAILED: $name"
        sed 's/^/    /' "$room/log" | tail -n 20
    fi
}

# Whether a package is there, by a program of it. The checks that need it are left out where it isn't, and that is a failure with its name.
have() {
    if command -v "$2" >/dev/null; then
        return 0
    fi
    failed=$((failed + 1))
    echo "FAILED: the package $1 is missing (it has $2)"
    return 1
}

# Whether a command answers with success within so many seconds, asked ten times a second.
within() {
    left=$(($1 * 10))
    shift
    until "$@"; do
        left=$((left - 1))
        [ "$left" -gt 0 ] || return 1
        sleep 0.1
    done
}

# ---- the server

# Whether the server listens, or has ended.
is_settled() {
    grep -q '^IMAP .* bob$' "$room/listeners" || ! kill -0 "$server" 2>/dev/null
}

# Starts the server on ports from one that the dice say; it ends where one of them is taken.
start_on_some_ports() {
    lmtp_port=$((10240 + $(od -An -N2 -tu2 /dev/urandom) % 20000))
    imap_port=$((lmtp_port + 1))
    : >"$room/listeners"
    "$program" serve --lmtp-port "$lmtp_port" --imap-port "$imap_port" --uidvalidity 7 alice bob \
        <"$room/input" >"$room/listeners" 2>"$room/faults" &
    server=$!
    # The other end of its input: it is at its end when this is closed.
    exec 3>"$room/input"
    within 20 is_settled
    grep -q '^IMAP .* bob$' "$room/listeners"
}

start_server() {
    mkfifo "$room/input"
    tries=0
    until start_on_some_ports; do
        exec 3>&-
        status=0
        wait "$server" || status=$?
        server=''
        tries=$((tries + 1))
        if [ "$status" -ne 4 ] || [ "$tries" -ge 20 ]; then
            echo "clients: the program doesn't serve: its status is $status" >&2
            cat "$room/faults" >&2
            exit 1
        fi
    done
}

says_its_listeners() {
    printf 'LMTP 127.0.0.1:%s\nIMAP 127.0.0.1:%s alice\nIMAP 127.0.0.1:%s bob\n' "$lmtp_port" "$imap_port" $((imap_port + 1)) |
        diff - "$room/listeners"
}

is_gone() {
    ! kill -0 "$server" 2>/dev/null
}

ends_with_its_input() {
    exec 3>&-
    within 6 is_gone || return 1
    status=0
    wait "$server" || status=$?
    server=''
    echo "its status is $status; standard error:"
    cat "$room/faults"
    [ "$status" -eq 0 ] && [ ! -s "$room/faults" ]
}

# ---- what is brought, and what stands

# Makes a message with this name: dots at the heads of lines, bytes that are no ASCII, empty lines, a long line.
message() {
    printf 'From: Somebody <s@a.example>\nTo: alice@example.org\nSubject: %s\nDate: Mon, 1 Jan 2024 00:00:00 +0000\n' "$1"
    printf 'Message-ID: <%s@a.example>\nMIME-Version: 1.0\nContent-Type: text/plain; charset=utf-8\n' "$1"
    printf 'Content-Transfer-Encoding: 8bit\n\nThis came by %s.\n.\n..\n. a dot and more\n\n\nGr\303\274\303\237e\n' "$1"
    printf '%0800d\n\t tab and spaces behind  \nthe end\n' 0
}

# A message as it is to stand: with the line that the server puts before it, each line with CR and LF.
standing() {
    { echo 'Return-Path: <s@a.example>' && cat; } | sed "s/\$/$(printf '\r')/"
}

# The mailbox's text of this UID: $1 is the user's number, $2 the UID, $3 the file that it comes to.
fetch() {
    curl -sS -m 20 -o "$3" "imap://127.0.0.1:$((imap_port + $1))/INBOX;UID=$2"
}

# Whether this user has this text, in a file, under this UID; it is kept for later as UID.text.
stands() {
    fetch "$1" "$2" "$room/fetched" && cmp "$3" "$room/fetched"
}

# What a command of curl's prints for alice's INBOX.
ask() {
    curl -sS -m 20 -X "$1" "imap://127.0.0.1:$imap_port/INBOX" | tr -d '\r'
}

# Whether a command prints these lines, which are read from standard input.
answers() {
    ask "$1" >"$room/answer" && diff - "$room/answer"
}

# ---- swaks, msmtp, Postfix

# swaks adds an end of line behind what it reads, and sends the rest as it is.
by_swaks() {
    printf '%s' "$(cat "$1")" >"$room/data"
    timeout 30 swaks --protocol LMTP --server 127.0.0.1 --port "$lmtp_port" --from s@a.example --to "$2" --data "@$room/data"
}

by_msmtp() {
    printf 'account default\nhost 127.0.0.1\nport %s\nprotocol lmtp\nauth off\ntls off\nfrom s@a.example\n' "$lmtp_port" >"$room/msmtprc"
    chmod 600 "$room/msmtprc"
    timeout 30 msmtp -C "$room/msmtprc" alice@example.org bob@example.org <"$1"
}

# A folder with the configuration of an instance that delivers everything to the server.
configure_postfix() {
    mkdir -p "$room/postfix" "$room/queue" "$room/data-of-postfix"
    cp "$here/postfix/master.cf" "$room/postfix/master.cf" && chown postfix "$room/data-of-postfix" &&
        cat >"$room/postfix/main.cf" <<MAIN
compatibility_level = 3.6
queue_directory = $room/queue
data_directory = $room/data-of-postfix
daemon_directory = $(postconf -d -h daemon_directory)
command_directory = $(postconf -d -h command_directory)
maillog_file = $room/mail.log
maillog_file_prefixes = $room
myhostname = relay.b.example
mydestination =
alias_maps =
alias_database =
inet_interfaces = loopback-only
default_transport = lmtp:inet:127.0.0.1:$lmtp_port
MAIN
}

start_postfix() {
    configure_postfix && timeout 60 postfix -c "$room/postfix" start && postfix_runs=yes
}

# Whether Postfix has said what became of each of three recipients.
is_told_of_three() {
    [ "$(grep -c ' to=<[a-z]*@example.org>.* status=' "$room/mail.log" 2>/dev/null)" = 3 ]
}

by_postfix() {
    sendmail -i -C "$room/postfix" -f s@a.example alice@example.org bob@example.org carol@example.org <"$1" || return 1
    within 30 is_told_of_three || { cat "$room/mail.log" && return 1; }
}

# Whether Postfix said of a recipient what is asked: $1 is the user, $2 a pattern.
postfix_said() {
    cat "$room/mail.log"
    grep " to=<$1@example.org>" "$room/mail.log" | grep -q "$2"
}

# What a message has but for the header that Postfix puts before it.
without_received() {
    awk '/^Received: / && !seen { seen = skip = 1; next } skip && /^[ \t]/ { next } { skip = 0; print }' "$1"
}

# Whether alice's message of UID 1 is what Postfix was given, with its own header and no other.
stands_by_postfix() {
    fetch 0 1 "$room/with_received" && grep -q '^Received: by relay\.b\.example (Postfix' "$room/with_received" &&
        without_received "$room/with_received" >"$room/without" && cmp "$1" "$room/without" &&
        fetch 1 1 "$room/with_received" && without_received "$room/with_received" | cmp "$1" -
}

# ---- mbsync

configure_mbsync() {
    mkdir -p "$room/maildir" "$room/state"
    cat >"$room/mbsyncrc" <<MBSYNC
IMAPAccount house
Host 127.0.0.1
Port $imap_port
SSLType None
User alice

IMAPStore far
Account house

MaildirStore near
Path $room/maildir/
Inbox $room/maildir/INBOX

Channel alice
Far :far:
Near :near:
Sync Pull
Create Near
Expunge Near
SyncState $room/state/
MBSYNC
}

pulls() {
    timeout 60 mbsync -c "$room/mbsyncrc" alice
}

# The messages of the Maildir, as sums in order: without the header by which mbsync finds them again.
sums_in_maildir() {
    find "$room/maildir/INBOX/cur" "$room/maildir/INBOX/new" -type f | while IFS= read -r file; do
        sed '/^X-TUID: /d' "$file" | cksum
    done | sort
}

# Whether the Maildir has the messages of these UIDs, as curl reads them, with LF in place of CR and LF, and no others.
maildir_has() {
    for uid in "$@"; do
        fetch 0 "$uid" "$room/pulled" || return 1
        tr -d '\r' <"$room/pulled" | cksum
    done | sort >"$room/wanted"
    sums_in_maildir | diff "$room/wanted" -
}

# Whether the Maildir has this message, in a file, with CR and LF, under a name that ends with these flags.
maildir_keeps() {
    wanted=$(tr -d '\r' <"$1" | cksum)
    find "$room/maildir/INBOX" -type f -name "*:2,$2" | while IFS= read -r file; do
        sed '/^X-TUID: /d' "$file" | cksum
    done >"$room/sums"
    grep -qxF -- "$wanted" "$room/sums" || { find "$room/maildir/INBOX" -type f && return 1; }
}

# ---- the checks, in their order: UIDs follow from it

check_postfix() {
    message Postfix >"$room/postfix.mail"
    standing <"$room/postfix.mail" >"$room/postfix.text"
    check 'Postfix starts' start_postfix
    check 'Postfix delivers to three recipients, one of them unknown' by_postfix "$room/postfix.mail"
    check 'Postfix is told that the copy of alice stands' postfix_said alice 'status=sent (250 2\.1\.5 Delivered)'
    check 'Postfix is told that the copy of bob stands' postfix_said bob 'status=sent (250 2\.1\.5 Delivered)'
    check 'Postfix is told that carol has no mailbox' postfix_said carol 'status=bounced (.* said: 550 5\.1\.1 Mailbox unknown'
    have curl curl && check 'what Postfix brought stands for both' stands_by_postfix "$room/postfix.text"
}

check_swaks() {
    message swaks >"$room/swaks.mail"
    standing <"$room/swaks.mail" >"$room/swaks.text"
    check 'swaks brings a message for alice and bob' by_swaks "$room/swaks.mail" alice@example.org,bob@example.org
    have curl curl && check 'what swaks brought stands for alice' stands 0 2 "$room/swaks.text"
    have curl curl && check 'what swaks brought stands for bob' stands 1 2 "$room/swaks.text"
}

check_msmtp() {
    message msmtp >"$room/msmtp.mail"
    standing <"$room/msmtp.mail" >"$room/msmtp.text"
    check 'msmtp brings a message for alice and bob' by_msmtp "$room/msmtp.mail"
    have curl curl && check 'what msmtp brought stands for alice' stands 0 3 "$room/msmtp.text"
    have curl curl && check 'what msmtp brought stands for bob' stands 1 3 "$room/msmtp.text"
}

lists() {
    curl -sS -m 20 "imap://127.0.0.1:$imap_port/" | tr -d '\r' >"$room/answer" && echo '* LIST () "/" INBOX' | diff - "$room/answer"
}

# Sizes of the three messages as one line, and the same as they stand.
tells_sizes() {
    for name in with_received swaks.text msmtp.text; do
        fetch 0 1 "$room/with_received" && wc -c <"$room/$name"
    done | awk '{ printf "* %d FETCH (UID %d RFC822.SIZE %d)\n", NR, NR, $1 }' >"$room/sizes"
    answers 'FETCH 1:3 (UID RFC822.SIZE)' <"$room/sizes"
}

# Whether a part of alice's message of UID 2 is what it is to be: its name, then the bytes that are wanted.
gives_part() {
    curl -sS -m 20 -o "$room/part" "imap://127.0.0.1:$imap_port/INBOX;UID=2;SECTION=$1" && cmp "$2" "$room/part"
}

gives_parts() {
    awk -v empty="$(printf '\r')" '{ print } $0 == empty { exit }' "$room/swaks.text" >"$room/header" &&
        tail -c +$(($(wc -c <"$room/header") + 1)) "$room/swaks.text" >"$room/text" &&
        gives_part HEADER "$room/header" && gives_part TEXT "$room/text"
}

sets_flags() {
    echo '* 2 FETCH (FLAGS (\Flagged \Seen))' | answers 'STORE 2 +FLAGS (\Flagged)' &&
        echo '* 3 FETCH (FLAGS ())' | answers 'STORE 3 -FLAGS (\Seen)' &&
        printf '* 1 FETCH (FLAGS (\\Seen))\n* 2 FETCH (FLAGS (\\Flagged \\Seen))\n* 3 FETCH (FLAGS ())\n' | answers 'FETCH 1:3 FLAGS' &&
        printf '* 2 FETCH (UID 2 FLAGS (\\Flagged \\Seen))\n* 3 FETCH (UID 3 FLAGS ())\n' | answers 'UID FETCH 2:* FLAGS'
}

# Whether bob's message of UID 4, behind those that were brought, is what curl appends.
appends() {
    message appended >"$room/appended.mail" && sed 's/$/\r/' "$room/appended.mail" >"$room/appended.text" &&
        curl -sS -m 20 -T "$room/appended.text" "imap://127.0.0.1:$((imap_port + 1))/INBOX" && stands 1 4 "$room/appended.text"
}

check_curl() {
    check 'curl lists the mailbox' lists
    check 'curl is told the sizes' tells_sizes
    check 'curl reads a header and a text' gives_parts
    check 'curl sets flags and takes them away' sets_flags
    check 'curl appends a message' appends
}

# Removes the message of UID 2 and brings a new one.
expunges() {
    ask 'UID STORE 2 +FLAGS.SILENT (\Deleted)' && ask 'EXPUNGE' &&
        printf '* 1 FETCH (UID 1)\n* 2 FETCH (UID 3)\n' | answers 'FETCH 1:2 UID'
}

check_mbsync() {
    configure_mbsync
    check 'mbsync pulls the mailbox' pulls
    check 'what it pulled from swaks is as it was brought, with its flags' maildir_keeps "$room/swaks.text" FS
    check 'what it pulled from msmtp is as it was brought, without flags' maildir_keeps "$room/msmtp.text" ''
    check 'it pulled three messages, as they stand' maildir_has 1 2 3
    check 'curl expunges the second' expunges
    message again >"$room/again.mail"
    standing <"$room/again.mail" >"$room/again.text"
    check 'swaks brings a fourth' by_swaks "$room/again.mail" alice@example.org
    check 'mbsync pulls again' pulls
    check 'what came since is as it was brought' maildir_keeps "$room/again.text" ''
    check 'the Maildir has three messages again, as they stand' maildir_has 1 3 4
}

# Python's imaplib takes no server that doesn't say IMAP4rev1, and this one behind a line.
is_refused_by_imaplib() {
    python3 -c 'import imaplib, sys; imaplib.IMAP4("127.0.0.1", int(sys.argv[1]))' "$imap_port" 2>&1 | grep 'not IMAP4 compliant'
}

by_imaplib() {
    python3 - "$((imap_port + 1))" "$1" <<'PYTHON'
import imaplib
import sys

imaplib.AllowedVersions += ("IMAP4REV2",)
text = open(sys.argv[2], "rb").read()
with imaplib.IMAP4("127.0.0.1", int(sys.argv[1])) as inbox:
    status, told = inbox.append("INBOX", r"(\Flagged)", None, text)
    assert status == "OK" and b"APPENDUID" in told[0], told
    status, (count,) = inbox.select()
    assert status == "OK", count
    status, told = inbox.fetch(count.decode(), "(FLAGS BODY.PEEK[])")
    assert status == "OK" and rb"FLAGS (\Flagged)" in told[0][0] and told[0][1] == text, told
    assert inbox.store(count.decode(), "+FLAGS", r"(\Deleted)")[0] == "OK"
    assert inbox.expunge() == ("OK", [count])
PYTHON
}

check_imaplib() {
    check 'imaplib by itself refuses the server' is_refused_by_imaplib
    message imaplib | sed 's/$/\r/' >"$room/imaplib.text"
    check 'imaplib appends, reads, sets flags and expunges behind one line' by_imaplib "$room/imaplib.text"
}

start_server
check 'the program says what it listens on' says_its_listeners
if have postfix postfix; then check_postfix; fi
if have swaks swaks; then check_swaks; fi
if have msmtp msmtp; then check_msmtp; fi
if have curl curl; then check_curl; fi
if have isync mbsync; then check_mbsync; fi
if have python3 python3; then check_imaplib; fi
check 'the program ends with its input' ends_with_its_input

echo "$passed passed, $failed failed"
[ "$failed" -eq 0 ]

#!/bin/sh
# What docs/OPERATING.md says, done with that page's very lines: the program is installed and started by its unit's
# lines, Postfix brings mail all the while, mail is taken out into Maildirs, and the server is stopped and started anew,
# twice. In the end each copy that Postfix was answered 250 for is in its Maildir, once, with the text that was sent.
#
#     tests/operating.sh PROGRAM
#
# PROGRAM is the built program. The script runs as the superuser, in name spaces of its own: it has the page's ports for
# itself, scratch folders stand over the system's, and whatever it started ends with it. Packages: postfix, isync, curl,
# iproute2, util-linux; what is missing is a failure that names it.
set -eu
PATH=$PATH:/usr/sbin:/sbin
export LC_ALL=C
here=$(CDPATH='' cd -- "$(dirname -- "$0")" && pwd)
if [ "${2-}" != --inside ]; then
    program=$(realpath -- "$1")
    exec unshare --mount --net --pid --fork --kill-child --mount-proc "$here/operating.sh" "$program" --inside
fi
program=$1
page=$here/../docs/OPERATING.md
unit=/etc/systemd/system/post_house.service
room=$(mktemp -d)
# Postfix's own users look for their files below it.
chmod 755 "$room"
trap 'rm -rf "$room"' EXIT
trap 'exit 1' HUP INT TERM

passed=0 failed=0

# A check: its name, then a command, whose output is shown where it fails.
check() {
    name=$1
    shift
    if "$@" >"$room/log" 2>&1; then
        passed=$((passed + 1))
        echo "ok: $name"
    else
        failed=$((failed + 1))
        echo "FAILED: $name"
        sed 's/^/    /' "$room/log" | tail -n 20
    fi
}

for word in 'postfix postfix' 'isync mbsync' 'curl curl' 'iproute2 ss' 'util-linux flock'; do
    command -v "${word#* }" >/dev/null || {
        echo "FAILED: the package ${word% *} is missing (it has ${word#* })"
        exit 1
    }
done

# Whether a command answers with success within so many seconds, asked ten times a second.
within() {
    left=$(($1 * 10))
    shift
    until "$@"; do
        left=$((left - 1))
        [ "$left" -gt 0 ] || return 1
        sleep 0.1
    done
}

# ---- the page's lines, and the machine that they are for

# The lines of the page's block that begins with this comment, as far as they are indented.
lines_of() {
    awk -v name="# $1" '
        !indent && index($0, name) && substr($0, match($0, /[^ ]/)) == name { indent = RSTART - 1; next }
        indent && NF && match($0, /[^ ]/) <= indent { exit }
        indent && NF && substr($0, RSTART, 2) == "# " && was_empty { exit }
        indent { print substr($0, indent + 1); was_empty = !NF }' "$page" >"$room/lines"
    [ -s "$room/lines" ] && cat "$room/lines"
}

does() {
    lines_of "$1" >"$room/script" || {
        echo "the page has no block that begins with: # $1"
        return 1
    }
    cat "$room/script"
    (cd "$room/top" && timeout 120 sh -eu "$room/script")
}

# Puts a scratch folder over each of the folders that the page's lines write to.
cover() {
    for folder in /etc/postfix /etc/systemd/system /usr/local /srv /var/spool/postfix /var/lib/postfix; do
        mkdir -p "$room$folder" "$folder"
        # Of Postfix's folder what its package has put there is needed.
        [ "$folder" != /etc/postfix ] || cp -a /etc/postfix/. "$room/etc/postfix/"
        mount --bind "$room$folder" "$folder"
    done
    chown postfix /var/lib/postfix
    ip link set lo up
}

# What stands in place of systemd: `start` and `stop`, by the unit's lines, of which `stop` waits for the end.
stand_in() {
    mkdir "$room/bin"
    cat >"$room/bin/systemctl" <<SYSTEMD
#!/bin/sh
set -eu
cd "$room"
case \$1 in
start)
    rm -f pid status
    line=\$(sed -n 's/^ExecStart=//p' $unit | sed 's/[$][$]/$/g; s/%%/%/g')
    { sh -c "exec \$line" </dev/null >listeners 2>>faults & echo \$! >pid; wait \$! && echo 0 >status || echo \$? >status; } >/dev/null 2>&1 &
    ;;
stop)
    \$(sed -n 's/^ExecStop=+//p' $unit)
    kill -TERM "\$(cat pid)"
    until [ -s status ]; do sleep 0.1; done
    [ "\$(cat status)" = 0 ]
    ;;
esac
SYSTEMD
    chmod +x "$room/bin/systemctl"
    PATH=$room/bin:$PATH
}

# The folder in which the page's first lines are said.
make_top() {
    mkdir -p "$room/top/crates/post_house/out"
    cp "$program" "$room/top/crates/post_house/out/post_house"
    cp -r "$here/../examples" "$here/../docs" "$room/top/"
}

# Postfix's own few lines; the page's come behind them.
start_postfix() {
    cat >/etc/postfix/main.cf <<MAIN
compatibility_level = 3.6
maillog_file = $room/mail.log
maillog_file_prefixes = $room
myhostname = relay.b.example
mydestination =
alias_maps =
alias_database =
inet_interfaces = loopback-only
inet_protocols = ipv4
enable_long_queue_ids = yes
MAIN
    cp "$here/postfix/master.cf" /etc/postfix/master.cf
    echo 'smtp inet n - n - - smtpd' >>/etc/postfix/master.cf
    timeout 60 postfix start
}

listens() {
    ss -Hltn sport = :2424 | grep -q .
}

starts() {
    systemctl start post_house && within 20 listens
}

says_its_listeners() {
    grep -q '^ExecStart=.* alice alice/Work bob postmaster' "$unit" &&
        awk '/^    LMTP 127/ { on = 1 } on && !NF { exit } on { print substr($0, 5) }' "$page" | diff - "$room/listeners"
}

# Puts the page's lines for Postfix in their places.
tells_postfix() {
    lines_of main.cf >>/etc/postfix/main.cf && lines_of transport >/etc/postfix/transport &&
        lines_of relay_recipients >/etc/postfix/relay_recipients && does 'put them to use'
}

# ---- mail

# The text of the message of this number.
text() {
    printf 'This is message %s.\n.\n..a dot and more\n\n' "$1"
    awk -v n="$1" 'BEGIN { for (i = 0; i < n % 40; i++) printf "%d %070d\n", n, i }'
    printf 'the end of %s\n' "$1"
}

# Brings a message of this number to Postfix, for the recipients behind it. Whether Postfix took it for all of them.
bring() {
    number=$1
    shift
    {
        printf 'From: Somebody <s@a.example>\nTo: alice@example.org\nSubject: %s\nMessage-ID: <%s@a.example>\n\n' "$number" "$number"
        text "$number"
    } | sed "s/\$/$(printf '\r')/" >"$room/mail.$number"
    recipients=
    for recipient in "$@"; do
        recipients="$recipients --mail-rcpt $recipient@example.org"
    done
    curl -sS -m 30 --mail-from s@a.example $recipients -T "$room/mail.$number" smtp://127.0.0.1:25 && rm "$room/mail.$number"
}

# Brings messages, one after the other, until it is told to stop. Their numbers begin behind those that went before.
brings_for_a_while() {
    number=$(cat "$room/number")
    while [ -e "$room/goes_on" ]; do
        number=$((number + 1))
        echo "$number" >"$room/number"
        case $((number % 5)) in
        0) bring "$number" alice ;;
        1) bring "$number" alice+work bob ;;
        2) bring "$number" bob ;;
        3) bring "$number" alice alice+work bob postmaster ;;
        4) bring "$number" alice bob ;;
        esac
        sleep 0.05
    done
}

begin_to_bring() {
    touch "$room/goes_on"
    brings_for_a_while >"$room/bringing" 2>&1 &
    brings=$!
}

end_bringing() {
    rm "$room/goes_on"
    wait "$brings"
    [ ! -s "$room/bringing" ] || { cat "$room/bringing" && return 1; }
}

refuses_strangers() {
    ! bring 0 alice+nope && ! bring 0 carol && within 10 grep -q 'alice+nope@example.org>: Recipient address rejected' "$room/mail.log" ||
        { cat "$room/mail.log" && return 1; }
}

has_nothing_left() {
    postqueue -p | grep -q 'queue is empty'
}

# Each copy that Postfix was answered 250 for: its message and its recipient.
answered() {
    awk '
        match($0, /: [0-9A-Za-z]+: message-id=</) { split($0, words, ": "); split($0, ids, "[<>]"); id[words[2]] = ids[2] }
        /postfix\/lmtp.*status=sent \(250 2\.1\.5 Delivered\)/ {
            split($0, words, ": "); split($0, to, "[<>]"); print id[words[2]], to[2]
        }' "$room/mail.log" | sort
}

# The same of what is in the Maildirs, behind a look at each text: one that isn't what was sent is told as such.
in_maildirs() {
    for place in alice/INBOX:alice alice/Work:alice+work bob/INBOX:bob postmaster/INBOX:postmaster; do
        find "/srv/mail/${place%:*}/cur" "/srv/mail/${place%:*}/new" -type f | while IFS= read -r file; do
            number=$(sed -n 's/^Message-ID: <\([0-9]*\)@a.example>$/\1/p; /^$/q' "$file")
            if [ "$(sed '1,/^$/d' "$file" | cksum)" = "$(text "$number" | cksum)" ]; then
                echo "$number@a.example ${place#*:}@example.org"
            else
                echo "not as it was sent: $file"
            fi
        done
    done | sort
}

nothing_is_missing() {
    answered >"$room/answered"
    in_maildirs >"$room/taken"
    echo "$(wc -l <"$room/answered") copies were answered 250"
    diff "$room/answered" "$room/taken"
}

# Whether everything that Postfix took for its recipients was delivered, and nothing was bounced.
all_was_delivered() {
    has_nothing_left && ! grep -E 'status=(bounced|undeliverable)' "$room/mail.log" && [ "$(wc -l <"$room/answered")" -gt 100 ]
}

# How many messages a mailbox has: the port, then its name.
counts() {
    curl -sS -m 20 -X "STATUS $2 (MESSAGES)" "imap://127.0.0.1:$1/" | tr -d '\r' | grep -qx "\* STATUS $2 (MESSAGES $3)"
}

is_empty() {
    counts 14300 INBOX 0 && counts 14300 Work 0 && counts 14301 INBOX 0 && counts 14302 INBOX 0
}

# Whether curl leaves a message alone where the address names another UIDVALIDITY.
leaves_another_start_alone() {
    bring_one_and_wait && ! curl -sS -m 20 -X 'UID STORE 1:* +FLAGS.SILENT (\Deleted)' 'imap://127.0.0.1:14301/INBOX;UIDVALIDITY=1' &&
        curl -sS -m 20 -X 'UID FETCH 1:* (FLAGS)' imap://127.0.0.1:14301/INBOX | grep -F 'FLAGS ())'
}

bring_one_and_wait() {
    number=$(($(cat "$room/number") + 1))
    echo "$number" >"$room/number"
    bring "$number" bob && within 30 has_nothing_left
}

# ---- the page, from its start to its end

cover
stand_in
make_top
echo 0 >"$room/number"
check 'the program is installed' does install
check 'the server starts by the line of its unit' starts
# The lines come once all threads stand, which is behind the ports.
check 'it says the listeners that the page shows' within 10 says_its_listeners
check 'Postfix starts' start_postfix
check 'Postfix takes the lines of the page' tells_postfix
check 'Postfix refuses who has no mailbox' refuses_strangers
[ "$failed" -eq 0 ] || exit 1
for start in first second; do
    begin_to_bring
    sleep 5
    check "mail is taken out while more comes, $start start" does 'take mail out'
    sleep 2
    check "mail is held back, $start start" does 'hold mail back, and wait until nobody brings any: three looks'
    check "all is taken out and the server stops, $start start" does 'take all of it out, and stop only where that went well'
    sleep 2
    check "another one starts, behind the $start" does 'start anew, and let mail come again once the server listens'
    sleep 5
    check "mail was brought without a fault, $start start" end_bringing
done
check 'Postfix gets rid of what it held' within 400 has_nothing_left
check 'curl does nothing under another UIDVALIDITY' leaves_another_start_alone
check 'mail is taken out a last time' does 'take mail out'
check 'the server has nothing left' is_empty
check 'each copy that was answered 250 is in its Maildir, once, as it was sent' nothing_is_missing
check 'all that Postfix took was delivered' all_was_delivered
sed -n 's/^/    /p' "$room/faults"
check 'the server said nothing of a fault' test ! -s "$room/faults"
check 'the server stops by the lines of its unit' systemctl stop post_house
timeout 60 postfix stop >/dev/null 2>&1 || true

echo "$(wc -l <"$room/answered") copies; $passed passed, $failed failed"
[ "$failed" -eq 0 ]

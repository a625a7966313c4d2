#!/bin/sh
# Runs a server and holds its input open, until this script is told to end (SIGTERM, SIGINT or SIGHUP): then the server's input is at its
# end, which is how it is stopped. The status is the server's.
#
#     examples/hold_open.sh PROGRAM serve [OPTIONS] MAILBOX..
#
# Whoever stops a service, or closes a terminal, may send the signal to the server too, which would end it at once. So the server
# leaves these three alone.
set -eu
room=
trap 'rm -rf "$room"; exit 143' HUP INT TERM
room=$(mktemp -d)
mkfifo "$room/input"
# Both ends of the server's input, opened without waiting for one another.
# shellcheck disable=SC2094
exec 3<>"$room/input" 4<"$room/input"
rm -r "$room"
# From here on a signal ends the input.
trap 'exec 3>&-' HUP INT TERM
(
    trap '' HUP INT TERM
    exec "$@"
) <&4 3>&- 4<&- &
server=$!
# Nobody else has the end that is written to, so the server's input is at its end too where this script is killed.
exec 4<&-
status=0
wait "$server" || status=$?
# A signal ends a `wait` before the server has ended.
while kill -0 "$server" 2>/dev/null; do
    status=0
    wait "$server" || status=$?
done
exit "$status"

#!/bin/sh
# Has each wrong body of the crates that are named, or of all, refused as the gate does with those in must-fail/: also those in must-fail-more/,
# for which the gate has no time.
#
#     tests/all_edits.sh [CRATE..]
#
# They stand in must-fail/ while it runs, and are put back at its end; change nothing meanwhile. A crate's first edit takes as long as its first check, and
# each further one 5 to 60 seconds.
set -eu
cd "$(dirname -- "$0")/.."

if [ $# -eq 0 ]; then
    set -- $(sed -n 's/^\([a-z_0-9]*\):.*/\1/p' crates.txt)
fi

# One line for each edit that was moved: where it came from, and where it stands meanwhile.
moved=$(mktemp)
put_back() {
    while read -r from to; do
        mv -- "$to" "$from"
    done <"$moved"
    rm -f -- "$moved"
    # Those that were made for this run alone.
    find crates -maxdepth 2 -name must-fail -type d -empty -delete
}
trap put_back EXIT
trap 'exit 1' HUP INT TERM

for crate in "$@"; do
    [ -d "crates/$crate" ] || { echo "all_edits: there is no crate $crate" >&2; exit 2; }
    for edit in "crates/$crate/must-fail-more"/*.edit; do
        [ -e "$edit" ] || continue
        to=crates/$crate/must-fail/$(basename -- "$edit")
        mkdir -p -- "crates/$crate/must-fail"
        [ ! -e "$to" ] || { echo "all_edits: $edit and $to have one name" >&2; exit 2; }
        echo "$edit $to" >>"$moved"
        mv -- "$edit" "$to"
    done
done
rt must-fail "$@"

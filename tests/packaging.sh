#!/bin/sh
# The Debian package of a built program: it is built, unpacked into an empty folder and used from there.
#
#     tests/packaging.sh PROGRAM
#
# What is tried of it stands in tests/packaged.py: a server that takes mail, shows it and is stopped by SIGTERM; its man page; its unit. And each file of
# examples/front is in it, and the drop-in there runs what the package has.
# Wanted: dpkg-deb. Where it isn't installed nothing is tried, and that is said.
set -eu
program=$(realpath -- "$1")
here=$(CDPATH='' cd -- "$(dirname -- "$0")" && pwd)
command -v dpkg-deb >/dev/null || {
    echo 'no dpkg-deb: the package was not tried'
    exit 0
}
room=$(mktemp -d)
trap 'rm -rf "$room"' EXIT
trap 'exit 1' HUP INT TERM
# Quickly, and not small.
export DPKG_DEB_COMPRESSOR_TYPE=gzip DPKG_DEB_COMPRESSOR_LEVEL=1
export SOURCE_DATE_EPOCH=1000000000
package=$("$here/../packaging/build.sh" "$program" "$room/one")
again=$("$here/../packaging/build.sh" "$program" "$room/other")
cmp "$package" "$again"
dpkg-deb -x "$package" "$room/root"
front=$room/root/usr/share/doc/post-house/examples/front
for file in "$here"/../examples/front/*; do
    [ -s "$front/${file##*/}" ] || {
        echo "FAILED: the package has no examples/front/${file##*/}"
        exit 1
    }
done
grep -o '/usr/[a-z_/.]*' "$front/post_house.conf" | while read -r place; do
    [ -x "$room/root$place" ] || {
        echo "FAILED: the front's drop-in runs $place, which the package doesn't have"
        exit 1
    }
done
"$here/packaged.py" "$room/root" "$program"

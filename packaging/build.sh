#!/bin/sh
# Builds a Debian package of a built program, without network, and prints where it lies:
#
#     packaging/build.sh PROGRAM FOLDER
#
# The version is the program's own (`--version`). Of the same files the same package is made, byte for byte, where SOURCE_DATE_EPOCH says of
# which second they are. Wanted: dpkg-deb, gzip, Python 3.
set -eu
if [ $# -ne 2 ]; then
    echo 'build: PROGRAM FOLDER' >&2
    exit 2
fi
program=$(realpath -- "$1")
mkdir -p -- "$2"
folder=$(realpath -- "$2")
cd -- "$(dirname -- "$0")/.."
version=$("$program" --version | sed -n 's/^post_house \([0-9.]*\),.*/\1/p')
machine=$(dpkg --print-architecture)
SOURCE_DATE_EPOCH=${SOURCE_DATE_EPOCH:-$(date +%s)}
export SOURCE_DATE_EPOCH
room=$(mktemp -d)
trap 'rm -rf "$room"' EXIT
umask 022
root=$room/root
docs=$root/usr/share/doc/post-house

# A file under its place in the package; the program and scripts may be run.
place() {
    install -D -m "$1" -- "$2" "$root/$3"
}

place 755 "$program" usr/lib/post_house/post_house
place 755 packaging/post_house usr/bin/post_house
for script in hold_open.sh take_mail.sh; do
    place 755 "examples/$script" "usr/lib/post_house/$script"
done
for page in README.md SECURITY.md docs/OPERATING.md docs/SCRIPT.md docs/STANDARDS.md; do
    place 644 "$page" "usr/share/doc/post-house/$(basename -- "$page")"
done
cp -R examples "$docs/examples"
rm -rf "$docs/examples/drawing/__pycache__" "$docs/examples/pytest/__pycache__" "$docs/examples/pytest/.pytest_cache"
{
    echo 'Copyright: the maintainers of post_house. Licensed under either of these two, at your option.'
    for license in MIT APACHE; do
        echo
        cat "LICENSE-$license"
    done
} >"$docs/copyright"
gzip -9n <CHANGELOG.md >"$docs/changelog.gz"
mkdir -p "$root/usr/share/man/man8"
packaging/man_page.py "$program" README.md | gzip -9n >"$root/usr/share/man/man8/post_house.8.gz"
# The unit of examples/, and what the front's adds to it, with the places of the package in them.
with_places() {
    sed 's|/usr/local/lib/post_house/hold_open.sh /usr/local/bin/post_house|/usr/bin/post_house|
        s|/usr/local/share/doc/post_house/|/usr/share/doc/post-house/|
        s|/usr/local/|/usr/|g' "$1"
}
mkdir -p "$root/usr/lib/systemd/system"
with_places examples/post_house.service >"$root/usr/lib/systemd/system/post_house.service"
with_places examples/front/post_house.conf >"$docs/examples/front/post_house.conf"
chmod -R u=rwX,go=rX "$root"

# The libraries that the program loads, and the least version of the C library whose names it asks for.
least=$(grep -ao 'GLIBC_2\.[0-9.]*' "$program" | sed 's/GLIBC_//' | sort -V | tail -n 1)
needs="libc6 (>= $least)"
! ldd "$program" | grep -q libgcc_s || needs="$needs, libgcc-s1"

mkdir "$root/DEBIAN"
cat >"$root/DEBIAN/control" <<CONTROL
Package: post-house
Version: $version
Architecture: $machine
Maintainer: $(git log -1 --format='%an <%ae>' 2>/dev/null || echo 'post_house <maintainers@example.org>')
Section: mail
Priority: optional
Depends: $needs
Recommends: isync, curl
Suggests: postfix, python3
Installed-Size: $(du -sk "$root/usr" | cut -f1)
Description: mail delivery over LMTP and IMAP sessions, mailboxes in memory
 Takes mail in over LMTP for a few users behind a relay on the same machine,
 and shows it to IMAP4rev2 sessions on the loopback address. Each function of
 the program was proved to meet its contract before it was built.
CONTROL
(cd "$root" && find usr -type f -print0 | sort -z | xargs -0 md5sum) >"$root/DEBIAN/md5sums"
package=$folder/post-house_${version}_$machine.deb
dpkg-deb --root-owner-group --build "$root" "$package" >/dev/null
echo "$package"

#!/bin/sh
# install.sh [PREFIX]: installs the files of this release below PREFIX, which is by default /usr/local.
#
# The script first checks the checksums of the files and runs the program. If either fails, it installs nothing. If the environment
# variable DESTDIR is set, the files are installed below DESTDIR/PREFIX, for a package or an image.
set -eu

case ${1-} in
-*)
    echo "usage: ./install.sh [PREFIX]" >&2
    exit 2
    ;;
esac
prefix=${1:-/usr/local}
case ${DESTDIR-}$prefix in
/*) to=${DESTDIR-}$prefix ;;
*) to=$PWD/${DESTDIR-}$prefix ;;
esac
cd "$(dirname "$0")"

fail() {
    echo "install.sh: $1; nothing is installed" >&2
    exit 1
}
sha256sum -c SHA256SUMS > /dev/null || fail "the release is damaged or not complete"
bin/sizing ask share/sizing/examples/shop.toml > /dev/null || fail "the program does not run here (the file VERSION says what it needs)"

install_file() {
    mkdir -p "$to/$(dirname "$2")"
    cp "$1" "$to/$2.new"
    chmod "$3" "$to/$2.new"
    mv "$to/$2.new" "$to/$2"
}
install_file bin/sizing bin/sizing 755
find share -type f | while read -r file; do
    install_file "$file" "$file" 644
done
for file in VERSION PROVED; do
    install_file "$file" "share/doc/sizing/$file" 644
done
echo "sizing is in $to/bin"

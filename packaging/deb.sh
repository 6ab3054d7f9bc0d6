#!/bin/sh
# Writes a Debian package of the programs in bin/, with their pages, completions, examples and documents.
#
#     packaging/deb.sh [FOLDER]
#
# The package is FOLDER/romtyalig_VERSION_ARCHITECTURE.deb, with bin/ for FOLDER unless given; its name is written to standard
# output. The version is that of packaging/control. The programs must have been built (`make build`). Times in the package are
# that of the last commit, or SOURCE_DATE_EPOCH. Debian packages: dpkg, binutils.
set -eu

top=$(cd "$(dirname "$0")/.." && pwd)
mkdir -p "${1:-$top/bin}"
folder=$(cd "${1:-$top/bin}" && pwd)
cd "$top"
set --
umask 022
stage=$(mktemp -d)
trap 'rm -rf "$stage"' EXIT
chmod 755 "$stage"

make --no-print-directory -s -o build install DESTDIR="$stage" PREFIX=/usr
# Debian's own Python, whatever else the path has.
sed -i '1s,.*,#!/usr/bin/python3,' "$stage/usr/bin/romtyalig-named"
for program in "$stage"/usr/bin/*; do
    [ "$program" = "$stage/usr/bin/romtyalig-named" ] || set -- "$@" "$program"
done
strip --strip-unneeded --remove-section=.comment --remove-section=.note "$@"
gzip -9n "$stage"/usr/share/man/man1/*.1
# Debian's zsh looks here, and not in site-functions.
if [ -d "$stage/usr/share/zsh/site-functions" ]; then
    mv "$stage/usr/share/zsh/site-functions" "$stage/usr/share/zsh/vendor-completions"
fi

# The documents that name nothing but what is here.
doc=$stage/usr/share/doc/romtyalig
install -d "$doc/docs"
cp packaging/README.md "$doc"
cp docs/OPERATORS.md docs/RECIPES.md docs/SCALE.md docs/FORMATS.md docs/octets.svg "$doc/docs"
cp -R examples "$doc"
find "$doc" -name __pycache__ -prune -exec rm -rf {} +
install -m 644 packaging/copyright "$doc"
gzip -9nc packaging/changelog >"$doc/changelog.gz"
find "$doc" -type f ! -perm /111 -exec chmod 644 {} +
find "$doc" -type f -perm /111 -exec chmod 755 {} +

architecture=$(dpkg --print-architecture)
version=$(sed -n 's/^Version: //p' packaging/control)
mkdir "$stage/DEBIAN"
# The newest symbol that a program takes from the C library tells which version it needs.
library=$(objdump -T "$@" | grep -o 'GLIBC_[0-9][0-9.]*' | sort -uV | tail -n 1)
[ -n "$library" ]
sed -e "s/ARCHITECTURE/$architecture/" -e "s/LIBRARY/${library#GLIBC_}/" -e "s/SIZE/$(du -sk "$stage/usr" | cut -f1)/" packaging/control >"$stage/DEBIAN/control"
(cd "$stage" && find usr -type f -exec md5sum {} + | sort -k2) >"$stage/DEBIAN/md5sums"
: "${SOURCE_DATE_EPOCH:=$(git log -1 --format=%ct 2>/dev/null || date +%s)}"
export SOURCE_DATE_EPOCH
find "$stage" -exec touch -h -d "@$SOURCE_DATE_EPOCH" {} +
package=$folder/romtyalig_${version}_$architecture.deb
dpkg-deb --root-owner-group --build "$stage" "$package" >/dev/null
echo "$package"

#!/bin/bash
# Packs what `make install` installs as a Debian package, with licences and changelog, and its SHA-256 beside it:
#   tools/deb.sh FOLDER
# The version is the program's, and all files have the date that CHANGELOG.md gives for it. So the same files give the
# same bytes by the same tools, whoever packs them and when. It needs bin/kcount, the toolchain, and Debian's dpkg-dev
# and binutils.
set -euo pipefail
umask 022
top=$(cd "$(dirname "$0")/.." && pwd)
maintainer='the kcount authors <kcount@kcount.invalid>'
for tool in dpkg-deb dpkg-shlibdeps strip; do
    command -v $tool > /dev/null || {
        echo "deb: $tool isn't installed:"
        echo "  apt-get install --no-install-recommends dpkg-dev binutils"
        exit 1
    }
done
[ -x "$top/bin/kcount" ] || { echo "no bin/kcount: run make build first"; exit 1; }
version=$("$top/bin/kcount" --version)
version=${version#kcount }
day=$(sed -n "s/^## \[$version\] - //p" "$top/CHANGELOG.md")
[ -n "$day" ] || { echo "deb: CHANGELOG.md has no date for version $version"; exit 1; }
# (Debian's own package of that version, -1, would be newer)
revision=$version-0.1
architecture=$(dpkg --print-architecture)
work=$(mktemp -d)
trap 'rm -rf "$work"' EXIT
root=$work/debian/kcount
share=$root/usr/share
mkdir -p "$root/DEBIAN" "$share/doc/kcount"

# (what was built is taken as it is)
make --no-print-directory -C "$top" -o build install DESTDIR="$root" PREFIX=/usr > "$work/installed"
strip --remove-section=.comment --remove-section=.note "$root/usr/bin/kcount"
gzip -9n "$share/man/man1/kcount.1"
# Debian's zsh looks here for what packages bring.
mkdir "$share/zsh/vendor-completions"
mv "$share/zsh/site-functions/_kcount" "$share/zsh/vendor-completions/_kcount"
rmdir "$share/zsh/site-functions"

"$top/tools/licences.py" --debian > "$share/doc/kcount/copyright"
gzip -9n < "$top/CHANGELOG.md" > "$share/doc/kcount/changelog.gz"
gzip -9n > "$share/doc/kcount/changelog.Debian.gz" <<CHANGELOG
kcount ($revision) unstable; urgency=medium

  * Packed by make deb; changelog.gz says what changed.

 -- $maintainer  $(LC_ALL=C date -u -d "$day" '+%a, %d %b %Y %H:%M:%S %z')
CHANGELOG

# dpkg-shlibdeps wants to find the source's control file.
printf 'Source: kcount\n\nPackage: kcount\nArchitecture: any\n' > "$work/debian/control"
depends=$(cd "$work" && dpkg-shlibdeps -O debian/kcount/usr/bin/kcount)
# in KB, each file rounded up, and 1 for each folder
size=$(find "$root/usr" \( -type f -printf '%s\n' -o -printf '1\n' \) \
    | awk '{ sum += int(($1 + 1023) / 1024) } END { print sum }')
cat > "$root/DEBIAN/control" <<CONTROL
Package: kcount
Version: $revision
Architecture: $architecture
Maintainer: $maintainer
Installed-Size: $size
Depends: ${depends#shlibs:Depends=}
Section: science
Priority: optional
Description: count the k-mers in sequence reads
 kcount counts k-mers, the words of length k (up to 31), in FASTA and Sanger
 FASTQ files. It writes a sorted table of the k-mers and their counts, or a
 dump, a histogram or statistics in the layouts that GenomeScope and other
 tools read. Given a list, it counts only the k-mers of that list. It merges
 tables that were counted separately, and selects reads by their k-mers.
 .
 What it prints is proved to be the count of every k-mer in its input, for
 every number of threads.
CONTROL
(cd "$root" && find usr -type f -print0 | LC_ALL=C sort -z | xargs -0 md5sum > DEBIAN/md5sums)

SOURCE_DATE_EPOCH=$(date -u -d "$day" +%s)
export SOURCE_DATE_EPOCH
find "$root" -exec touch -d "@$SOURCE_DATE_EPOCH" {} +
mkdir -p "$1"
package=kcount_${revision}_$architecture.deb
DPKG_DEB_THREADS_MAX=1 dpkg-deb --root-owner-group -Zxz --build "$root" "$1/$package" > "$work/built"
(cd "$1" && sha256sum "$package" > "$package.sha256" && cat "$package.sha256")

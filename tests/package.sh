#!/bin/bash
# Packs the Debian package, installs it into a folder that is the root of an empty system, runs the program there, and
# removes the package:
#   tests/package.sh
# The package has what `make install` installs, the licences and the changelog, and nothing else. It and the archive
# have the licence of each library of the toolchain that the program is linked with. Lintian finds no error in it, and
# when it is removed nothing of it is left. It needs bin/kcount, the toolchain, Debian's dpkg-dev, binutils and lintian,
# and root; without Debian's tools or as another user it is left out.
set -euo pipefail
here=$(cd "$(dirname "$0")" && pwd)
top=$here/..
for tool in dpkg dpkg-deb dpkg-shlibdeps strip lintian; do
    command -v $tool > /dev/null || {
        echo "package: left out, $tool isn't installed:"
        echo "  apt-get install --no-install-recommends dpkg-dev binutils lintian"
        exit 0
    }
done
[ "$(id -u)" = 0 ] || { echo "package: left out, only root can install a package"; exit 0; }
[ -x "$top/bin/kcount" ] || { echo "no bin/kcount: run make build first"; exit 1; }
work=$(mktemp -d)
trap 'rm -rf "$work"' EXIT
# (dpkg looks for its helpers there)
export PATH=$PATH:/usr/sbin:/sbin
fails() {
    echo "package: $1"
    [ ! -s "$work/said" ] || cat "$work/said"
    exit 1
}
same() {
    [ "$2" = "$3" ] || { echo "package: $1:"; diff <(echo "$2") <(echo "$3"); exit 1; }
}

kit=$(dirname "$(rt doc)")
# the libraries that the program is linked with, as crates.txt and the toolchain's libraries name those below them
linked() {
    local it
    {
        cat "$top/crates.txt"
        for it in "$kit"/rlibs/*.rlib; do
            echo "$(basename "$it" .rlib): $(sed -n 's/^dep //p' "$it/format" | tr '\n' ' ')"
        done
    } | awk -F: '
        function walk(it, below, n) {
            if (it in seen) return
            seen[it]
            print it
            for (n = split(of[it], below, " "); n > 0; n--) walk(below[n])
        }
        !/^#/ { sub(/ .*/, "", $1); of[$1] = $2 }
        END { walk("kcount") }'
}
# the text of the licence of this name in the copyright file
text_of() {
    awk -v RS= -v first="License: $1" 'index($0, first "\n") == 1' "$copyright" | sed '1d; s/^ //; s/^\.$//'
}
# whether a file has these words, however its lines are broken
has_words() {
    local text words
    text=$(tr -s '[:space:]' ' ' < "$1")
    words=$(echo "$2" | tr -s '[:space:]' ' ')
    words=${words# }
    [[ $text == *"${words% }"* ]]
}

# The same files are packed as the same bytes.
"$top/tools/deb.sh" "$work/first" > "$work/said" 2>&1 || fails "it can't be packed"
"$top/tools/deb.sh" "$work/second" > "$work/said" 2>&1 || fails "it can't be packed again"
package=$(echo "$work"/first/*.deb)
cmp -s "$package" "$work"/second/*.deb || fails "packed again it has other bytes"
TMPDIR=$work lintian --no-cfg --fail-on error "$package" > "$work/said" 2>&1 || fails "lintian finds an error"

# The empty system has no package of the C library. Where dpkg leaves documents out of this system, it puts them into
# that one.
root=$work/root
copyright=$root/usr/share/doc/kcount/copyright
state=$root/var/lib/dpkg
mkdir -p "$state/info" "$state/updates"
touch "$state/status"
in_root() {
    dpkg --root="$root" --log="$work/log" --force-depends --path-include='/*' "$@" > "$work/said" 2>&1
}
in_root --install "$package" || fails "it can't be installed"
version=$("$top/bin/kcount" --version)
same "the version" "install ok installed ${version#kcount }-0.1" \
    "$(dpkg-query --admindir="$state" --show --showformat='${Status} ${Version}' kcount)"
in_root --verify kcount || fails "its files can't be compared with their sums"
[ ! -s "$work/said" ] || fails "a file has another sum"

# All that is installed by make is there under Debian's names, and so are the documents.
make --no-print-directory -C "$top" -o build install DESTDIR="$work/installed" PREFIX=/usr > "$work/made"
of_package() {
    sed 's|/man1/kcount.1$|&.gz|; s|/zsh/site-functions/|/zsh/vendor-completions/|'
}
files_in() {
    (cd "$1" && find . -path ./var/lib/dpkg -prune -o ! -type d -print)
}
documents=$(printf './usr/share/doc/kcount/%s\n' changelog.Debian.gz changelog.gz copyright)
same "the files" "$({ files_in "$work/installed" | of_package; echo "$documents"; } | LC_ALL=C sort)" \
    "$(files_in "$root" | LC_ALL=C sort)"
while IFS= read -r file; do
    there=$root/$(echo "$file" | of_package)
    same "the permissions of $file" "$(stat -c %a "$work/installed/$file")" "$(stat -c %a "$there")"
    case $file in
        # (the program is stripped)
        */bin/kcount) ;;
        */man1/*) gzip -dc "$there" | cmp -s - "$work/installed/$file" || fails "$file has other bytes" ;;
        *) cmp -s "$there" "$work/installed/$file" || fails "$file has other bytes" ;;
    esac
done < <(files_in "$work/installed")
gzip -dc "$root/usr/share/doc/kcount/changelog.gz" | cmp -s - "$top/CHANGELOG.md" || fails "its changelog is another"
same "the licence" "$(sed -n '/^Permission/,$p' "$top/LICENSE")" "$(text_of Expat)"

# So are the licences of the libraries, as the toolchain has them: in the archive each text, in the package each holder.
"$top/tools/dist.sh" "$work/archive" > "$work/said" 2>&1 || fails "the archive can't be packed"
tar -C "$work/archive" --strip-components=1 -xzf "$work"/archive/*.tar.gz
[ -s "$work/archive/THIRD-PARTY" ] || fails "the archive has no THIRD-PARTY"
found=0
for library in $(linked); do
    for licence in "$kit/rattle/$library"/{LICEN[CS]E,UNLICENSE,COPYING,COPYRIGHT,NOTICE}*; do
        [ -f "$licence" ] || continue
        found=$((found + 1))
        has_words "$work/archive/THIRD-PARTY" "$(cat "$licence")" || fails "the archive has no $licence"
        paragraph=$(awk -v RS= -v first="Files: $library/*" 'index($0, first "\n") == 1' "$copyright")
        while IFS= read -r holder; do
            has_words <(echo "$paragraph") "$holder" || fails "its copyright file has no $holder for $library"
        done < <(sed -n 's/^ *Copyright (c) //p' "$licence")
        name=Expat
        ! grep -q 'Apache License' "$licence" || name=Apache-2.0
        has_words <(echo "$paragraph") "$name" || fails "its copyright file has no $name for $library"
        [ $name = Apache-2.0 ] || has_words <(text_of Expat) "$(sed -n '/^Permission/,$p' "$licence")" \
            || fails "its copyright file has no text of $licence"
    done
done
[ $found -gt 0 ] || fails "no library of the toolchain has a licence in $kit/rattle"
has_words <(text_of Apache-2.0) /usr/share/common-licenses/Apache-2.0 || fails "its copyright file has no Apache-2.0"

# The program that was installed counts.
printf '>a read\nACGTACGTTT\nGACA\n' > "$work/reads.fa"
"$root/usr/bin/kcount" count -m 4 --print dump --column "$work/reads.fa" > "$work/said" 2>&1 || fails "it can't count"
same "its dump" $'ACGT 2\nCGTA 1\nCGTT 1\nGACA 1\nGTAC 1\nGTTT 1\nTACG 1\nTGAC 1\nTTGA 1\nTTTG 1' \
    "$(cat "$work/said")"

# Nothing is left of it: no file, no folder and no record. (dpkg keeps its last list of packages as status-old.)
in_root --purge kcount || fails "it can't be removed"
rm -f "$state/status-old"
same "what is left" $'.\n./var\n./var/lib\n./var/lib/dpkg' \
    "$(cd "$root" && find . -path './var/lib/dpkg/*' -prune -o -print | LC_ALL=C sort)"
! grep -rl kcount "$state" > "$work/said" || fails "dpkg still has a record of it"
[ -z "$(find "$state" -name '*kcount*')" ] || fails "dpkg still has a file of it"
echo "package: $(basename "$package") has what make install has and the licences, counts when installed, and leaves" \
    "nothing when removed"

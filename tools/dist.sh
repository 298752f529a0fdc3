#!/bin/bash
# Packs the program, its man page, its completions and the licence into one archive, with its SHA-256 beside it:
#   tools/dist.sh FOLDER
# Its file THIRD-PARTY has the licences of the toolchain's libraries that the program is linked with. The same files give
# the same bytes, whoever packs them and when. It needs bin/kcount and the toolchain.
set -euo pipefail
top=$(cd "$(dirname "$0")/.." && pwd)
[ -x "$top/bin/kcount" ] || { echo "no bin/kcount: run make build first"; exit 1; }
name=$("$top/bin/kcount" --version | tr ' ' '-')-linux-x86_64
work=$(mktemp -d)
trap 'rm -rf "$work"' EXIT
install -D "$top/bin/kcount" "$work/$name/bin/kcount"
install -D -m 644 "$top/LICENSE" "$work/$name/LICENSE"
"$top/tools/licences.py" > "$work/$name/THIRD-PARTY"
install -D -m 644 "$top/share/kcount.1" "$work/$name/share/man/man1/kcount.1"
install -D -m 644 "$top/share/kcount.bash" "$work/$name/share/bash-completion/completions/kcount"
install -D -m 644 "$top/share/_kcount" "$work/$name/share/zsh/site-functions/_kcount"
install -D -m 644 "$top/share/kcount.fish" "$work/$name/share/fish/vendor_completions.d/kcount.fish"
mkdir -p "$1"
tar -C "$work" --sort=name --mtime=@0 --owner=0 --group=0 --numeric-owner --mode=u+rw,go+r-w -cf - "$name" | gzip -n -9 > "$1/$name.tar.gz"
(cd "$1" && sha256sum "$name.tar.gz" > "$name.tar.gz.sha256" && cat "$name.tar.gz.sha256")

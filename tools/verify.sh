#!/bin/bash
# Compares an archive that somebody built with the one that this machine packs of the program that it has proved and built itself:
#   tools/verify.sh ARCHIVE
# It needs bin/kcount.
set -euo pipefail
top=$(cd "$(dirname "$0")/.." && pwd)
archive=${1:?name the archive: make verify ARCHIVE=kcount-..tar.gz}
[ -f "$archive" ] || { echo "verify: there is no $archive"; exit 1; }
work=$(mktemp -d)
trap 'rm -rf "$work"' EXIT
"$top/tools/dist.sh" "$work" > "$work/sum"
own=$(echo "$work"/*.tar.gz)
if cmp -s "$own" "$archive"; then
    echo "verify: $archive has the bytes of $(basename "$own") as proved and built here"
    exit
fi
# what differs, file by file
mkdir "$work/own" "$work/given"
tar -C "$work/own" -xzf "$own"
tar -C "$work/given" -xzf "$archive" || { echo "verify: $archive can't be unpacked"; exit 1; }
echo "verify: $archive has other bytes than $(basename "$own") as proved and built here:"
diff -rq "$work/own" "$work/given" || true
exit 1

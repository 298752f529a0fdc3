#!/bin/bash
# Draws the pictures of docs/TUTORIAL.md anew: runs its examples in their order, by bin/kcount, and puts the .svg files
# that they write into docs/:
#   tools/pictures.sh
set -euo pipefail
top=$(cd "$(dirname "$0")/.." && pwd)
[ -x "$top/bin/kcount" ] || { echo "no bin/kcount: run make build first"; exit 1; }
work=$(mktemp -d)
trap 'rm -rf "$work"' EXIT
cp -r "$top/examples" "$work/examples"
cd "$work"
export PATH=$top/bin:$PATH
sed -n 's/^\$ //p' "$top/docs/TUTORIAL.md" > commands
# (some of the examples show errors)
bash commands > printed 2>&1 || true
install -m 644 ./*.svg "$top/docs/"
echo "pictures: $(ls ./*.svg | wc -l) drawn"

#!/bin/bash
# Shows the program at work before anything is proved, on a machine with the toolchain alone:
#   tools/demo.sh
# It counts the words of length 4 in a small FASTA file, and compares the dump with what a reader of that file counts by hand.
set -euo pipefail
top=$(cd "$(dirname "$0")/.." && pwd)
work=$(mktemp -d)
trap 'rm -rf "$work"' EXIT
cat <<'TEXT'
What runs now is the source of kcount with its checks, built in a minute or two. It is not proved yet: `make build` proves every function and builds
the fast program as bin/kcount, in up to an hour on four processors.

The words of length 4 in examples/reads.fa, with their counts (kcount count -m 4 --print dump --column < examples/reads.fa):
TEXT
cd "$top/crates/kcount"
rt try -- count -m 4 --print dump --column < "$top/examples/reads.fa" > "$work/dump" 2> "$work/log" || {
    cat "$work/log"
    echo "demo: the program did not run"
    exit 1
}
cat "$work/dump"
printf '%s\n' 'ACGT 4' 'CGTA 1' 'CGTT 1' 'GACA 1' 'GTAC 1' 'GTTT 1' 'TACG 1' 'TGAC 1' 'TTGA 1' 'TTTG 1' | cmp -s - "$work/dump" || {
    cat "$work/log"
    echo "demo: that is another dump than it should be"
    exit 1
}

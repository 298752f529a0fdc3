#!/bin/bash
# The full test: `rt ci`, the toolchain's own, and what that can't do, over the libraries, the program and the tests that it has built:
#   tests/full.sh
# What the documents name is there, what the toolchain prints is read as it should be, and the text that each edit changes is
# there. All edits have to be refused, each by the function that it names: they are tried beside `rt ci`, each crate's once
# that has proved it. Then each growth of memory is refused, files are missing or directories, the man page and the completions are
# compared with the help, the program's texts, streams and statuses with what they should be, the examples of the
# documents and the workflow over them are run, and the Debian package is installed and removed. Where all of it passed,
# the last line is `N passed, 0 failed`, N counting proofs and edits.
set -euo pipefail
cd "$(dirname "$0")/.."
work=$(mktemp -d)
trap 'kill $(jobs -p) 2> /dev/null || true; rm -rf "$work"' EXIT
mkdir "$work/kept"
begun=$SECONDS
FULL_TEST=$work tests/costs.py "$work" > "$work/costs" &
costs=$!
export FULL_TEST=$work
minutes() {
    echo "full test: $1 after $(((SECONDS - begun + 30) / 60)) minutes"
}

# Runs these tests beside one another, and shows what each printed, in this order.
side_by_side() {
    local it
    local -A running
    for it in "$@"; do
        "tests/$it" > "$work/said-$it" 2>&1 &
        running[$it]=$!
    done
    for it in "$@"; do
        wait "${running[$it]}" || { cat "$work/said-$it"; echo "full test: tests/$it failed"; exit 1; }
        cat "$work/said-$it"
    done
}
tests/documents.py
tests/judging.py
tools/check_edits.py
touch "$work/ci"
: > "$work/edits"
tools/edits.py --kept "$work/kept" --beside "$work/ci" > "$work/edits" 2>&1 &
edits=$!
tail -f --pid="$edits" "$work/edits" &
showing=$!
rt ci | tee "$work/ci"
minutes "proofs and tests"
install -D crates/kcount/out/kcount bin/kcount
side_by_side edits.sh memory.sh files.sh gzip_files.py mistakes.sh options.sh program.sh examples.sh package.sh workflow.sh
wait "$edits" || { wait "$showing"; exit 1; }
wait "$showing"
kill "$costs"
wait "$costs"
minutes "all"
echo "full test: minutes of processor time of the checks, crate by crate"
cat "$work/costs"
passed=$(tail -n 1 "$work/ci" | sed -n 's/^\([0-9]*\) passed, 0 failed$/\1/p')
refused=$(tail -n 1 "$work/edits" | sed -n 's/^\([0-9]*\) refused, 0 failed$/\1/p')
echo "$((passed + refused)) passed, 0 failed"

#!/bin/bash
# Prints the table of docs/PROVED.md that says how large each crate is: lines of code with tests, of definitions and of
# proofs, and how many edits the prover has to refuse. The order is that of crates.txt.
set -euo pipefail
cd "$(dirname "$0")/.."

# the lines of the files of that ending in a folder, or nothing
lines() {
    [ -d "$1" ] && find "$1" -name "*.$2" -exec cat {} + | wc -l || echo 0
}

echo '| Crate | Lines of code (with tests) | of definitions | of proofs | Edits that the prover refuses |'
echo '|---|---|---|---|---|'
all=(0 0 0 0)
for crate in $(sed -n 's/^\([a-z0-9_]*\)[ :].*/\1/p' crates.txt); do
    edits=$(find "crates/$crate" -name '*.edit' -not -path '*/out/*' | wc -l)
    row=("$(lines "crates/$crate/src" rt)" "$(lines "crates/$crate/specs" antt)" "$(lines "crates/$crate/proofs" antt)" "$edits")
    for i in 0 1 2 3; do all[i]=$((all[i] + row[i])); done
    printf '| `%s` | %s | %s | %s | %s |\n' "$crate" "${row[@]}"
done
printf '| together | %s | %s | %s | %s |\n' "${all[@]}"

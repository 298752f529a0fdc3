#!/bin/bash
# Tries tools/edits.py over a crate made for it: edits that are refused pass, and each that isn't is named, also in a group with others:
#   tests/edits.sh
set -euo pipefail
top=$(cd "$(dirname "$0")/.." && pwd)
work=$(mktemp -d)
trap 'rm -rf "$work"' EXIT
crate=$work/crates/small
mkdir -p "$crate/src" "$crate/edits"
cp -r "$top/tools" "$work/tools"
echo 'small:' > "$work/crates.txt"
cat > "$crate/src/lib.rt" <<'RATTLE'
//! Four functions that add.
#![tactic(auto)]
ghost use Rattle.std.specs.Prelude.{◌≡◌, ◌+◌};

/// One more.
pub fn add_one(number: u8) -> u64
    ensures { result ≡ number + 1 }
{
    number as u64 + 1
}

/// Two more.
pub fn add_two(number: u8) -> u64
    ensures { result ≡ number + 2 }
{
    add_one(number) + 1
}

/// Three more.
pub fn add_three(number: u8) -> u64
    ensures { result ≡ number + 3 }
{
    number as u64 + 3
}

/// Four more.
pub fn add_four(number: u8) -> u64
    ensures { result ≡ number + 4 }
{
    number as u64 + 4
}
RATTLE
# (a crate that no earlier run of this test has seen)
echo "// Made at $(date +%s%N)." >> "$crate/src/lib.rt"

# an edit of the crate: its name, the function that has to be refused, the text and what stands in its place
edit() {
    printf 'refused: %s\nfile: src/lib.rt\nold: %s\nnew: %s\n' "$2" "$3" "$4" > "$crate/edits/$1.edit"
}
# runs the tool, with or without --anew, and wants this status and these last lines
wants() {
    wants_of 'small --anew' "$@"
}
wants_of() {
    local status=0 words=()
    read -r -a words <<< "$1"
    shift
    "$work/tools/edits.py" "${words[@]:1}" "${words[0]}" > "$work/said" 2>&1 || status=$?
    if [ "$status" != "$1" ] || ! tail -n "$(wc -l <<< "$2")" "$work/said" | cmp -s - <(echo "$2"); then
        printf 'edits: status %s, and it says\n%s\nwanted: status %s, and\n%s\n' "$status" "$(cat "$work/said")" "$1" "$2"
        exit 1
    fi
}

# two functions, of which one calls the other, in one group, and a second edit of one of them, made in a copy: each is refused for itself
edit adds_two add_one 'number as u64 + 1' 'number as u64 + 2'
edit adds_three add_two 'add_one(number) + 1' 'add_one(number) + 2'
edit adds_ten add_two 'add_one(number) + 1' 'add_one(number) + 9'
# one whose text stands in several functions, and once in the one that it names
edit adds_five_to_half add_four 'number as u64' 'number as u64 / 2 + 1'
# one that adds a function, which calls another one wrongly
edit adds_five_for_six add_six '/// Four more.' 'fn add_six(number: u8) -> u64 ensures { result ≡ number + 6 } { add_one(number) + 4 } /// Four more.'
wants 0 'edits of small: 5 refused by 1 checks, 0 failed
5 refused, 0 failed'
# what was refused isn't tried again, where `rt` keeps what it has tried, but another edit is, and all are once the crate has changed
keeps="import sys; sys.path.insert(0, '$work/tools'); import kit; print(getattr(kit.load(), 'Kept', ''))"
if [ -n "$(PYTHONDONTWRITEBYTECODE=1 python3 -c "$keeps")" ]; then
    wants_of small 0 'edits of small: 5 refused by 0 checks and 5 of them earlier, 0 failed
5 refused, 0 failed'
    edit adds_three add_two 'add_one(number) + 1' 'add_one(number) + 3'
    wants_of small 0 'edits of small: 5 refused by 1 checks and 4 of them earlier, 0 failed
5 refused, 0 failed'
    echo "// Changed at $(date +%s%N)." >> "$crate/src/lib.rt"
    wants_of small 0 'edits of small: 5 refused by 1 checks, 0 failed
5 refused, 0 failed'
fi
rm "$crate"/edits/adds_five_{to_half,for_six}.edit

# beside them one that changes nothing, one of these in a copy, and one whose function is only a caller of what is refused
edit adds_three_in_another_order add_three 'number as u64 + 3' '3 + number as u64'
rm "$crate"/edits/adds_t{hree,en}.edit
edit adds_two add_two 'number as u64 + 1' 'number as u64 + 2'
edit adds_five add_four 'number as u64 + 4' 'number as u64 + 5'
edit adds_four_in_another_order add_four 'number as u64 + 4' '4 + number as u64'
wants 1 'NOT REFUSED: small/edits/adds_four_in_another_order: add_four is not refused for a goal or an answer of its own
NOT REFUSED: small/edits/adds_three_in_another_order: add_three is not refused for a goal or an answer of its own
NOT REFUSED: small/edits/adds_two: add_two is not refused for a goal or an answer of its own
edits of small: 1 refused by 1 checks, 3 failed
1 refused, 3 failed'

# one that can't be read, one of a function that isn't there, and one whose text isn't there; the fourth is refused all the same
rm "$crate"/edits/adds_{t,fo}*.edit
edit adds_a_word add_one 'number as u64 + 1' 'number as u64 + word'
edit adds_zero add_nothing 'add_one(number) + 1' 'add_one(number)'
edit adds_six add_three 'number as u64 + 6' 'number as u64 + 7'
"$work/tools/edits.py" --anew small > "$work/said" 2>&1 && { echo "edits: status 0 of edits that can't be tried"; cat "$work/said"; exit 1; }
for name in adds_a_word adds_zero adds_six; do
    grep -q "^NOT REFUSED: small/edits/$name: " "$work/said" || { echo "edits: $name isn't named:"; cat "$work/said"; exit 1; }
done
[ "$(tail -n 1 "$work/said")" = '1 refused, 3 failed' ] || { echo "edits: another count:"; cat "$work/said"; exit 1; }
echo "edits: the tool names each edit that isn't refused by its own function, and tries again what has changed"

#!/bin/bash
# Pairs of reads selected by their words: `kcount select --pairs` beside two selections, of one file each, over the reads of
# bench/count.sh, in one run, each once a round. The target is 1.15 of the time of the two.
#   bench/pairs.sh [GENOME_BASES [LENGTH_OF_WORDS]]       4,900,000 and 21
# Each two reads are taken for a pair, which is kept if each word of both occurs at least LEAST times (3).
#   COVERAGE    reads over each base (20)
#   LEAST       the least count (3)
# It needs bin/kcount and /usr/bin/time (apt-get install time).
. "$(dirname "$0")/lib.sh"
whole_command "${1:-4900000}"
k=${2:-21}
least=${LEAST:-3}
awk -v work="$work" '{ mate = int((NR - 1) / 4) % 2 + 1 }
    NR % 4 == 1 { $0 = "@pair" int((NR - 1) / 8) "/" mate }
    { print > (work "/mates" mate ".fq") }' "$reads"
"$kcount" count -m "$k" -C -t 4 -o "$work/table.kct" "$reads"

# what is measured
pairs_kcount() {
    "$kcount" select --pairs --min-count "$least" -o "$work/kept1.fq" --output2 "$work/kept2.fq" \
        "$work/table.kct" "$work/mates1.fq" "$work/mates2.fq"
}
pairs_apart() {
    for mate in 1 2; do
        "$kcount" select --min-count "$least" -o "$work/alone$mate.fq" "$work/table.kct" "$work/mates$mate.fq"
    done
}
export kcount k work least
export -f pairs_kcount pairs_apart
in_rounds pairs kcount apart

echo "| Selection | Reads kept | Wall | Processor | Peak | The pairs' wall to it | Target |"
echo "|---|---|---|---|---|---|---|"
reads_in() { cat "$@" | awk 'END { print NR / 4 }'; }
tool_row pairs kcount "$(reads_in "$work"/kept?.fq)" "" | sed 's/ kcount / pairs /'
tool_row pairs apart "$(reads_in "$work"/alone?.fq)" 1.15 | sed 's/ apart / two selections /'
# a pair is kept exactly where both of its reads are
names() { sed -n 's,^@\(pair[0-9]*\)/.,\1,p' "$1" | sort; }
comm -12 <(names "$work/alone1.fq") <(names "$work/alone2.fq") | cmp -s - <(names "$work/kept1.fq") \
    || fail "the pairs that are kept are not those of both selections"
rm -rf "$work"/{mates,kept,alone}?.fq "$work"/table.* "$work"/pairs.*

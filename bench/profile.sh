#!/bin/bash
# Counts along a sequence: `kcount profile` beside `jellyfish query -s` over the genome of the reads of bench/count.sh, in one run, each
# once a round. The aim is half of Jellyfish's time.
#   bench/profile.sh [GENOME_BASES [LENGTH_OF_WORDS]]       5,000,000 and 21
# Each tool has a table of the same reads, both strands, which is not measured. The counts are compared position by position.
#   COVERAGE    reads over each base (20)
# It needs bin/kcount. The peer is Debian's (apt-get install jellyfish time); where it is missing it is left out.
. "$(dirname "$0")/lib.sh"
bases=${1:-5000000}
k=${2:-21}
whole_command "$bases"
# one read of the whole genome
assembly=$work/assembly.fa
"$work/reads" "$bases" 1 "$bases" 0 1 | awk 'NR == 1 { print ">" substr($0, 2) } NR == 2' > "$assembly"

# the tables of both
make_kcount() { "$kcount" count -m "$k" -C -t 4 -o "$work/table.kct" "$reads"; }
make_jellyfish() { jellyfish count -m "$k" -C -s 100M -t 4 -o "$work/table.jf" "$reads"; }
# what is measured
profile_kcount() { "$kcount" profile -o "$work/counts.kcount" "$work/table.kct" "$assembly"; }
profile_jellyfish() { jellyfish query -s "$assembly" -o "$work/counts.jellyfish" "$work/table.jf"; }
export kcount k reads work assembly
export -f profile_kcount profile_jellyfish

tools=$(with_peers jellyfish)
# shellcheck disable=SC2086
{ prepared make $tools; in_rounds profile $tools; }

echo "| Tool | Positions | Wall | Processor | Peak | kcount's wall to it | Target |"
echo "|---|---|---|---|---|---|---|"
for tool in $tools; do
    tool_row profile "$tool" "$((bases - k + 1))" 0.5
done
[ ! -e "$work/counts.jellyfish" ] || cmp -s \
    <(awk '{ for (i = $2; i < $3; i++) print $4 }' "$work/counts.kcount") <(cut -d ' ' -f 2 "$work/counts.jellyfish") \
    || fail "the counts of kcount and Jellyfish differ"
rm -rf "$work"/{profile,counts,table}.* "$assembly"

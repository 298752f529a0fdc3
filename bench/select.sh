#!/bin/bash
# Reads selected by their words: `kcount select` beside `kmc_tools filter` over the reads of bench/count.sh, in one run, each once a round.
# A read is kept if each of its words occurs at least LEAST times (3). The aim is KMC's time with one thread.
#   bench/select.sh [GENOME_BASES [LENGTH_OF_WORDS]]       4,900,000 and 21
# Each tool has a table of the same reads, both strands, which is not measured. What the tools write is compared.
#   COVERAGE    reads over each base (20)
#   LEAST       the least count (3)
# It needs bin/kcount. The peer is Debian's (apt-get install kmc time); where it is missing it is left out.
. "$(dirname "$0")/lib.sh"
whole_command "${1:-4900000}"
k=${2:-21}
least=${LEAST:-3}

# the tables of both
make_kcount() { "$kcount" count -m "$k" -C -t 4 -o "$work/table.kct" "$reads"; }
make_kmc() {
    rm -rf "$work/kmc.tmp"
    mkdir "$work/kmc.tmp"
    kmc -k"$k" -ci1 -cs1000000000 -t4 -m12 -fq "$reads" "$work/table.kmc" "$work/kmc.tmp"
}
# what is measured
select_kcount() { "$kcount" select --min-count "$least" -o "$work/kcount.fq" "$work/table.kct" "$reads"; }
select_kmc() { kmc_tools -t1 filter "$work/table.kmc" -ci"$least" "$reads" -ci1.0 "$work/kmc.fq"; }
export kcount k reads work least
export -f select_kcount select_kmc

tools=$(with_peers kmc)
# shellcheck disable=SC2086
{ prepared make $tools; in_rounds select $tools; }

echo "| Tool | Reads kept | Wall | Processor | Peak | kcount's wall to it | Target |"
echo "|---|---|---|---|---|---|---|"
for tool in $tools; do
    tool_row select "$tool" "$(($(wc -l < "$work/$tool.fq") / 4))" 1
done
[ ! -e "$work/kmc.fq" ] || cmp -s "$work/kmc.fq" "$work/kcount.fq" || fail "the selections of kcount and KMC differ"
rm -rf "$work"/{kcount,kmc}.fq "$work"/table.* "$work"/select.* "$work/kmc.tmp"

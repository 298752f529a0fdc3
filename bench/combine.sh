#!/bin/bash
# Tables of ROWS rows (14 million) that are combined and written to a file: `kcount merge` of two and of eight tables, `intersect` and
# `subtract` of two, beside `kmc_tools` with a sorted dump, and beside `jellyfish merge` of two with `dump -c` and `sort`; and `compare` of
# two, beside what gives its numbers by `kmc_tools`, three times `simple`; all in one run, each once a round. The targets are 0.6 of KMC's
# time (0.4 of it for `compare`), and 0.3 of Jellyfish's. A C program combines two tables in the same two passes.
#   bench/combine.sh
# The tables are of words of length 21 on both strands, of two random sequences each, of which each shares one with the table before it. They
# are not measured. What the tools write is compared, but for `compare`. (Debian's `kmc_tools complex` stops with an error, so eight tables have no peer.)
#   ROWS        rows of a table (14000000)
#   PEERS       "jellyfish kmc"
# It needs bin/kcount. The peers are Debian's (apt-get install jellyfish kmc time); one that is missing is left out.
. "$(dirname "$0")/lib.sh"
kcount=$top/bin/kcount
[ -x "$kcount" ] || fail "no bin/kcount: run make build first"
command -v /usr/bin/time > "$work/which" || fail "no /usr/bin/time: apt-get install time"
"${CC:-cc}" -O2 -o "$work/reads" "$bench/c/reads.c"
c_program combine
k=21
rows=${ROWS:-14000000}
most=1000000000

# a random sequence, as FASTA, with half as many words as a table has rows
half_of() {
    local bases=$((rows / 2 + k - 1))
    echo ">sequence$1"
    "$work/reads" $bases 1 $bases 0 "$1" | sed -n 2p | fold -w 100
}
half_of 1 > "$work/half1.fa"
for table in 1 2 3 4 5 6 7 8; do
    half_of $((table + 1)) > "$work/half$((table + 1)).fa"
    cat "$work/half$table.fa" "$work/half$((table + 1)).fa" > "$work/$table.fa"
done

make_kcount() {
    for table in 1 2 3 4 5 6 7 8; do
        "$kcount" count -m $k -C -t 4 -s 16M -o "$work/$table.kct" "$work/$table.fa"
    done
}
make_jellyfish() {
    for table in 1 2; do jellyfish count -m $k -C -s 100M -t 4 -o "$work/$table.jf" "$work/$table.fa"; done
}
make_kmc() {
    for table in 1 2; do
        rm -rf "$work/kmc.tmp"
        mkdir "$work/kmc.tmp"
        kmc -k$k -ci1 -cs$most -t4 -m12 -fm "$work/$table.fa" "$work/$table.kmc" "$work/kmc.tmp"
    done
}
# what is measured: kmc_tools writes a table of its own, which is then dumped in order
dump_kmc() { kmc_tools -t1 transform "$work/out.kmc" dump -s "$work/text.kmc"; }
simple_kmc() { kmc_tools -t1 simple "$work/1.kmc" "$work/2.kmc" "$@" && dump_kmc; }
merge_kcount() { "$kcount" merge -o "$work/out.kct" "$work"/[12].kct; }
merge_kmc() { simple_kmc union "$work/out.kmc" -cs$most -ocsum; }
merge_jellyfish() {
    jellyfish merge -o "$work/out.jf" "$work/1.jf" "$work/2.jf"
    jellyfish dump -c "$work/out.jf" | sort > "$work/text.jellyfish"
}
merge8_kcount() { "$kcount" merge -o "$work/out.kct" "$work"/[1-8].kct; }
intersect_kcount() { "$kcount" intersect -o "$work/out.kct" "$work"/[12].kct; }
intersect_kmc() { simple_kmc intersect "$work/out.kmc" -cs$most -ocmin; }
subtract_kcount() { "$kcount" subtract -o "$work/out.kct" "$work"/[12].kct; }
subtract_kmc() { simple_kmc kmers_subtract "$work/out.kmc" -cs$most; }
compare_kcount() { "$kcount" compare -o "$work/compared" "$work"/[12].kct; }
# the words of both, those of one alone, and those of both with a count of at least 2 in the first
compare_kmc() {
    kmc_tools -t1 simple "$work/1.kmc" "$work/2.kmc" intersect "$work/out.kmc" -ocleft
    kmc_tools -t1 simple "$work/2.kmc" "$work/1.kmc" kmers_subtract "$work/out.kmc"
    kmc_tools -t1 simple "$work/1.kmc" -ci2 "$work/2.kmc" intersect "$work/out.kmc" -ocleft
}
merge_c() { "$plain" merge "$work"/[12].kct "$work/out.c"; }
intersect_c() { "$plain" intersect "$work"/[12].kct "$work/out.c"; }
subtract_c() { "$plain" subtract "$work"/[12].kct "$work/out.c"; }
export kcount k most work plain
export -f dump_kmc simple_kmc {merge,intersect,subtract,compare}_{kcount,kmc} merge8_kcount merge_jellyfish {merge,intersect,subtract}_c

# the rows of a table and its end line
rows_of() { tail -n +2 "$1"; }

# shellcheck disable=SC2086
tools=$(with_peers ${PEERS:-jellyfish kmc})
# shellcheck disable=SC2086
prepared make $tools
echo "| Tool | What | Wall | Processor | Peak | kcount's wall to it | Target |"
echo "|---|---|---|---|---|---|---|"
for what in merge merge8 intersect subtract compare; do
    case $what in merge) peers="$tools c" ;; merge8) peers=kcount ;; compare) peers=${tools/ jellyfish/} ;; *) peers="${tools/ jellyfish/} c" ;; esac
    # shellcheck disable=SC2086
    in_rounds $what $peers
    for tool in $peers; do
        case $what-$tool in *-c) target= ;; *-jellyfish) target=0.3 ;; compare-*) target=0.4 ;; *) target=0.6 ;; esac
        tool_row $what "$tool" $what "$target"
        [ $what != compare ] || continue
        [ "$tool" != kcount ] || "$kcount" dump -c -o "$work/text.kcount" "$work/out.kct"
        if [ "$tool" = c ]; then
            cmp -s <(rows_of "$work/out.c") <(rows_of "$work/out.kct") || fail "what the C program writes for $what is another table"
            continue
        fi
        tr '\t' ' ' < "$work/text.$tool" | cmp -s - "$work/text.kcount" || fail "what $tool writes for $what is another"
    done
done
rm -rf "$work"/half* "$work"/{[1-8],out}.* "$work"/text.* "$work/kmc.tmp"

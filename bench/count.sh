#!/bin/bash
# The whole command against Jellyfish and KMC on the same reads in one run: wall time, processor time and peak memory.
#   bench/count.sh [GENOME_BASES [LENGTH_OF_WORDS]]       4,900,000 and 21
# The reads are seeded FASTQ of 100 bases, 20 over each base of the genome, with one wrong base in a hundred; both strands count, and the
# words are written sorted to a file. Jellyfish is `count`, `dump -c` and `sort`; KMC is `kmc` and its sorted `dump`. The dumps of all
# three are compared. With the histogram, KMC's is `kmc_tools transform histogram`. The processor time is also that of one of the reads'
# k-mers.
#   THREADS     numbers of threads ("1 4")
#   COVERAGE    reads over each base (20)
#   ERRORS      wrong bases in a thousand (10)
#   REPORTS     "dump histo"
#   OPTIONS     more options of kcount, as "--stripes 64"
#   PEERS       "jellyfish kmc"
# It needs bin/kcount. The peers are Debian's (apt-get install jellyfish kmc time); one that is missing is left out. Where perf is there
# (linux-perf), a second table says where kcount's processor time goes, by the functions that its samples fell in.
. "$(dirname "$0")/lib.sh"
bases=${1:-4900000}
k=${2:-21}
whole_command "$bases"
kmers=$((bases * ${COVERAGE:-20} / 100 * (101 - k)))
# (what an earlier run left is no text of these reads)
rm -f "$work"/{kcount,jellyfish,kmc}.txt

# what a tool does with so many threads
kcount_dump() { "$kcount" count -m $k -C -t "$1" ${OPTIONS:-} --print dump --column -o "$work/kcount.txt" "$reads"; }
kcount_histo() { "$kcount" count -m $k -C -t "$1" ${OPTIONS:-} --print histo -o "$work/kcount.histo" "$reads"; }
jellyfish_dump() {
    jellyfish count -m $k -C -s 100M -t "$1" -o "$work/mers.jf" "$reads"
    jellyfish dump -c "$work/mers.jf" | sort --parallel="$1" > "$work/jellyfish.txt"
}
kmc_count() {
    rm -rf "$work/kmc.tmp"
    mkdir "$work/kmc.tmp"
    kmc -k$k -ci1 -cs1000000000 -t"$1" -m12 -fq "$reads" "$work/kmc.db" "$work/kmc.tmp"
}
kmc_dump() {
    kmc_count "$1"
    kmc_tools -t"$1" transform "$work/kmc.db" dump -s "$work/kmc.txt"
}
kmc_histo() {
    kmc_count "$1"
    kmc_tools -t"$1" transform "$work/kmc.db" histogram "$work/kmc.histo"
}
export kcount k reads work OPTIONS
export -f kcount_dump kcount_histo jellyfish_dump kmc_count kmc_dump kmc_histo

# measured TOOL REPORT THREADS: the run with the least wall time, as "WALL PROCESSOR PEAK" in seconds and KB
measured() {
    local _
    for _ in $(seq "$rounds"); do
        /usr/bin/time -f '%e %U %S %M' -o "$work/time" bash -c "set -e; $1_$2 $3" > "$work/$1.log" 2>&1 || fail "$1 failed: $(tail -n 3 "$work/$1.log")"
        cat "$work/time"
    done | sort -n | awk 'NR == 1 { print $1, $2 + $3, $4 }'
}

echo "| Report | Threads | Tool | Wall | Processor | A k-mer | Peak | kcount's wall to it | Its peak |"
echo "|---|---|---|---|---|---|---|---|---|"
for report in ${REPORTS:-dump histo}; do
    for threads in ${THREADS:-1 4}; do
        ours=
        our_peak=
        for tool in kcount ${PEERS:-jellyfish kmc}; do
            declare -F ${tool}_$report > "$work/which" || continue
            [ $tool = kcount ] || command -v $tool > "$work/which" || continue
            read -r wall processor peak <<< "$(measured $tool "$report" "$threads")"
            [ $tool != kcount ] || { ours=$wall; our_peak=$peak; }
            awk -v report="$report" -v threads="$threads" -v tool=$tool -v wall="$wall" -v processor="$processor" -v peak="$peak" \
                -v kmers="$kmers" -v ours="$ours" -v our_peak="$our_peak" 'BEGIN {
                printf "| %s | %s | %s | %.2f s | %.2f s | %.0f ns | %.0f MB | %s | %s |\n", report, threads, tool, wall, processor,
                    processor * 1e9 / kmers, peak / 1024, tool == "kcount" ? "" : sprintf("%.2f", ours / wall),
                    tool == "kcount" ? "" : sprintf("%.2f", our_peak / peak) }'
        done
    done
done
for peer in jellyfish kmc; do
    [ ! -e "$work/$peer.txt" ] || tr '\t' ' ' < "$work/$peer.txt" | cmp -s - "$work/kcount.txt" || fail "the dumps of kcount and $peer differ"
done

# the shares of the processor time of a dump by so many threads
steps() {
    perf record -q -e cpu-clock -o "$work/perf.data" "$kcount" count -m $k -C -t "$1" ${OPTIONS:-} --print dump --column \
        -o "$work/kcount.txt" "$reads" > "$work/perf.log" 2>&1
    perf report -i "$work/perf.data" --no-children --sort sym -F overhead,sym --stdio 2> "$work/perf.log" | awk -v threads="$1" '
        $1 !~ /^[0-9.]+%$/ { next }
        {
            step = $2 == "[k]" ? "kernel: pages and files" \
                : /kc_fastx|kc_io|memchr|first_by/ ? "read" \
                : /kc_word::usable_codes|kc_tool::counted_sources/ ? "clean" \
                : /kc_word::(cutting|pieces|piece|packed_codes|runs)/ ? "cut" \
                : /cut_batch|kc_booking::cut|cut_up|push_words|scope::entry/ ? "cut up" \
                : /[Ss]tripe::rows|rows_of/ ? "rows" \
                : /book/ ? "book" \
                : /sort/ ? "sort" \
                : /kc_gather|gather_summary|fork::run_jobs|kc_tally/ ? "rows" \
                : /kc_report|write_report|itoa/ ? "text" \
                : "C library and others"
            shares[step] += $1
        }
        END {
            count = split("read,clean,cut,cut up,book,rows,sort,text,C library and others,kernel: pages and files", order, ",")
            for (i = 1; i <= count; i++) printf "| %s | %s | %.1f %% |\n", threads, order[i], shares[order[i]]
        }'
}
if command -v perf > "$work/which"; then
    echo
    echo "| Threads | Step of the dump | Share of kcount's processor time |"
    echo "|---|---|---|"
    for threads in ${THREADS:-1 4}; do steps "$threads"; done
fi

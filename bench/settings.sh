#!/bin/bash
# What the settings of `kcount count` and more of the same reads change: wall time, processor time and peak memory of the histogram of
# the reads of bench/count.sh, k 21, both strands. First other stripes and batches, then the same reads once, twice and four times, where
# the different k-mers stay the same.
#   bench/settings.sh [GENOME_BASES]       4,900,000
#   THREADS     numbers of threads ("1 4")
#   COVERAGE    reads over each base (20)
# It needs bin/kcount and /usr/bin/time (apt-get install time).
. "$(dirname "$0")/lib.sh"
whole_command "${1:-4900000}"

# measured NAME THREADS ARGUMENT..: a line of the table, of the run with the least wall time
measured() {
    local name=$1 threads=$2 _
    shift 2
    for _ in $(seq "$rounds"); do
        /usr/bin/time -f '%e %U %S %M' -o "$work/time" \
            "$kcount" count -m 21 -C -t "$threads" --print histo -o "$work/histo" "$@" || fail "kcount failed"
        cat "$work/time"
    done | sort -n | awk -v name="$name" -v threads="$threads" 'NR == 1 {
        printf "| %s | %s | %.2f s | %.2f s | %.0f MB |\n", name, threads, $1, $2 + $3, $4 / 1024 }'
}

echo "| Settings or reads | Threads | Wall | Processor | Peak |"
echo "|---|---|---|---|---|"
for threads in ${THREADS:-1 4}; do
    measured "16 stripes, batches of 65536 (the defaults)" "$threads" "$reads"
    measured "64 stripes" "$threads" --stripes 64 "$reads"
    measured "batches of 1048576" "$threads" --batch 1048576 "$reads"
    measured "both" "$threads" --stripes 64 --batch 1048576 "$reads"
    measured "the reads twice" "$threads" "$reads" "$reads"
    measured "the reads four times" "$threads" "$reads" "$reads" "$reads" "$reads"
done

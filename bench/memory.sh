#!/bin/bash
# What a count holds before it begins to count: reads are read, cleaned and cut into batches, and the peak of memory is told as bytes a
# base. The reads are seeded FASTQ of 100 bases with any of 41 qualities; at the floor `!` each base passes, at `"` one in 41 doesn't.
#   BASES       numbers of bases ("50000000 200000000")
# It needs /usr/bin/time (apt-get install time).
. "$(dirname "$0")/lib.sh"
command -v /usr/bin/time > "$work/which" || fail "no /usr/bin/time: apt-get install time"
rattle_program memory kc_fastx kc_word anyhow
"${CC:-cc}" -O2 -o "$work/reads" "$bench/c/reads.c"
for bases in ${BASES:-50000000 200000000}; do
    "$work/reads" "$((bases / 20))" 20 100 10 1 41 > "$work/reads.fq"
    for passing in all most; do
        /usr/bin/time -f %M -o "$work/time" "$rattle" "$work/reads.fq" "$passing" > "$work/memory.log" || fail "$(cat "$work/memory.log")"
        awk -v bases="$bases" -v passing="$passing" -v script="$script" '{
            printf "| `%s` | memory before counting, %d bases, of which %s pass the floor | %.0f MB | | %.2f bytes a base |\n",
                script, bases, passing, $1 / 1024, $1 * 1024 / bases }' "$work/time"
    done
    rm "$work/reads.fq"
done

#!/bin/bash
# Batches cut up among 16 and among 64 stripes, and their cuts booked by one thread over tables that begin with 2^10 slots,
# against the same steps in C: BATCHES (1,200) batches of 65,536 positions, k 21, both strands. The reads are seeded and of 150
# bases; 20 of them lie over each base, and one base in a hundred is an error.
. "$(dirname "$0")/lib.sh"
batches=${BATCHES:-1200}
rattle_program stripe kc_fastx kc_hash kc_table kc_word kc_booking kc_stripe anyhow
c_program stripe

"$plain" make "$batches" "$work/reads"
in_turn "" "$work/reads"
rm "$work/reads"
for stripes in 16 64; do row "cut$stripes" "$batches batches cut up among $stripes stripes" ms; done
for stripes in 16 64; do row "book$stripes" "booking them in $stripes stripes" ms; done

#!/bin/bash
# Cuts of batches booked in 16 stripes: in plain ones, in locked ones by one thread, and by four threads, each of which books a
# quarter of the batches and begins at another stripe; against the same steps in C, with a mutex a stripe. All batches are cut
# up before: BATCHES (300) batches of 65,536 positions, k 21, both strands, of the reads of the stripe benchmark.
. "$(dirname "$0")/lib.sh"
batches=${BATCHES:-300}
rattle_program stripes kc_fastx kc_hash kc_table kc_word kc_share kc_booking kc_stripe anyhow
c_program stripes

"$plain" make "$batches" "$work/reads"
# each way once a round, so that a machine that gets slower does so for all
for _ in $(seq "$rounds"); do
    for way in alone one four; do rounds=1 in_turn "" "$way" "$work/reads"; done
done
rm "$work/reads"
row alone "booking $batches batches in 16 stripes" ms
row one "in locked stripes, by one thread" ms
row four "by four threads" ms
ratio one alone "one thread in locked stripes as a ratio to plain stripes"
ratio four one "four threads as a ratio to one"

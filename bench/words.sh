#!/bin/bash
# The words of batches, both strands, against the same loop in C. The reads are seeded: READS reads (333,334) of 150 bases, an
# N about every thousand bases, cut into batches of 65,536 positions. Cleaning and cutting have no peer.
. "$(dirname "$0")/lib.sh"
reads=${READS:-333334}
rattle_program words kc_fastx kc_word anyhow
c_program words

"$plain" make "$reads" "$work/reads"
for k in 21 31; do in_turn "k$k." "$work/reads" "$k"; done
rm "$work/reads"
row k21.words "words of $reads reads of 150 bases, both strands, k 21" ms
row k31.words "k 31" ms
row k21.clean "cleaning them" ms
row k21.cut "cutting them, k 21" ms

#!/bin/bash
# Batches counted by 1, 2 and 4 workers over one table in 16 and in 64 locked stripes, and gathered, from the batches to
# the sorted rows; against the same steps in C, and against Jellyfish and KMC, which count the words of the same file
# with as many threads and sort nothing. BATCHES (1,190) batches of 65,536 positions, k 21, both strands, of seeded
# reads: 20 over each base, one error in a hundred bases. Wall time is that of the count alone; processor time and peak
# memory are those of the whole program, which also reads the file. The C program tells where the time goes; this one
# tells it of gathering, and of cutting up and booking by one thread, in a count step by step. The peers are Debian's
# (bench/count.sh).
. "$(dirname "$0")/lib.sh"
batches=${BATCHES:-1190}
rattle_program run kc_fastx kc_hash kc_table kc_tally kc_word kc_booking kc_stripe kc_gather kc_run anyhow
c_program run
"${CC:-cc}" -O2 -o "$work/measure" "$bench/c/measure.c"

# measured KEY SIDE COMMAND..: the command's lines, its processor time and its peak memory, as keys that begin with KEY
measured() {
    local key=$1 side=$2
    shift 2
    "$work/measure" "$work/used" "$@" | sed "s/^/$key-/" >> "$work/times.$side"
    while read -r time memory; do
        printf '%s-processor %s\n%s-memory %s\n' "$key" "$time" "$key" "$memory" >> "$work/times.$side"
    done < "$work/used"
    rm "$work/used"
}

# A peer prints nothing of its own, so its lines go to its log.
peer() { "$@" > "$work/peer.log" 2>&1 || fail "$1 failed"; }
jellyfish_count() { peer jellyfish count -m 21 -C -s 100M -t "$1" -o "$work/mers.jf" "$work/reads"; }
kmc_count() {
    rm -rf "$work/kmc.tmp"
    mkdir "$work/kmc.tmp"
    peer kmc -k21 -ci1 -t"$1" -fa "$work/reads" "$work/kmc.db" "$work/kmc.tmp"
}

"$plain" make "$batches" "$work/reads"
for _ in $(seq "$rounds"); do
    for stripes in 16 64; do
        for workers in 1 2 4; do
            key=$workers-$stripes
            measured "$key" rattle "$rattle" run "$workers" "$stripes" "$work/reads"
            measured "$key" plain "$plain" run "$workers" "$stripes" "$work/reads"
            # cutting up and booking are those of one thread
            kept=gather
            [ "$workers" != 1 ] || kept='cut|book|gather'
            "$rattle" steps "$workers" "$stripes" "$work/reads" | grep -E "^($kept) " \
                | sed "s/^/$key-/" >> "$work/times.rattle"
        done
    done
done
for stripes in 16 64; do
    for workers in 1 2 4; do
        key=$workers-$stripes
        row "$key-run" "$batches batches counted by $workers in $stripes stripes" ms
        row "$key-processor" "its processor time" ms
        row "$key-memory" "its peak memory" MB
        for step in cut wait book gather rows sort; do row "$key-$step" "of which: ${step/#cut/cut up}" ms; done
    done
    ratio "4-$stripes-run" "1-$stripes-run" "four workers as a ratio to one, $stripes stripes"
done
for workers in 1 2 4; do
    for name in jellyfish kmc; do
        command -v $name > "$work/which" || continue
        time_of "$name-$workers" plain "${name}_count" "$workers"
        row "$name-$workers" "$name on the same file, $workers threads" ms
    done
done
rm -rf "$work/reads" "$work/mers.jf" "$work"/kmc.*

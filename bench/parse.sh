#!/bin/bash
# Parsing against a C loop that finds the lines and copies the bases and qualities, and reading a file and parsing it. The
# files are seeded, of BASES bases (50 million): FASTA in lines of 70, the same as one line, and FASTQ of reads of 100 bases
# (1.8 times as many).
. "$(dirname "$0")/lib.sh"
bases=${BASES:-50000000}
rattle_program parse kc_fastx anyhow
c_program parse

for kind in fasta line fastq; do
    "$plain" make "$kind" "$bases" "$work/$kind"
    in_turn "$kind." "$work/$kind"
    rm "$work/$kind"
done
row fasta.parse "parse FASTA, $bases bases in lines of 70" ms
row fasta.read "the same, read and parsed" ms
row line.parse "parse it as one line" ms
row line.read "the same, read and parsed" ms
row fastq.parse "parse FASTQ, $((bases / 1000 * 18)) reads of 100 bases" ms
row fastq.read "the same, read and parsed" ms

#!/bin/bash
# Decompressing FASTQ that `gzip -6` has compressed, beside `gzip -dc` and, where it is there, `libdeflate-gunzip -c`. The
# aims are at most 1.25 of gzip's time and at most 2.5 of libdeflate's. And counting the compressed file, beside a pipe
# from `gzip -dc`: the aims are at most 1.15 of its wall time by one thread, and 1.3 by four. It needs bin/kcount.
#   BASES       bases of the genome whose reads of 100 bases, 20 over each base, are compressed (5 million: 225 MB of text)
. "$(dirname "$0")/lib.sh"
bases=${BASES:-5000000}
"${CC:-cc}" -O2 -o "$work/reads" "$bench/c/reads.c"
"$work/reads" "$bases" 20 100 10 1 40 > "$work/reads.fq"
length=$(wc -c < "$work/reads.fq")
gzip -6 -c "$work/reads.fq" > "$work/reads.fq.gz"
rattle_program gzip kc_io kc_gzip anyhow

# gunzip_with KEY COMMAND..: a peer's times
gunzip_with() {
    local key=$1 start
    shift
    for _ in $(seq "$rounds"); do
        start=$(date +%s%N)
        "$@" "$work/reads.fq.gz" > /dev/null || fail "$* failed"
        echo "$key $(($(date +%s%N) - start)) $length" >> "$work/times.plain"
    done
}

for _ in $(seq "$rounds"); do
    "$rattle" "$work/reads.fq.gz" | tee -a "$work/times.rattle" | sed 's/^gunzip/libdeflate/' >> "$work/libdeflate"
done
gunzip_with gunzip gzip -dc
row gunzip "decompress $((length / 1000000)) MB of FASTQ; beside \`gzip -dc\`" ms
if command -v libdeflate-gunzip > "$work/which"; then
    cat "$work/libdeflate" >> "$work/times.rattle"
    gunzip_with libdeflate libdeflate-gunzip -c
    row libdeflate "the same; beside \`libdeflate-gunzip\`" ms
fi

kcount=$top/bin/kcount
[ -x "$kcount" ] || fail "no bin/kcount: run make build first"
export kcount work
# the histogram of the 21-mers by so many threads
count_file() { "$kcount" count -m 21 -C -t "$1" --print histo -o "$work/file.histo" "$work/reads.fq.gz"; }
count_pipe() { gzip -dc "$work/reads.fq.gz" | "$kcount" count -m 21 -C -t "$1" --print histo -o "$work/pipe.histo"; }
for threads in 1 4; do
    # (by turns)
    for _ in $(seq "$rounds"); do
        rounds=1 time_of "count$threads" rattle count_file $threads
        rounds=1 time_of "count$threads" plain count_pipe $threads
    done
    cmp -s "$work/file.histo" "$work/pipe.histo" || fail "the histograms differ"
    row "count$threads" "count the compressed file, -t $threads; beside a pipe from \`gzip -dc\`" ms
done

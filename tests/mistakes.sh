#!/bin/bash
# Runs command lines that users get wrong, with --explain, and compares the line of each fault and the line that explains
# it; without --explain, and where standard error is no terminal, the first line is alone:
#   tests/mistakes.sh
# It needs bin/kcount.
set -euo pipefail
here=$(cd "$(dirname "$0")" && pwd)
kcount=$here/../bin/kcount
[ -x "$kcount" ] || { echo "no bin/kcount: run make build first"; exit 1; }
work=$(mktemp -d)
trap 'rm -rf "$work"' EXIT
mkdir "$work/here" "$work/here/folder"
cd "$work/here"

# Good reads, and files that are none.
printf '>r1\nACGTA\n' > reads.fa
printf '>r1\nACGTA\n>r2\nACG\n' > mates.fa
printf '@r1\nACGTACGT\n+\nIIIIIIII\n' > reads.fq
gzip -c reads.fq > reads.fq.gz
printf '\x1f\x8b\x08\x04\x00\x00\x00\x00\x00\xff\x06\x00\x42\x43\x02\x00\x21\x00\x73\x72\xf4\x65\x64\x80\x02\x00\x7c\xb1\x74\xcc\x0c\x00\x00\x00' > reads.bam
head -c 30 reads.fq.gz > cut.fq.gz
{ cat reads.fq.gz; echo more; } > more.fq.gz
echo ACGT | gzip -c > bare.gz
printf 'BZh91AY&SY' > reads.fq.bz2
printf '\xfd7zXZ\0' > reads.fq.xz
printf '\x28\xb5\x2f\xfd' > reads.fq.zst
printf 'CRAM\3\0' > reads.cram
printf 'r1\t0\tchr1\t1\t60\t4M\t*\t0\t0\tACGT\tIIII\n' > reads.sam
printf '@HD\tVN:1.6\n@SQ\tSN:chr1\tLN:9\nr1\t0\tchr1\n' > header.sam
printf '\xef\xbb\xbf>r1\nACGT\n' > mark.fa
printf '0000000420{"alignment":8,"canonical":false}' > reads.jf
printf '>r1\nACGT ACGT\n' > blank.fa
printf '>r1\nACGT\n@r2\nACGT\n+\nIIII\n' > mixed.fa
printf 'ACGT\n' > bare.txt
printf '@r1\nACGT\n+\nI I\n' > quality.fq
printf '@r1\nACGT\n+\nIIIIIII\n' > long.fq
printf '@r1\nACGT\n+\nII' > cut.fq
printf '@r1\ta\tb\tc\nAC T\n+\nIIII\n' > tags.fq
printf '>r1\nACGU\n' > rna.fa
printf '>p1\nMKVLEDFW\n' > protein.fa
printf '>r1\nacgta\n' > lower.fa
printf '@r1\r\nACGTACGT\r\n+\r\nIIIIIIII\r\n' > crlf.fq
printf '>w1\nACG\n' > one.fa
printf 'CGT\n\nACGT\n' > words.txt
{ echo '>r1'; for _ in $(seq 300); do printf ACGT; done; echo; } > thousand.fa
: > empty.fq
"$kcount" count -m 3 -o three.kct reads.fa
"$kcount" count -m 4 -o four.kct reads.fa
"$kcount" count -m 3 -C -o both.kct reads.fa
head -n 2 three.kct > cut.kct
printf 'KCT 2 3 s a 33 1\nGTA 1\nACG 1\nEND 2 2\n' > sorted.kct
gzip -c three.kct > three.kct.gz
gzip -c four.kct > four.kct.gz
head -c 40 three.kct.gz > cut.kct.gz
{ cat three.kct.gz; echo more; } > more.kct.gz
"$kcount" dump three.kct > dump.fa

ran=0
# Runs `kcount` with these arguments and --explain, and without it.
explains() {
    local status=$1 line=$2 more=$3 got=0
    shift 3
    "$kcount" "$@" --explain > "$work/output" 2> "$work/errors" < reads.fa || got=$?
    same "its status" "$status" "$got" "$@"
    same "its errors" "kcount: $line"$'\n'"  $more" "$(cat "$work/errors")" "$@"
    "$kcount" "$@" > "$work/output" 2> "$work/errors" < reads.fa || true
    same "its errors without --explain" "kcount: $line" "$(cat "$work/errors")" "$@"
    ran=$((ran + 1))
}
same() {
    local what=$1 wanted=$2 got=$3
    shift 3
    [ "$wanted" = "$got" ] && return
    printf 'mistakes: %s of kcount %s\nwanted: %s\ngot: %s\n' "$what" "$*" "$wanted" "$got"
    exit 1
}
count=(count -m 3)
start='1: bad start, source 1, line 1'

# files of another kind
explains 1 "$start" 'bare.gz contains, decompressed, neither FASTA nor FASTQ: look at it by zcat bare.gz' "${count[@]}" bare.gz
explains 1 '71: broken gzip, source 1' 'more.fq.gz is damaged gzip, or other bytes follow the gzip: get the file again' "${count[@]}" more.fq.gz
explains 1 '72: gzip cut short, source 1' 'cut.fq.gz is gzip that ends too early: its copy is not whole, get the file again' "${count[@]}" cut.fq.gz
explains 1 "$start" 'reads.bam is BAM, or no reads: count the output of samtools fastq reads.bam' "${count[@]}" reads.bam
explains 1 "$start" 'reads.fq.bz2 is compressed with bzip2: count the output of bzcat reads.fq.bz2' "${count[@]}" reads.fq.bz2
explains 1 "$start" 'reads.fq.xz is compressed with xz: count the output of xzcat reads.fq.xz' "${count[@]}" reads.fq.xz
explains 1 "$start" 'reads.fq.zst is compressed with zstd: count the output of zstdcat reads.fq.zst' "${count[@]}" reads.fq.zst
explains 1 "$start" 'reads.cram is CRAM: count the output of samtools fastq reads.cram' "${count[@]}" reads.cram
explains 1 "$start" 'reads.sam is SAM, or another text of columns: of SAM, count the output of samtools fastq reads.sam' "${count[@]}" reads.sam
explains 1 '2: bad base, source 1, line 2' 'header.sam is SAM, or another text of columns: of SAM, count the output of samtools fastq header.sam' "${count[@]}" header.sam
explains 1 "$start" 'mark.fa begins with a byte order mark: count the output of tail -c +4 mark.fa' "${count[@]}" mark.fa
explains 1 "$start" 'three.kct is a table, and its reads are counted: look at it by kcount dump, histo, stats or query three.kct' "${count[@]}" three.kct
explains 1 "$start" 'reads.jf is a file of Jellyfish, which kcount does not read: look at it by jellyfish dump reads.jf' "${count[@]}" reads.jf
explains 1 "$start" 'bare.txt, line 1: a record should begin here, with > or @; is the input BAM? Put samtools fastq in front' "${count[@]}" bare.txt
explains 1 '1: bad start, source 2, line 1' 'bare.gz contains, decompressed, neither FASTA nor FASTQ: look at it by zcat bare.gz' "${count[@]}" reads.fq.gz bare.gz
explains 1 '72: gzip cut short, source 2' 'cut.fq.gz is gzip that ends too early: its copy is not whole, get the file again' "${count[@]}" reads.fa cut.fq.gz
explains 1 '71: broken gzip, source 0' 'more.fq.gz is damaged gzip, or other bytes follow the gzip: get the file again' "${count[@]}" --only more.fq.gz reads.fa
explains 1 '72: gzip cut short, source 1' 'cut.fq.gz is gzip that ends too early: its copy is not whole, get the file again' select three.kct cut.fq.gz

# lines that are wrong
explains 1 '2: bad base, source 1, line 2' 'blank.fa, line 2: a sequence has a byte that is no letter; are two formats in one input?' "${count[@]}" blank.fa
# standard input is looked at too
takes() {
    local input=$1 status=$2 line=$3 more=$4 got=0
    shift 4
    "$kcount" "$@" --explain > "$work/output" 2> "$work/errors" < "$input" || got=$?
    same "its status" "$status" "$got" "$@" "< $input"
    same "its errors" "kcount: $line"$'\n'"  $more" "$(cat "$work/errors")" "$@" "< $input"
    ran=$((ran + 1))
}
start='1: bad start, source 1, line 1'
takes bare.gz 1 "$start" 'standard input contains, decompressed, neither FASTA nor FASTQ: look at it by zcat' "${count[@]}"
takes cut.fq.gz 1 '72: gzip cut short, source 1' 'standard input is gzip that ends too early: its copy is not whole, get the file again' "${count[@]}"
takes reads.bam 1 "$start" 'standard input is BAM, or no reads: count the output of samtools fastq' "${count[@]}"
takes reads.sam 1 "$start" 'standard input is SAM, or another text of columns: of SAM, count the output of samtools fastq' "${count[@]}"
takes mark.fa 1 "$start" 'standard input begins with a byte order mark: count the output of tail -c +4' "${count[@]}"
takes mixed.fa 1 '2: bad base, source 1, line 3' 'standard input, line 3: a sequence has a byte that is no letter; are two formats in one input?' "${count[@]}"
takes reads.jf 1 "41: bad header" 'standard input is a file of Jellyfish, which kcount does not read: count the reads by kcount count' histo
takes bare.gz 1 "41: bad header" 'standard input contains, decompressed, no table: look at it by zcat' stats
takes cut.kct.gz 1 '72: gzip cut short, source 1' 'standard input is gzip that ends too early: its copy is not whole, get the file again' stats
takes empty.fq 1 "41: bad header" 'standard input is empty: the count that should have written it has failed' dump
explains 1 '2: bad base, source 1, line 2' 'tags.fq, line 2: a sequence has a byte that is no letter; are two formats in one input?' "${count[@]}" tags.fq
explains 1 '2: bad base, source 1, line 3' 'mixed.fa, line 3: a sequence has a byte that is no letter; are two formats in one input?' "${count[@]}" mixed.fa
explains 1 '3: bad quality, source 1, line 4' 'quality.fq, line 4: a quality has a byte outside ! to ~, which are ASCII 33 to 126' "${count[@]}" quality.fq
explains 1 '4: long quality, source 1, line 4' 'long.fq, line 4: the quality is longer than its sequence' "${count[@]}" long.fq
explains 1 '5: truncated, source 1, line 4' 'cut.fq, line 4: the input ends inside a record: it was cut off, or its copy is not whole' "${count[@]}" cut.fq
explains 1 '5: truncated, source 2, line 4' 'cut.fq, line 4: the input ends inside a record: it was cut off, or its copy is not whole' "${count[@]}" reads.fa cut.fq
explains 1 '7: read failed, source 1' "folder can't be read: it may be a folder, or a disk or the network may have failed" "${count[@]}" folder

# tables that are none
header='41: bad header'
explains 1 "$header" 'standard input is a file of reads, or a dump: count the reads first, by kcount count -m K -o TABLE' histo
explains 1 "$header" 'empty.fq is empty: the count that should have written it has failed' histo empty.fq
explains 1 "$header" 'reads.fq.gz contains, decompressed, no table: look at it by zcat' histo reads.fq.gz
# tables that are damaged gzip, or cut short
explains 1 '71: broken gzip, source 1' 'more.kct.gz is damaged gzip, or other bytes follow the gzip: get the file again' dump more.kct.gz
explains 1 '72: gzip cut short, source 1' 'cut.kct.gz is gzip that ends too early: its copy is not whole, get the file again' query cut.kct.gz ACG
explains 1 '72: gzip cut short, source 1' 'cut.kct.gz is gzip that ends too early: its copy is not whole, get the file again' merge cut.kct.gz more.kct.gz
explains 1 '71: broken gzip, source 2' 'more.kct.gz is damaged gzip, or other bytes follow the gzip: get the file again' merge three.kct more.kct.gz
explains 1 '72: gzip cut short, source 1' 'cut.kct.gz is gzip that ends too early: its copy is not whole, get the file again' select cut.kct.gz reads.fa
explains 1 '71: broken gzip, source 1' 'more.kct.gz is damaged gzip, or other bytes follow the gzip: get the file again' profile more.kct.gz reads.fa
explains 1 '52: bad word 1' 'ACGT is no k-mer of this table' query three.kct.gz ACGT
explains 1 '61: tables do not match' 'four.kct.gz and three.kct were counted in different ways: compare their first lines, of gzip by zcat' merge four.kct.gz three.kct
explains 1 "$header" 'reads.jf is a file of Jellyfish, which kcount does not read: count the reads by kcount count' query reads.jf ACG
explains 1 "$header" 'dump.fa is a file of reads, or a dump: count the reads first, by kcount count -m K -o TABLE' histo dump.fa
explains 1 "$header" 'reads.fq is a file of reads, or a dump: count the reads first, by kcount count -m K -o TABLE' query reads.fq ACG
explains 1 "$header" 'reads.fq is a file of reads, or a dump: count the reads first, by kcount count -m K -o TABLE' select reads.fq three.kct
explains 1 "$header" 'reads.fq is a file of reads, or a dump: count the reads first, by kcount count -m K -o TABLE' merge reads.fq three.kct
explains 1 "$header" 'reads.fq is a file of reads, or a dump: count the reads first, by kcount count -m K -o TABLE' merge three.kct reads.fq
explains 1 '42: bad row, line 3' 'sorted.kct, line 3: this is no row in its place: a table is read as it was written, and not sorted or edited' stats sorted.kct
explains 1 '43: bad end' 'cut.kct lacks its last line, END: it was cut off, or lines were taken out of it' histo cut.kct
explains 1 '45: table read failed' "folder can't be read: it may be a folder, or a disk or the network may have failed" dump folder
explains 1 '61: tables do not match' 'three.kct and four.kct have k-mers of length 3 and 4' merge three.kct four.kct
explains 1 '61: tables do not match' 'three.kct and both.kct were counted in different ways: with and without -C or --only, or with another --min-qual-char' merge three.kct both.kct
explains 1 '52: bad word 1' 'ACGT is no k-mer of this table, whose k-mers have a length of 3 and are of A, C, G and T alone' query three.kct ACGT
explains 1 '52: bad word 2' 'ACN is no k-mer of this table, whose k-mers have a length of 3 and are of A, C, G and T alone' query three.kct ACG ACN
# lists of k-mers
explains 1 '52: bad word 3' 'k-mer 2 of words.txt is no k-mer of this table, whose k-mers have a length of 3 and are of A, C, G and T alone' query --file words.txt three.kct ACG
explains 1 '52: bad word 1' 'ACN is no k-mer of this table, whose k-mers have a length of 3 and are of A, C, G and T alone' query --file words.txt three.kct ACN
explains 1 '45: table read failed' "folder can't be read: it may be a folder, or a disk or the network may have failed" query --file folder three.kct
explains 1 '45: table read failed' "folder can't be read: it may be a folder, or a disk or the network may have failed" query --file words.txt folder
explains 1 '72: gzip cut short, source 0' 'cut.kct.gz is gzip that ends too early: its copy is not whole, get the file again' query --file cut.kct.gz more.kct.gz
explains 1 '71: broken gzip, source 1' 'more.kct.gz is damaged gzip, or other bytes follow the gzip: get the file again' query --file three.kct more.kct.gz
# reads that are no pairs
unpaired='81: reads are no pair, record'
explains 1 "$unpaired 1" "reads.fa and one.fa: the titles of record 1 do not match, or one file has no such record; pair them first: seqkit pair -1 reads.fa -2 one.fa" select --pairs three.kct reads.fa one.fa
explains 1 "$unpaired 2" "mates.fa and reads.fa: the titles of record 2 do not match, or one file has no such record; pair them first: seqkit pair -1 mates.fa -2 reads.fa" select --pairs three.kct mates.fa reads.fa
# each file of a pair is looked at
explains 1 '1: bad start, source 1, line 1' 'reads.sam is SAM, or another text of columns: of SAM, count the output of samtools fastq reads.sam' select --pairs three.kct reads.sam reads.fa
explains 1 '1: bad start, source 2, line 1' 'reads.sam is SAM, or another text of columns: of SAM, count the output of samtools fastq reads.sam' select --pairs three.kct reads.fa reads.sam

# values of options
bad='51: bad option'
explains 2 "$bad --mer-len" '--mer-len has to be given: the length of the k-mers, a number from 1 to 31' count reads.fa
for k in 0 32 33 abc; do
    explains 2 "$bad --mer-len" "--mer-len is $k, and has to be the length of the k-mers, a number from 1 to 31" count -m $k reads.fa
done
for n in 0 100; do
    explains 2 "$bad --threads" "--threads is $n, and has to be a number from 1 to 64" "${count[@]}" -t $n reads.fa
done
explains 2 "$bad --size" '--size is 1.5G, and has to be a number from 1 to 2^40, as 500, 20k or 2G' "${count[@]}" -s 1.5G reads.fa
explains 2 "$bad --min-qual-char" '--min-qual-char is 20, and has to be one character from ! to ~, ASCII 33 to 126, as 5 for a quality of 20' "${count[@]}" --min-qual-char 20 reads.fa
explains 2 "$bad --stripes" '--stripes is 3, and has to be 1, 2, 4, 8, 16, 32 or 64' "${count[@]}" --stripes 3 reads.fa
explains 2 "$bad --batch" '--batch is 0, and has to be a number from 1 to 2^36' "${count[@]}" --batch 0 reads.fa
explains 2 "$bad --print" '--print is tables, and has to be table, dump, histo or stats' "${count[@]}" --print tables reads.fa
explains 2 "$bad --lower-count" '--lower-count is x, and has to be a number from 0 to 2^62' dump -L x three.kct
explains 2 "$bad --upper-count" '--upper-count is x, and has to be a number from 0 to 2^62' dump -U x three.kct
explains 2 "$bad --high" '--high is 0, and has to be a number from 1 to 10000000' histo --high 0 three.kct
explains 2 "$bad --min-count" '--min-count is x, and has to be a number from 0 to 2^62' select --min-count x three.kct reads.fq
explains 2 "$bad --max-count" '--max-count is 1e6, and has to be a number from 0 to 2^62' select --max-count 1e6 three.kct reads.fq
explains 2 "$bad --min-share" '--min-share is 0.8, and has to be a percentage, a whole number from 0 to 100' select --min-share 0.8 three.kct reads.fq
explains 2 "$bad --keep" '--keep is one, and has to be both or any' select --pairs --keep one three.kct reads.fa reads.fa

# files that can't be opened or written
open='54: cannot open'
missing="can't be opened: there is no such file or folder"
explains 1 "$open raeds.fq" "raeds.fq $missing" "${count[@]}" raeds.fq
explains 1 "$open C:\\reads.fa" "C:\\reads.fa $missing" "${count[@]}" 'C:\reads.fa'
explains 1 "$open reads.fa,reads.fq" "reads.fa,reads.fq $missing; names of files are divided by blanks, and not by commas" "${count[@]}" reads.fa,reads.fq
explains 1 "$open *.bam.fq" "*.bam.fq $missing; the shell replaces * only where it is not quoted" "${count[@]}" '*.bam.fq'
explains 1 "$open -" "- $missing; standard input is read where no file is named" "${count[@]}" -
explains 1 "$open reads.fa/x" "reads.fa/x can't be opened: a part of its path is no folder" "${count[@]}" reads.fa/x
explains 1 "$open none/x.kct" "none/x.kct $missing; the text goes to a new file in the folder of -o first" "${count[@]}" -o none/x.kct reads.fa
explains 1 "$open none/x.fa" "none/x.fa $missing; the text goes to a new file in the folder of --output2 first" select --pairs -o x.fa --output2 none/x.fa three.kct reads.fa reads.fa
rm x.fa
explains 1 "$open folder" "folder can't be opened: it is a folder; the text goes to a new file in the folder of -o first" "${count[@]}" -o folder reads.fa
# why the output can't be written
ends() {
    local more=$1 got
    got=$(bash -c "exec 2>&1; $2") || true
    same "its errors" $'kcount: 53: write failed\n'"  $more" "$got" "$2"
    ran=$((ran + 1))
}
ends "the output can't be written: the program that reads it has ended" \
    "{ sleep 0.3; '$kcount' dump --explain three.kct 2> errors; } | true; cat errors"
if [ -c /dev/full ]; then
    full='the disk or the quota is full'
    explains 1 '53: write failed' "the text can't be written: $full; a regular file of -o is as it was" "${count[@]}" -o /dev/full reads.fa
    explains 1 '53: write failed' "the text can't be written: $full" select --min-count 1 --pairs -o /dev/full --output2 /dev/null three.kct reads.fa reads.fa
    ends "the output can't be written: $full" "'$kcount' dump --explain three.kct > /dev/full"
fi

# what is no fault: the closing line shows how much was counted, without the time here
none='  no k-mer was counted: one is k letters A, C, G or T in a row, and with --only of the list'
closes() {
    local line=$1 got=0 shown
    shift
    "$kcount" "$@" --explain > "$work/output" 2> "$work/errors" < reads.fa || got=$?
    same "its status" 0 "$got" "$@"
    shown=$(sed -E 's/, [0-9]+\.[0-9] s$//' "$work/errors")
    same "its closing line" "$line" "$shown" "$@"
    "$kcount" "$@" > "$work/output" 2> "$work/errors" < reads.fa || true
    same "its errors without --explain" "" "$(cat "$work/errors")" "$@"
    ran=$((ran + 1))
}
closes $'1 read, 0 k-mers, 0 distinct\n'"$none" count -m 4 rna.fa
closes $'1 read, 0 k-mers, 0 distinct\n'"$none" count -m 3 protein.fa
closes $'0 reads, 0 k-mers, 0 distinct\n'"$none" count -m 15 empty.fq
closes $'1 read, 0 k-mers, 0 distinct\n'"$none" count -m 21 reads.fa
closes '1 read, 3 k-mers, 3 distinct' count -m 3 reads.fa
closes '1 read, 3 k-mers, 3 distinct' count -m 3 --print histo reads.fa
closes '1 read, 3 k-mers, 3 distinct' count -m 3 --print stats reads.fa
closes '1 read, 3 k-mers, 3 distinct' count -m 3 --print dump --lower-count 2 reads.fa
closes '1 read, 2 k-mers, 2 distinct' count -m 4 lower.fa
closes '1 read, 3 k-mers, 2 distinct' count -m 3 -C lower.fa
closes '2 reads, 6 k-mers, 3 distinct' count -m 3 reads.fa reads.fa
closes '2 reads, 9 k-mers, 4 distinct' count -m 3 reads.fa reads.fq
closes '1 read, 6 k-mers, 4 distinct' count -m 3 crlf.fq
closes '1 read, 1 k-mer, 1 distinct' count -m 3 --only one.fa reads.fa
closes $'1 read, 0 k-mers, 0 distinct\n'"$none" count -m 3 --only empty.fq reads.fa
closes '1 read, 1,197 k-mers, 4 distinct' count -m 4 thousand.fa
closes '1 read, 3 k-mers, 3 distinct' count -m 3
closes '6 k-mers, 3 distinct' merge three.kct three.kct
closes '9 k-mers, 3 distinct' merge three.kct three.kct three.kct
closes '3 k-mers, 3 distinct' intersect three.kct three.kct
closes $'0 k-mers, 0 distinct\n'"$none" subtract three.kct three.kct
closes '3 k-mers, 3 distinct' filter three.kct
closes '1 of 1 read kept' select --min-count 1 three.kct reads.fa
closes '0 of 1 read kept' select three.kct reads.fa
closes '1 of 2 reads kept' select --min-count 1 three.kct reads.fa reads.fq
closes '1 of 1 read kept' select --min-count 1 three.kct
closes '2 of 2 reads kept' select --min-count 1 --pairs three.kct reads.fa reads.fa
closes '0 of 2 reads kept' select --pairs three.kct reads.fa reads.fa
closes '' dump three.kct
closes '' histo three.kct
closes '' stats three.kct
closes '' query three.kct ACG

# options of Jellyfish, and commands, that are called otherwise here: the command line is refused with this tip, and with
# no other
tips() {
    local tip=$1 got=0
    shift
    "$kcount" "$@" > "$work/output" 2> "$work/errors" < reads.fa || got=$?
    same "its status" 2 "$got" "$@"
    same "its tip" "  tip: $tip" "$(grep tip: "$work/errors")" "$@"
    same "its first line" "error: un" "$(head -c 9 "$work/errors")" "$@"
    same "its last line" "For more information, try '--help'." "$(tail -n 1 "$work/errors")" "$@"
    ran=$((ran + 1))
}
tips 'the length of the k-mers is -m' count -k 21 reads.fa
tips "Jellyfish's -Q is --min-qual-char" "${count[@]}" -Q 20 reads.fa
tips "Jellyfish's -L is --lower-count, for --print dump" "${count[@]}" -L 2 reads.fa
tips "Jellyfish's -U is --upper-count, for --print dump" "${count[@]}" -U 2 reads.fa
tips "Jellyfish's --if is --only" "${count[@]}" --if reads.fa reads.fq
tips 'a table is always text' "${count[@]}" --text reads.fa
tips 'counts up to 2^62 are exact, and have no length' "${count[@]}" -c 7 reads.fa
tips 'files are read one after the other' "${count[@]}" -F 2 reads.fa reads.fq
tips 'the files are named on the command line, and programs write into a pipe' "${count[@]}" -g generators reads.fa
tips 'there is no Bloom filter: leave k-mers that occur once out by dump -L 2' "${count[@]}" --bf-size 100M reads.fa
tips 'a histogram takes one thread' histo -t 4 three.kct
tips 'statistics are those of all k-mers of the table' stats -L 2 three.kct
tips 'the k-mers are given on the command line, for instance by xargs' query three.kct -s reads.fa
tips "Jellyfish's merge -L is kcount filter -L on the sum" merge -L 2 three.kct three.kct
tips 'the first line of a table says how it was counted: head -n 1 TABLE' info three.kct
tips "to pass '-3' as a value, use '-- -3'" count -m -3 reads.fa

# on a terminal the second line comes unasked
shown=$("$here/on_terminal.py" "'$kcount' count -m 3 raeds.fq")
same "what a terminal shows" "kcount: 54: cannot open raeds.fq"$'\n'"  raeds.fq $missing" "${shown//$'\r'/}" "on a terminal"
ran=$((ran + 1))
echo "mistakes: $ran command lines are explained"

#!/bin/bash
# Refuses each growth in turn, and looks at what is answered:
#   tests/memory.sh
# Each run of the program, a count over FASTA, over FASTQ, by two threads and of listed k-mers, a merge, an intersection, a histogram,
# statistics and a query of a table, a selection of reads and two of pairs, either does without that growth and writes all that it should,
# or writes nothing (a selection the reads before), says on standard error that there is no memory, and ends with status
# 1. Tickets, a growing table, a stripe and a gathering are asked the same by a test. It needs bin/kcount, the crates of
# tests as built, and a C compiler.
set -euo pipefail
here=$(cd "$(dirname "$0")" && pwd)
kcount=$here/../bin/kcount
work=$(mktemp -d)
trap 'rm -rf "$work"' EXIT
cc -O2 -shared -fPIC -o "$work/refuse.so" "$here/refuse_memory.c" -ldl
# The dump is the same of both: in the second the G of CG stands below the floor.
printf '>a\nACGTA\n>b\nAC\n>c\nNGTN\n' > "$work/reads.fa"
printf '@a\nACG\nTA\n+\nIIIII\n@b\nACGTN\n+a\nII"\nII\n' > "$work/reads.fq"
printf '>x\nNACG\n>y\nTTT\n' > "$work/list.fa"
printf 'KCT 2 3 c a 33 1\nACG 2\nGTA 1\nEND 2 3\n' > "$work/first.kct"
printf 'KCT 2 3 c a 33 2\nAAA 4\nGTA 1\nEND 2 5\n' > "$work/second.kct"

# Nothing was written, or by a selection a beginning of the wanted text.
written_rightly() {
    [ ! -s "$work/got" ] || { [ "$1" = select ] && cmp -s -n "$(wc -c < "$work/got")" "$work/got" "$work/wanted"; }
}
# Refuses one growth after the other of a command line on this input, or those with the numbers in `growths`, until
# twenty in a row are not missed. These numbers have to be met among the answers, and no others but those in `rare`, that
# of a thread, and that of a file whose name found no room.
refuse_growths() {
    local what=$1 wanted=$2 numbers=$3 input=$4 refused=0 passed=0 n number status
    shift 4
    local allowed="kcount: (${numbers// /|}${rare:+|$rare}): no memory|kcount: 33: no thread for worker [0-9]+"
    allowed+='|kcount: 54: cannot open .*|Error: .*'
    printf '%s' "$wanted" > "$work/wanted"
    : > "$work/answers"
    for n in ${growths:-$(seq 1 2000)}; do
        status=0
        REFUSE=$n LD_PRELOAD="$work/refuse.so" "$kcount" "$@" > "$work/got" 2> "$work/said" < "$input" || status=$?
        if [ "$status" = 0 ]; then
            cmp -s "$work/got" "$work/wanted" || { echo "growth $n of $what refused: status 0 and another text"; exit 1; }
            passed=$((passed + 1))
            [ "$passed" -lt 20 ] || break
        else
            [ "$status" = 1 ] || { echo "growth $n of $what refused: status $status"; cat "$work/said"; exit 1; }
            written_rightly "$1" || { echo "growth $n of $what refused: something was written"; exit 1; }
            grep -qxE "$allowed" "$work/said" || { echo "growth $n of $what refused: $(cat "$work/said")"; exit 1; }
            cat "$work/said" >> "$work/answers"
            refused=$((refused + 1))
            passed=0
        fi
    done
    [ "$refused" -gt 0 ] && [ "$passed" -ge 20 ] || { echo "no growth of $what was refused, or there is no end of them"; exit 1; }
    for number in $numbers; do
        grep -q "^kcount: $number:" "$work/answers" || { echo "no growth of $what was answered $number"; exit 1; }
    done
    echo "memory: $refused growths of $what refused in turn, each answered as such"
}
count=(count -m 3 -C --batch 2 --min-qual-char '#' --print dump --column)
refuse_growths 'a count of FASTA' $'ACG 2\nGTA 1\n' '8 34 46' "$work/reads.fa" "${count[@]}"
refuse_growths 'a count of FASTQ' $'ACG 2\nGTA 1\n' '8 34 46' "$work/reads.fq" "${count[@]}"
# So many reads that one thread cleans and cuts some while the other reads the next ones. Of their growths, about one
# for each 2,000 is refused. Few come while words are counted, so that none or one of these is refused.
for _ in $(seq 1 40000); do echo '>r'; echo 'ACGT'; done > "$work/many.fa"
growths=$(seq 1 1999 1000000) rare=34 refuse_growths 'a count of many reads by two threads' $'ACG 80000\n' '8 46' "$work/many.fa" \
    count -m 3 -C -t 2 --print dump --column
refuse_growths 'a count of listed k-mers' $'ACG 2\n' '8 34 46' "$work/reads.fq" "${count[@]}" --only "$work/list.fa"
refuse_growths 'a merge' $'KCT 2 3 c a 33 3\nAAA 4\nACG 2\nGTA 2\nEND 3 8\n' 46 /dev/null \
    merge "$work/first.kct" "$work/second.kct"
refuse_growths 'an intersection' $'KCT 1 3 c\nGTA 1\nEND 1 1\n' 46 /dev/null \
    intersect --take max "$work/first.kct" "$work/second.kct" "$work/first.kct"
refuse_growths 'a comparison' $'Reads_distinct:         2\nAssembly_distinct:      2\nShared_distinct:        1\nAssembly_total:         5\nAssembly_only_distinct: 1\nAssembly_only_total:    4\nSolid_distinct:         1\nSolid_shared:           0\n' 46 /dev/null \
    compare "$work/first.kct" "$work/second.kct"
refuse_growths 'a spectrum of copy numbers' $'0\t2\t1\n1\t1\t1\n4\t0\t1\n' 46 /dev/null \
    compare --matrix "$work/first.kct" "$work/second.kct"
refuse_growths 'a dump of a table' $'ACG 2\nGTA 1\n' 46 /dev/null dump -c "$work/first.kct"
refuse_growths 'a histogram of a table' $'1 1\n2 1\n' 46 /dev/null histo "$work/first.kct"
refuse_growths 'statistics of a table' $'Unique:    1\nDistinct:  2\nTotal:     3\nMax_count: 2\n' 46 /dev/null \
    stats "$work/first.kct"
refuse_growths 'a query' $'ACG 2\nAAA 0\n' 46 /dev/null query "$work/first.kct" cgt AAA
printf 'AAA\n\nTAC\n' > "$work/words"
refuse_growths 'a query of a list' $'ACG 2\nAAA 0\nGTA 1\n' 46 /dev/null query --file "$work/words" "$work/first.kct" cgt
refuse_growths 'a selection' $'@a\nACGTA\n+\nIIIII\n@b\nACGTN\n+\nII"II\n' '8 46' "$work/reads.fq" \
    select --min-share 60 "$work/first.kct"
refuse_growths 'a selection of pairs' $'@a\nACGTA\n+\nIIIII\n@a\nACGTA\n+\nIIIII\n@b\nACGTN\n+\nII"II\n@b\nACGTN\n+\nII"II\n' '8 46' /dev/null \
    select --pairs --min-share 60 "$work/first.kct" "$work/reads.fq" "$work/reads.fq"
refuse_growths 'a selection of pairs into two files' '' '8 46' /dev/null \
    select --pairs --min-share 60 -o "$work/first.out" --output2 "$work/second.out" "$work/first.kct" "$work/reads.fq" "$work/reads.fq"

# A table of a million rows takes a histogram, statistics and a query no more address space than one of two rows does,
# but for 2 MB. Its rows would take 8.
{
    echo 'KCT 1 10 s'
    printf '%s 1\n' {A,C,G,T}{A,C,G,T}{A,C,G,T}{A,C,G,T}{A,C,G,T}{A,C,G,T}{A,C,G,T}{A,C,G,T}{A,C,G,T}{A,C,G,T}
    echo 'END 1048576 1048576'
} > "$work/million.kct"
printf 'KCT 1 10 s\nAAAAAAAAAA 1\nTTTTTTTTTT 1\nEND 2 2\n' > "$work/two.kct"
# the least address space in MB in which a command of a table succeeds
least_space() {
    local mb
    for mb in $(seq 1 200); do
        ! (ulimit -v $((mb * 1024)) && exec "$kcount" "$@") > "$work/got" 2>&1 || break
    done
    echo "$mb"
}
for asked in histo stats 'query TTTTTTTTTT'; do
    read -ra command <<< "$asked"
    few=$(least_space "${command[0]}" "$work/two.kct" "${command[@]:1}")
    many=$(least_space "${command[0]}" "$work/million.kct" "${command[@]:1}")
    [ "$few" -lt 200 ] && [ "$many" -le $((few + 2)) ] || { echo "memory: $asked of a million rows takes $many MB, and $few of two"; exit 1; }
done
echo "memory: a histogram, statistics and a query of a million rows take no more than of two"

# Three tables of 100 MB, the same file each, are merged in the address space of three small ones and 16 MB. So are they
# intersected and subtracted, and two of them are compared, and one is filtered and dumped.
{
    echo 'KCT 1 31 s'
    for first in A C G; do
        sed -n "s/^\(..........\) 1$/$first\1ACGTACGTACGTACGTACGT 1/p" "$work/million.kct"
    done
    echo 'END 3145728 3145728'
} > "$work/large.kct"
[ "$(wc -c < "$work/large.kct")" -gt 100000000 ] || { echo "memory: the large table is too small"; exit 1; }
for asked in 'merge 3145728 9437184' 'intersect 3145728 3145728' 'subtract 0 0'; do
    read -r name distinct total <<< "$asked"
    few=$(least_space "$name" "$work/two.kct" "$work/two.kct" "$work/two.kct")
    (ulimit -v $(((few + 16) * 1024)) && exec "$kcount" "$name" "$work/large.kct" "$work/large.kct" "$work/large.kct") > "$work/got" \
        && [ "$(tail -n 1 "$work/got")" = "END $distinct $total" ] \
        || { echo "memory: $name of three tables of 100 MB takes more than $((few + 16)) MB, or ends with $(tail -n 1 "$work/got")"; exit 1; }
done
(ulimit -v $(((few + 16) * 1024)) && exec "$kcount" filter -L 2 "$work/large.kct") > "$work/got" \
    && [ "$(cat "$work/got")" = $'KCT 1 31 s\nEND 0 0' ] || { echo "memory: a filter of 100 MB takes more than $((few + 16)) MB"; exit 1; }
few=$(least_space compare "$work/two.kct" "$work/two.kct")
(ulimit -v $(((few + 16) * 1024)) && exec "$kcount" compare --matrix "$work/large.kct" "$work/large.kct") > "$work/got" \
    && [ "$(cat "$work/got")" = $'1\t1\t3145728' ] || { echo "memory: a comparison of two tables of 100 MB takes more than $((few + 16)) MB"; exit 1; }
few=$(least_space dump "$work/two.kct")
(ulimit -v $(((few + 16) * 1024)) && exec "$kcount" dump -c "$work/large.kct") | awk 'END { print NR, $0 }' > "$work/got" \
    && [ "$(cat "$work/got")" = "3145728 $(tail -n 2 "$work/large.kct" | head -n 1)" ] \
    || { echo "memory: a dump of 100 MB takes more than $((few + 16)) MB"; exit 1; }
rm "$work/large.kct"
echo "memory: tables of 100 MB are merged, intersected, subtracted, compared, filtered and dumped in 16 MB more than small ones"

# one test of a crate, with its n-th growth refused
refused_test() {
    REFUSE=$3 LD_PRELOAD="$work/refuse.so" "$here/../crates/$1/out/$1_tests" "$2" > "$work/said" 2>&1
}

# A table is read with all its growths or not at all, and so is a histogram written: else nothing was.
test=refusing_streams::memory_or_the_report
refused=0
until refused_test kc_count_tests "$test" $((refused + 1)); do
    refused=$((refused + 1))
    grep -q AllocError "$work/said" && [ "$refused" -lt 100 ] || { echo "kc_report, growth $refused:"; cat "$work/said"; exit 1; }
done
[ "$refused" -gt 5 ] || { echo "kc_report: too few growths were refused"; exit 1; }
echo "memory: $refused growths of a table's reading and a histogram refused in turn, then both are done"

# Tickets are made with all their growths or not at all.
test=draws::as_many_seats_as_numbers_are_answered
refused=0
until refused_test kc_run_tests "$test" $((refused + 1)); do
    refused=$((refused + 1))
    grep -q AllocError "$work/said" && [ "$refused" -lt 100 ] || { echo "kc_run, growth $refused:"; cat "$work/said"; exit 1; }
done
[ "$refused" -gt 0 ] || { echo "kc_run: no growth was refused"; exit 1; }
echo "memory: $refused growths of tickets refused in turn, then they are made"

# A table that must double has its numbers after a refusal, and takes the key when there is memory.
test=counting_tables::a_refused_growth_leaves_the_table
for n in $(seq 1 40); do
    refused_test kc_count_tests "$test" "$n" || { echo "kc_table, growth $n:"; cat "$work/said"; exit 1; }
done
echo "memory: 40 growths of a table refused in turn, and its numbers stay"

# A stripe that is refused memory while a batch is booked is as it was, and books the batch when there is memory; so is
# a share that books or looks a word up. Where a growth outside of that is refused, the test ends.
booked_again() {
    local test=refusals::$1 held=0 n
    for n in $(seq 1 "$2"); do
        if refused_test kc_stripe_tests "$test" "$n"; then
            held=$((held + 1))
        else
            grep -qE 'Alloc(Error|Failed)' "$work/said" || { echo "kc_stripe, growth $n:"; cat "$work/said"; exit 1; }
        fi
    done
    [ "$held" -gt 0 ] || { echo "kc_stripe, $1: no growth of a booking was refused"; exit 1; }
    echo "memory: $held growths refused in turn, and $3"
}
booked_again a_refused_growth_leaves_the_stripe 62 "the stripe stays"
booked_again a_refused_growth_leaves_the_stripe_of_a_round 149 "the stripe of a round stays"
booked_again a_refused_growth_leaves_the_share 46 "the share stays"

# Gathering and a run answer 34, or 33 for a thread, and no tally where memory is refused, and the same tally where they
# do without, as without a thread of the sorting. Where a growth outside of that is refused, the test ends.
tally_or_refused() {
    local crate=$1 test=$2 answered=0 passed=0 n
    for n in $(seq 1 2000); do
        if refused_test "$crate" "$test" "$n"; then
            passed=$((passed + 1))
            [ "$passed" -lt 20 ] || break
        else
            passed=0
            if grep -qE 'answered (33|34)' "$work/said"; then
                answered=$((answered + 1))
            else
                grep -qE 'Alloc(Error|Failed)|^error: Memory$' "$work/said" || { echo "$crate, growth $n:"; cat "$work/said"; exit 1; }
            fi
        fi
    done
    [ "$answered" -gt 0 ] && [ "$passed" -ge 20 ] || { echo "$crate: no growth of $3 was refused, or there is no end of them"; exit 1; }
    echo "memory: $answered growths of $3 refused in turn, each answered 34, or 33 for a thread"
}
tally_or_refused kc_stripe_tests gatherings::a_refused_growth_gives_no_tally gatherings
tally_or_refused kc_run_tests whole_runs::a_refused_growth_gives_no_tally runs

#!/bin/bash
# What a list spares a count: the reads of bench/count.sh are counted without a list, with one of 1,000 words that
# occur, and with one of a million words of which half occur, in one run, each of them once a round. The aims are 0.6
# and 0.8 of the time without a list.
#   bench/only.sh [GENOME_BASES [LENGTH_OF_WORDS]]       4,900,000 and 21
# Both strands count, and the words are written sorted to a file. Each line of a listed dump has to be one of the whole
# dump.
#   THREADS     numbers of threads ("1 4")
#   COVERAGE    reads over each base (20)
#   REPORT      what is written ("--print dump --column")
#   WORDS       words of the greater list (1000000)
# It needs bin/kcount and /usr/bin/time (apt-get install time).
. "$(dirname "$0")/lib.sh"
whole_command "${1:-4900000}"
k=${2:-21}
words=${WORDS:-1000000}

# The lists are FASTA, a word in each read. Words that occur are taken at equal distances from the dump of all; the
# others are from another random genome, of which few, if any, occur.
"$kcount" count -m "$k" -C -t 4 --print dump --column -o "$work/all.txt" "$reads"
lines=$(wc -l < "$work/all.txt")
[ "$lines" -ge $((words / 2)) ] && [ "$lines" -ge 1000 ] || fail "the reads have $lines words alone"
some_words() {
    awk -v step=$((lines / $1)) -v most="$1" \
        'NR % step == 0 && listed < most { listed++; print ">w"; print $1 }' "$work/all.txt"
}
some_words 1000 > "$work/few.fa"
some_words $((words / 2)) > "$work/many.fa"
"$work/reads" $(((words - words / 2) * k)) 1 "$k" 0 2 | awk 'NR % 4 == 2 { print ">w"; print }' >> "$work/many.fa"

# measured LIST THREADS: what one run takes, as "WALL PROCESSOR PEAK" in seconds and KB, and its report in LIST.txt
measured() {
    local list=()
    [ "$1" = none ] || list=(--only "$work/$1.fa")
    # shellcheck disable=SC2086
    /usr/bin/time -f '%e %U %S %M' -o "$work/time" \
        "$kcount" count -m "$k" -C -t "$2" "${list[@]}" ${REPORT:---print dump --column} -o "$work/$1.txt" "$reads" \
            || fail "kcount failed"
    awk '{ print $1, $2 + $3, $4 }' "$work/time"
}

echo "| List | Threads | Wall | Processor | Peak | Its wall to that without a list | Aim |"
echo "|---|---|---|---|---|---|---|"
for threads in ${THREADS:-1 4}; do
    rm -f "$work"/only.*
    for _ in $(seq "$rounds"); do
        for list in none few many; do measured $list "$threads" >> "$work/only.$list"; done
    done
    whole=
    for list in none few many; do
        read -r wall processor peak <<< "$(sort -n "$work/only.$list" | head -n 1)"
        [ $list != none ] || whole=$wall
        awk -v list=$list -v words="$words" -v threads="$threads" \
            -v wall="$wall" -v processor="$processor" -v peak="$peak" -v whole="$whole" 'BEGIN {
            name["none"] = "none"; name["few"] = "1000 words"; name["many"] = words " words, of which half occur"
            aim["few"] = "0.6"; aim["many"] = "0.8"
            printf "| %s | %s | %.2f s | %.2f s | %.0f MB | %s | %s |\n",
                name[list], threads, wall, processor, peak / 1024,
                list == "none" ? "" : sprintf("%.2f", wall / whole), aim[list] }'
    done
done
if [ -z "${REPORT:-}" ]; then
    cmp -s "$work/all.txt" "$work/none.txt" || fail "a count without a list has another dump"
    for list in few many; do
        [ -z "$(comm -13 "$work/all.txt" "$work/$list.txt" | head -n 1)" ] || fail "a listed dump has lines of its own"
    done
    [ "$(wc -l < "$work/few.txt")" = 1000 ] || fail "of the 1,000 words some were not counted"
    [ "$(wc -l < "$work/many.txt")" -ge $((words / 2)) ] || fail "of the words that occur some were not counted"
fi
rm -f "$work"/{all,none,few,many}.* "$work"/only.*

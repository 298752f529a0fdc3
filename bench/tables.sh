#!/bin/bash
# A table read in one pass: `kcount histo`, `stats` and `query` beside Jellyfish's, over the tables of the reads of bench/count.sh, in one
# run, each once a round. `query` is asked for one word, and for WORDS words of the table, of which kcount reads a list. `kcount dump` of
# the table reads it twice.
#   bench/tables.sh [GENOME_BASES [LENGTH_OF_WORDS]]       5,000,000 and 21
# Each tool has a table of the same reads, both strands, which is not measured. What both print is compared.
#   COVERAGE    reads over each base (20)
#   WORDS       words that are asked for at once (20000)
# It needs bin/kcount. The peer is Debian's (apt-get install jellyfish time); where it is missing it is left out.
. "$(dirname "$0")/lib.sh"
bases=${1:-5000000}
k=${2:-21}
whole_command "$bases"

# the tables of both, and words of them
make_kcount() {
    "$kcount" count -m "$k" -C -t 4 -o "$work/table.kct" "$reads"
    awk -v words="${WORDS:-20000}" 'NR % 97 == 2 && $1 != "END" { print $1; n++ } n == words { exit }' "$work/table.kct" > "$work/words"
}
make_jellyfish() { jellyfish count -m "$k" -C -s 100M -t 4 -o "$work/table.jf" "$reads"; }
# what is measured
histo_kcount() { "$kcount" histo "$work/table.kct" > "$work/histo.text.kcount"; }
histo_jellyfish() { jellyfish histo "$work/table.jf" > "$work/histo.text.jellyfish"; }
stats_kcount() { "$kcount" stats "$work/table.kct" > "$work/stats.text.kcount"; }
stats_jellyfish() { jellyfish stats "$work/table.jf" > "$work/stats.text.jellyfish"; }
word_kcount() { "$kcount" query "$work/table.kct" "$(head -n 1 "$work/words")" > "$work/word.text.kcount"; }
word_jellyfish() { jellyfish query "$work/table.jf" "$(head -n 1 "$work/words")" > "$work/word.text.jellyfish"; }
words_kcount() { "$kcount" query --file "$work/words" "$work/table.kct" > "$work/words.text.kcount"; }
words_jellyfish() { xargs -s 1000000 jellyfish query "$work/table.jf" < "$work/words" > "$work/words.text.jellyfish"; }
dump_kcount() { "$kcount" dump -c "$work/table.kct" > "$work/dump.text.kcount"; }
export kcount k reads work
export -f {histo,stats,word,words}_{kcount,jellyfish} dump_kcount

tools=$(with_peers jellyfish)
# shellcheck disable=SC2086
prepared make $tools
echo "| Tool | What | Wall | Processor | Peak | kcount's wall to it | Target |"
echo "|---|---|---|---|---|---|---|"
for what in histo stats word words; do
    # shellcheck disable=SC2086
    in_rounds $what $tools
    for tool in $tools; do
        tool_row $what "$tool" $what ""
        cmp -s "$work/$what.text.$tool" "$work/$what.text.kcount" || fail "what $tool prints is another $what"
    done
done
in_rounds dump kcount
tool_row dump kcount dump ""
grep -v -e '^KCT' -e '^END' "$work/table.kct" | cmp -s - "$work/dump.text.kcount" || fail "the dump is no text of the table's rows"
rm -rf "$work"/{table.*,words,*.text.*}

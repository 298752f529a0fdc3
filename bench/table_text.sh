#!/bin/bash
# The reading of a table text of ROWS rows (14 million), against `sort -c` over its rows in the C locale.
. "$(dirname "$0")/lib.sh"
rows=${ROWS:-14000000}
rattle_program table_text kc_io kc_report anyhow
c_program table_text

"$plain" make "$rows" "$work/table"
for _ in $(seq "$rounds"); do
    "$rattle" "$work/table" >> "$work/times.rattle"
done
time_of table.read plain sort -c "$work/table.rows"
# `sort` tells no sums
sed -i 's/^\(table.read [0-9]*\) .*/\1/' "$work/times.rattle"
rm "$work/table" "$work/table.rows"
row table.read "read a table text of $rows rows, against \`sort -c\` over them" ms

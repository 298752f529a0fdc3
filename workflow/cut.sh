#!/bin/bash
# Cuts a file of reads at the borders of its reads, and lists the parts:
#   cut.sh FILE FOLDER LIST UNIT MOST THREADS
# UNIT is `reads` or `bases`. A part has MOST reads, or ends with the read that brings it to MOST bases. A file with at
# most MOST of them is not cut: FOLDER stays empty, and LIST has one part, `whole`. This look reads no more of the file
# than one part. LIST has a line for each part: its name, its reads, its bases, and the length of its longest read.
set -euo pipefail
file=$1 folder=$2 list=$3 unit=$4 most=$5 threads=$6

# Prints the reads, the bases and the longest read of the file, or `more`; then the status of what reads the file.
look() {
    if [ "$(gzip -cdf "$file" | tr -d '\r\n' | head -c 1 | wc -c)" = 0 ]; then
        # no text: no reads, where seqkit takes blank lines for a sequence
        printf '0\t0\t0\n'
        gzip -cdf "$file" > /dev/null
    else
        seqkit fx2tab --threads "$threads" --name --only-id --length "$file" |
            awk -F '\t' -v "unit=$unit" -v "most=$most" '
                { reads++; bases += $NF; if ($NF > longest) longest = $NF }
                (unit == "reads" ? reads : bases) > most { more = 1; exit }
                END { if (more) print "more"; else printf "%.0f\t%.0f\t%.0f\n", reads, bases, longest }'
    fi
    echo "${PIPESTATUS[0]}"
}

rm -rf "$folder.new" "$list.new"
mkdir "$folder.new"
{ read -r found; read -r status; } <<< "$(set +e; look)"
if [ "$found" = more ]; then
    seqkit split2 --threads "$threads" "$([ "$unit" = reads ] && echo --by-size || echo --by-length)" "$most" \
        --by-size-prefix part_ --by-length-prefix part_ --out-dir "$folder.new" "$file"
    seqkit stats --tabular --basename --threads "$threads" "$folder.new"/part_* |
        awk -F '\t' 'NR > 1 { printf "%s\t%s\t%s\t%s\n", $1, $4, $5, $8 }' > "$list.new"
else
    [ "$status" = 0 ] || exit 1
    printf 'whole\t%s\n' "$found" > "$list.new"
fi
mv -T "$folder.new" "$folder"
mv "$list.new" "$list"

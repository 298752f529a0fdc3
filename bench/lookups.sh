#!/bin/bash
# What a look-up in a long list costs a count with --only, by a C program: in the order of the reads, as kcount does
# it; ordered by prefix, 4 million words at a time, with the listed words in the order of the reads or in any order; and
# in a hash set with one cache line for each word.
#   bench/lookups.sh [LISTED_WORDS [ASKED_WORDS]]       4,900,000 and 20,000,000
. "$(dirname "$0")/lib.sh"
c_program lookups

"$plain" "${1:-4900000}" "${2:-20000000}" "$rounds" > "$work/lookups"
while read -r way time _; do
    case $way in
        asked) what="in the order asked" ;;
        prefix) what="ordered by prefix" ;;
        any) what="ordered by prefix, words in any order" ;;
        set) what="in a hash set" ;;
    esac
    echo "| \`$script\` | a look-up among ${1:-4900000} words, $what | | $time ns | |"
done < "$work/lookups"

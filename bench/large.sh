#!/bin/bash
# A count of many reads against KMC, as bench/count.sh measures it: 4.8 GB of FASTQ, 30 reads over each of 70 million bases with one wrong
# base in a thousand, which have 1.68 billion 21-mers, some 119 million of them distinct.
#   bench/large.sh [GENOME_BASES [LENGTH_OF_WORDS]]       70,000,000 and 21
# It takes the settings of bench/count.sh, wants some 12 GB of disk, and is no part of bench/all.sh.
set -euo pipefail
export COVERAGE=${COVERAGE:-30} ERRORS=${ERRORS:-1} THREADS=${THREADS:-4} PEERS=${PEERS:-kmc} ROUNDS=${ROUNDS:-2}
exec "$(dirname "$0")/count.sh" "${1:-70000000}" "${2:-21}"

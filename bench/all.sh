#!/bin/bash
# Runs every benchmark and prints the tables of docs/BENCHMARKS.md, where C is the C program beside the benchmark, built for this
# processor, or the peer that is named. It takes the settings of lib.sh and of the scripts. What several of them stand on is
# proved once.
set -euo pipefail
bench=$(cd "$(dirname "$0")" && pwd)
BENCH_WORK=$(mktemp -d)
export BENCH_WORK
trap 'rm -rf "$BENCH_WORK"' EXIT

echo '| Script | What | Rattle | C or peer | Ratio |'
echo '|---|---|---|---|---|'
for script in parse words memory hash table table_text thread_start tickets stripe stripes run count settings only lookups combine tables select pairs profile gzip; do
    rm -f "$BENCH_WORK"/times.*
    "$bench/$script.sh"
done

#!/bin/bash
# The table of remainders against the same table in C: KEYS (20 million) random keys of 42 bits, a quarter of them repeated,
# are readied and then counted, in a table that begins at 2^16 slots and grows, and in one that begins with 2^25.
. "$(dirname "$0")/lib.sh"
keys=${KEYS:-20000000}
rattle_program table kc_table anyhow rand_core rand_xoshiro
c_program table

in_turn "" "$keys"
row ready16 "ready of $keys keys, from 2^16 slots" ms
row add16 "add of them" ms
row ready25 "ready of them, from 2^25 slots" ms
row add25 "add of them" ms
# The slots' words are all the memory of a table as long as no count has outgrown its word. Where it doubles was checked by the
# last size.
awk -v script="$script" '
    $1 == "doubled" { before = 8 * 2 ^ $3 / $4; log_then = $3 }
    END { printf "| `%s` | bytes a stored key, before the doubling of 2^%d slots and after | | %.1f, %.1f | |\n", script, log_then, before, 2 * before }
' "$work/times.plain"

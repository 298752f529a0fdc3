#!/bin/bash
# The table form of a hash's matrix against the same tables in C: hashing by them, and building them.
. "$(dirname "$0")/lib.sh"
rattle_program hash kc_hash anyhow
c_program hash

in_turn ""
for bits in 42 62; do row "apply$bits" "a word by tables, $bits bits" ns $((65536 * 200)); done
for bits in 42 62; do row "build$bits" "building the tables, $bits bits" us 200; done

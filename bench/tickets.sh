#!/bin/bash
# A million draws against a million fetch_adds in C, by one thread and by four.
. "$(dirname "$0")/lib.sh"
rattle_program tickets kc_tickets
c_program tickets

in_turn ""
row draw1 "a draw, one thread, against a fetch_add" ns 1000000
row draw4 "a draw, four threads" ns 1000000

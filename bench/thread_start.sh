#!/bin/bash
# How long a new thread waits to begin while the one that started it is busy, by a C program: what a step of a count
# costs that starts threads. It is the host's as much as the system's where a machine is virtual.
#   bench/thread_start.sh
#   STARTS      how many starts a median is of (200)
. "$(dirname "$0")/lib.sh"
c_program thread_start

"$plain" "${STARTS:-200}" | while read -r busy begins both; do
    echo "| \`$script\` | a thread begins while its starter is busy for $busy ms; both end | | $begins ms; $both ms | |"
done

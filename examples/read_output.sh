#!/bin/sh
# Runs a command of aspq over standard input, and tells in one line what it says.
#
# usage: examples/read_output.sh ./aspq solve < TEXT

output=$("$@")
status=$?
case $status in
    0) echo "program $(printf '%s\n' "$output" | grep -c -x -e '%@exists' -e '%@forall')" ;;
    10) echo "verdict True" ;;
    20) echo "verdict False" ;;
    30) echo "open ${output#UNKNOWN }" ;;
    2 | 3) echo "refused ${output#aspq: }" ;;
    4) echo "failed reading" ;;
    5) echo "failed writing" ;;
    6) echo "failed out of memory" ;;
    *) echo "failed ended by something else" ;;
esac

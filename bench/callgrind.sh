#!/bin/sh
# x86 instructions per guest instruction, in system mode: the difference of two runs, of CALLS and of twice as many calls
# of 65,535 steps, so that start and packing count for nothing. Usage: callgrind.sh BENCH [z280|plain|z80ex ...]
set -eu
bench=$1
shift
calls=${CALLS:-3}
count() {
    valgrind --tool=callgrind --callgrind-out-file=/dev/null "$bench" one "$@" 2>&1 >/dev/null |
        sed -n 's/.*Collected *: *\([0-9]*\).*/\1/p'
}
for who in ${*:-z280 plain z80ex}; do
    kinds="off on separated"
    if [ "$who" = z80ex ]; then
        "$bench" one z80ex filter off 0 > /dev/null 2>&1 || { echo "z80ex is not linked in"; continue; }
        kinds=off
    fi
    for guest in scheduler filter; do
        for kind in $kinds; do
            few=$(count "$who" "$guest" "$kind" "$calls")
            many=$(count "$who" "$guest" "$kind" $((2 * calls)))
            echo "$who $guest $kind $few $many" |
                awk -v n=$((calls * 65535)) '{
                    printf "%-6s %-10s %-10s %7.1f x86 per guest instruction\n", $1, $2, $3, ($5 - $4) / n }'
        done
    done
done

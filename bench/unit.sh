#!/bin/sh
# Times the parser of units on generated sources: bench/unit.sh [PROGRAM]
#
# What each kind of source has is told in unit_source.py. The status is 1 where one takes more than 2.2 times as long for twice as much.
set -eu
. "$(dirname "$0")/common.sh"

answer=0
for kind in "declarations 100000 200000" "functions 200 400" "bytes 8388608 16777216"; do
    set -- $kind
    for count in "$2" "$3"; do
        python3 "$here/unit_source.py" "$1" "$count" >"$work/$count"
    done
    python3 "$here/doubling.py" "$program" unit "$1" "$work/$2" "$work/$3" || answer=1
done
exit $answer

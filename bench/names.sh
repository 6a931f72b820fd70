#!/bin/sh
# Times reading and typing sources with many names of one kind, N and 2 N of them: bench/names.sh [PROGRAM]
#
# What each row has is told in names_source.py. The time is that of tokens, unit and typed tree together; the status is 1 where
# a row takes more than LIMIT times as long for twice as many. ROWS names the rows to run; without it all are run but
# `addressed-locals`, `member-uses` and `chain`, which take more than the number (docs/DECISIONS.md says why).
set -eu
. "$(dirname "$0")/common.sh"

limit=${LIMIT:-2.3}
rows=${ROWS:-globals statics locals used parameters typedefs enumerators structs members derivations literals functions
    prototypes addressed-globals cases pointers}
answer=0
for row in $rows; do
    case $row in
        derivations) count=500 ;;
        *) count=8000 ;;
    esac
    for many in "$count" $((count * 2)); do
        python3 "$here/names_source.py" "$row" "$many" >"$work/$many"
    done
    LIMIT=$limit WHOLE=1 python3 "$here/doubling.py" "$program" types "$row" "$work/$count" "$work/$((count * 2))" || answer=1
done
exit $answer

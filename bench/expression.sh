#!/bin/sh
# Times the parser of expressions on flat expressions of 2^19, 2^20 and 2^21 operators: bench/expression.sh [PROGRAM]
set -eu
. "$(dirname "$0")/common.sh"

for operators in 524288 1048576 2097152; do
    python3 "$here/expression_source.py" "$operators" >"$work/$operators"
done
python3 "$here/doubling.py" "$program" expression operators "$work/524288" "$work/1048576" "$work/2097152"

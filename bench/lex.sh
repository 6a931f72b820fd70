#!/bin/sh
# Times the lexer on generated sources of 2^23 and 2^24 bytes: bench/lex.sh [PROGRAM]
set -eu
. "$(dirname "$0")/common.sh"

for bytes in 8388608 16777216; do
    python3 "$here/lex_source.py" "$bytes" >"$work/$bytes"
done
python3 "$here/doubling.py" "$program" lex bytes "$work/8388608" "$work/16777216"

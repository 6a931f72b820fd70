#!/bin/sh
# Finds the stack that reading and typing take for sources that nest as deep as they may: bench/stack.sh [PROGRAM]
set -eu
. "$(dirname "$0")/common.sh"

python3 "$here/stack.py" "$program"

#!/usr/bin/env python3
"""Finds the stack that reading and typing take for sources that nest as deep as they may: stack.py PROGRAM

Each kind of nesting is repeated until the parser refuses it, and once less often it is read. Of that source the least stack is
found with which the program reads it, and with which it types it, in steps of 16 KiB. The status is 1 where one takes more than
LIMIT.
"""

import os
import resource
import subprocess
import sys
import tempfile

LIMIT = 8192  # KiB
STEP = 16

# what stands before, what is repeated, what stands inside, what closes each, what stands behind
MAIN = "int main(void){return 0;}"
KINDS = {
    "brackets": ("int main(void){return ", "(", "0", ")", ";}"),
    "signs": ("int main(void){return ", "-(", "0", ")", ";}"),
    "sums": ("int main(void){return ", "1+(", "0", ")", ";}"),
    "calls": ("int f(int a){return a;}int main(void){return ", "f(", "0", ")", ";}"),
    "subscripts": ("int a[2];int main(void){return ", "a[", "0", "]", ";}"),
    "conditionals": ("int main(void){return ", "1?", "0", ":0", ";}"),
    "casts": ("int main(void){return ", "(int)(", "0", ")", ";}"),
    "type names": ("int main(void){return ", "sizeof(int[", "1", "])", ";}"),
    "declarators": ("int ", "(", "x", ")", ";" + MAIN),
    "parameters": ("int f", "(int g", "", ")", ";" + MAIN),
    "members": ("", "struct{", "int a;", "}x;", MAIN),
    "initialisers": ("int x=", "{", "0", "}", ";" + MAIN),
    "blocks": ("int main(void){", "{", "", "}", "return 0;}"),
    "loops": ("int main(void){", "while(0)", ";", "", "return 0;}"),
    "branches": ("int main(void){", "if(0)", ";", "", "return 0;}"),
    "switches": ("int main(void){", "switch(0){case 0:", ";", "}", "return 0;}"),
    "all levels": ("int main(void){int x;x=0;return ", "(0,x=0?1:0||0&&0|0^0&0==0<0<<0+0*-", "x", ")", ";}"),
}


def status(program, layer, source, stack):
    limit = (stack * 1024, resource.RLIM_INFINITY)
    return subprocess.run([program, layer, source], preexec_fn=lambda: resource.setrlimit(resource.RLIMIT_STACK, limit)).returncode


def text(pieces, times):
    before, opening, inner, closing, behind = pieces
    return before + opening * times + inner + closing * times + behind


def last(first, end, holds):
    """The last number from `first`, where it holds, and before `end`, where it does not, for which it holds."""
    while end - first > 1:
        middle = (first + end) // 2
        if holds(middle):
            first = middle
        else:
            end = middle
    return first


def least(program, layer, source):
    """The least stack with which the program takes the source, in KiB."""
    return (last(0, 65536 // STEP, lambda steps: status(program, layer, source, steps * STEP) != 0) + 1) * STEP


def main():
    program = sys.argv[1]
    too_much = False
    with tempfile.TemporaryDirectory() as folder:
        source = os.path.join(folder, "source.c")

        def nests(pieces, times):
            with open(source, "w") as file:
                file.write(text(pieces, times))
            return status(program, "unit", source, 65536) == 0

        for kind, pieces in KINDS.items():
            if not nests(pieces, 1):
                sys.exit(f"{kind}: refused")
            deepest = last(1, 300, lambda times: nests(pieces, times))
            nests(pieces, deepest)
            reading = least(program, "unit", source)
            is_typed = status(program, "types", source, 65536) == 0
            typing = least(program, "types", source) if is_typed else 0
            too_much |= reading > LIMIT or typing > LIMIT
            print(f"{kind}, {deepest} deep: {reading} KiB to read, {f'{typing} KiB to type' if is_typed else 'no types'}", flush=True)
    sys.exit(1 if too_much else 0)


main()

#!/usr/bin/env python3
"""Writes a C translation unit to standard output.

    python3 bench/unit_source.py functions 200        so many functions of one loop each, and a main that calls them
    python3 bench/unit_source.py declarations 100000  so many declarations of objects
    python3 bench/unit_source.py bytes 16777216       functions with statements of every kind, about so many bytes

The sources are the same at each run. Names are looked up near where they are declared, since a lookup costs what the table
of names costs, which is searched from its end.
"""

import random
import sys

DECLARATIONS = ["int {};", "unsigned *{}[3];", "static char {}[2] = {{ 'a', 1 }};", "const long {} = 7;", "int {}(int, char *);"]
EXPRESSIONS = ["{0} = {1} + 3 * {2}", "{0} += {1} ? {2} : {0}", "{0} = {1} << 2 | {2} & 15", "{0} = ({1} - {2}) * {0}", "{0}++, {1} = {2}"]
CONDITIONS = ["{0} < {1}", "{0} && {1} != {2}", "!{0} || {2}"]
NAMES = ["a", "b", "c", "d"]


def functions(count):
    yield "int putchar(int);\n"
    for k in range(1, count + 1):
        yield (f"static unsigned f{k}(unsigned x) {{ unsigned i, s = x; "
               f"for (i = 0; i < 10u; i++) s = s * {2 * k + 1}u + (i ^ {k * k % 1000}u); return s; }}\n")
    yield "int main(void) {\nunsigned s = 1u, d; int i;\n"
    for k in range(1, count + 1):
        yield f"s = f{k}(s);\n"
    yield "for (i = 0; i < 8; i++) { d = s >> 28; putchar(d < 10u ? '0' + d : 'a' + (d - 10u)); s = s << 4; }\n"
    yield "putchar('\\n'); return 0; }\n"


def declarations(count):
    for number in range(count):
        yield DECLARATIONS[number % len(DECLARATIONS)].format(f"name{number}") + "\n"


def filled(choice, patterns):
    return choice.choice(patterns).format(*choice.sample(NAMES, 3))


def statement(choice, depth):
    kind = choice.randrange(9 if depth > 0 else 3)
    if kind < 3:
        return filled(choice, EXPRESSIONS) + ";\n"
    inner = statement(choice, depth - 1)
    condition = filled(choice, CONDITIONS)
    if kind == 3:
        return f"if ({condition}) {inner}else {statement(choice, depth - 1)}"
    if kind == 4:
        return f"while ({condition}) {inner}"
    if kind == 5:
        return f"do {inner}while ({condition});\n"
    if kind == 6:
        return f"for (int i = 0; i < a; i++) {inner}"
    if kind == 7:
        return f"{{ int {choice.choice(NAMES)} = 1; {inner}}}\n"
    return f"switch (a) {{ case 1: {inner}break; default: {statement(choice, depth - 1)}}}\n"


def filling(wanted):
    choice = random.Random(1)
    written, number = 0, 0
    while written < wanted:
        text = f"static int g{number}(int a, int b) {{ int c = 0, d = a;\n"
        text += "".join(statement(choice, 3) for _ in range(6)) + "return a + b; }\n"
        written += len(text)
        number += 1
        yield text


def main():
    kind = {"functions": functions, "declarations": declarations, "bytes": filling}[sys.argv[1]]
    for piece in kind(int(sys.argv[2])):
        sys.stdout.write(piece)


main()

#!/usr/bin/env python3
"""Writes a C translation unit with many names of one kind to standard output.

    python3 bench/names_source.py KIND COUNT

KIND is a row of KINDS; COUNT is how many names, stars or literals there are.
"""

import sys

# how many declarations have each of the many stars
POINTERS = 20


def rows(pattern, count):
    return "".join(pattern.format(number) for number in range(count))


def main_of(body):
    return f"int main(void) {{\n{body}return 0; }}\n"


def listed(pattern, count):
    return ", ".join(pattern.format(number) for number in range(count))


KINDS = {
    "globals": lambda n: rows("int g{0};\n", n) + main_of(""),
    "statics": lambda n: main_of(rows("static int s{0};\n", n)),
    "locals": lambda n: main_of(rows("int l{0};\n", n)),
    "used": lambda n: main_of(rows("int l{0};\n", n) + rows("l{0} = l0;\n", n)),
    "parameters": lambda n: f"int f({listed('int p{0}', n)});\n" + main_of(""),
    "typedefs": lambda n: rows("typedef int t{0};\n", n) + rows("t{0} a{0};\n", n) + main_of(""),
    "enumerators": lambda n: f"enum e {{ {listed('c{0}', n)} }};\n" + main_of(""),
    "structs": lambda n: rows("struct s{0} {{ int a; }};\n", n) + main_of(""),
    "members": lambda n: f"struct s {{ {rows('int m{0}; ', n)} }};\n" + main_of(""),
    "derivations": lambda n: rows(f"int {'*' * n}d{{0}};\n", POINTERS) + main_of(""),
    "literals": lambda n: main_of("char *p;\n" + rows("p = \"text {0}\";\n", n)),
    "functions": lambda n: rows("static int f{0}(int a) {{ return a; }}\n", n) + main_of(rows("f{0}(1);\n", n)),
    "prototypes": lambda n: rows("int f{0}(int a);\n", n) + main_of(""),
    "addressed-globals": lambda n: rows("int g{0};\nint *p{0} = &g{0};\n", n) + main_of(""),
    "addressed-locals": lambda n: main_of("int *p;\n" + rows("int l{0};\n", n) + rows("p = &l{0};\n", n)),
    "member-uses": lambda n: f"struct s {{ {rows('int m{0}; ', n)} }};\n" + main_of("struct s x;\n" + rows("x.m{0} = 1;\n", n)),
    "cases": lambda n: main_of("switch (0) {\n" + rows("case {0}: ;\n", n) + "}\n"),
    "pointers": lambda n: rows("typedef int *t{0};\nt{0} *p{0};\n", n) + main_of(""),
    "chain": lambda n: "typedef int t0;\n" + "".join(f"typedef t{i} *t{i + 1};\n" for i in range(n)) + main_of(""),
}


def main():
    sys.stdout.write(KINDS[sys.argv[1]](int(sys.argv[2])))


main()

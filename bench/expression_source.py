#!/usr/bin/env python3
"""Writes a C expression of so many binary operators, without a bracket, to standard output.

    python3 bench/expression_source.py 1048576 > source.c

The operators are of all ten levels, and the operands are names and numbers. The source is the same at each run.
"""

import random
import sys

OPERATORS = ["*", "/", "%", "+", "-", "<<", ">>", "<", ">", "<=", ">=", "==", "!=", "&", "^", "|", "&&", "||"]
NAMES = ["a", "b", "count", "index", "length_of_it"]
A_LINE = 8


def operand(choice):
    if choice.randrange(2) == 0:
        return choice.choice(NAMES)
    return str(choice.randrange(1000))


def main():
    operators = int(sys.argv[1])
    choice = random.Random(1)
    sys.stdout.write(operand(choice))
    for number in range(operators):
        space = "\n" if number % A_LINE == 0 else " "
        sys.stdout.write(f"{space}{choice.choice(OPERATORS)} {operand(choice)}")
    sys.stdout.write("\n")


main()

#!/usr/bin/env python3
"""Writes a C source of about so many bytes to standard output: names, keywords, numbers, literals, punctuators and comments.

    python3 bench/lex_source.py 16777216 > source.c

The source has tokens of the profile alone, so that the lexer reads all of it. It is the same at each run.
"""

import random
import sys

WORDS = ["int", "return", "while", "if", "else", "unsigned", "static", "const", "sizeof", "struct"]
MARKS = ["+", "-", "*", "/", "%", "<<", ">>", "<", ">", "<=", ">=", "==", "!=", "^", "|", "&&", "||", "?", ":",
         ";", "=", "*=", "<<=", ">>=", "->", "++", "--", "&", "(", ")", "[", "]", "{", "}", ".", ",", "~", "!"]
LETTERS = "abcdefghijklmnopqrstuvwxyz_0123456789"
LEFT_OUT = {"float", "double", "volatile", "restrict", "inline", "union", "goto"}
LITERALS = ["'a'", "'\\n'", "'\\x41'", '"text"', '"a\\tb\\n"', '"\\101\\"quoted\\""', '""']


def number(choice):
    kind = choice.randrange(4)
    if kind == 0:
        return str(choice.randrange(2 ** 31)) + choice.choice(["", "u", "L", "ul"])
    if kind == 1:
        return hex(choice.randrange(2 ** 32)) + choice.choice(["", "U"])
    if kind == 2:
        return "0%o" % choice.randrange(2 ** 31)
    return str(choice.randrange(100))


def name(choice):
    return choice.choice("abcdefghijklmnopqrstuvwxyz_") + "".join(choice.choices(LETTERS, k=choice.randrange(12)))


def piece(choice):
    kind = choice.randrange(20)
    if kind < 7:
        text = name(choice)
        while text in LEFT_OUT:
            text = name(choice)
        return text
    if kind < 9:
        return choice.choice(WORDS)
    if kind < 12:
        return number(choice)
    if kind < 18:
        return choice.choice(MARKS)
    if kind == 18:
        return choice.choice(LITERALS)
    return choice.choice(["/* a comment of some words, **here */", "/**/", "// to the end of the line\n"])


def main():
    wanted = int(sys.argv[1])
    choice = random.Random(1)
    written = 0
    line = 0
    while written < wanted:
        text = piece(choice) + " "
        line += len(text)
        if line > 80:
            text += "\n" + " " * choice.randrange(9)
            line = 0
        sys.stdout.write(text)
        written += len(text)


main()

#!/usr/bin/env python3
"""Writes, for the productions of the two parsers, why each mark of the names stays good, and the end of the source the same.

Run from the top of the repository: `python3 tools/parser_keeps.py`. For each function in EXPRESSIONS and UNITS it writes
Answers.antt, which begins with the line GENERATED below: each way out of the function keeps the marks since each call on that
way does. The check finds these answers by itself too, but the search takes long.

A path is what the function does, in order, as the names of the goals tell it:
  x?      a call under `let x` (or `x` itself) that is given on by `?`        x?-     one that reads nothing
  E-x     an `or_drop!`, whose arms are `in-Ok-x` and `in-Err-x` (E: no x)    E/x     one whose arms are `in-Ok-x` and `in-Err`
  { }     a branch, behind which it goes on as before
  >a      a return `returns-a`                                                >a=f    one of what the call `f` gives
  .       the end of the function                                             .=f     an end with the call `f`
"""

from pathlib import Path

GENERATED = "-- Written by tools/parser_keeps.py."
HEADS = {
    "c_expr_parser": "-- Each call on the way keeps the marks of the names.",
    "c_unit_parser": "-- Each call on the way keeps the marks of the names, and where the source ends.",
}
MODULE = "grammar/Grammar"

EXPRESSIONS = {
    "dot": "at? name? .",
    "arrow": "at? name? .",
    "increment": "expect? .",
    "decrement": "expect? .",
    "paren": "from? expr? inner?- E .",
    "index": "from? inner? E .",
    "argument": "operator? operand? .",
    "arguments": "first? E E-expect .",
    "call": "from? { to? >then-sees } .=arguments",
    "suffix": ">then-sees=index >then-sees-2=call >then-sees-3=dot >then-sees-4=arrow >then-sees-5=increment .=decrement",
    "postfixed": "first? E .",
    "cast_prefix": "from? name? E .",
    "prefix": ">then-sees=cast_prefix .=plain_prefix",
    "sizeof_type": "at? from? type_name? name?- E .",
    "prefixed": ">then-is_sizeof=sizeof_type .=postfixed",
    "cast": "run? E .",
    "strings": "first? all? .",
    "primary": ">then-sees=paren >then-is_bytes=strings .=atom",
    "binary": ".=levels",
    "branch": "question? gives? E E-binary .",
    "conditional": "first? E .",
    "target": "operator? operand? .",
    "assignment": "first? E .",
    "comma_next": "operator? operand? .",
    "comma": "first? E .",
    "expression": ">in-Comma=comma >in-Assignment=assignment >in-Conditional=conditional",
    "type_name": "specifiers? E .",
    "grouped": "from? inner? >then-is_nothing inner-2?- E .",
    "middle": ">then-opens_declarator=grouped { identifier? >then-takes_name } .",
    "array": "from? { to? >then-sees } size? E .",
    "parameter_behind": "E E-declare",
    "parameter": "specifiers? .=parameter_behind",
    "next_parameter": "comma? .=parameter",
    "some_parameters": "parameters? E",
    "parameters": "from? { to? >then-sees } { at? to-2? >then-sees_void } .=some_parameters",
    "declarator_suffix": ">then-sees=array .=parameters",
    "declarator": "pointers? E E-declarator_suffixes .",
    "next_member_declarator": "expect? declarator? .",
    "member": "specifiers? E E-expect .",
    "struct_body": "E E-members E-expect .",
    "struct_specifier": "word? >then-not-is_name=struct_body tag? >then-sees=struct_body-then-sees .",
    "enumerator_value": "E E-expr .",
    "enumerator_behind": ">then-sees=enumerator_value .",
    "enumerator": "id? >in_default E/enumerator_behind E-declare .",
    "next_enumerator": "comma? .=enumerator",
    "enum_body": "E E-enumerators E-last_comma E-expect .",
    "enum_specifier": "word? >then-not-is_name=enum_body tag? >then-sees=enum_body-then-sees .",
    "specifier": ">then-is_struct=struct_specifier >then-is_enum=enum_specifier .=plain",
}


# Of the parser of units: the calls that `?` gives on, in order, and whether the function ends behind them; or the calls, one on
# each way, whose results it gives.
UNITS = {
    "assigned": "value? .",
    "first_initialiser": "value? .",
    "next_initialiser": "expect? value? .",
    "in_braces": "opening? items?",
    "some_start": "equals? value? .",
    "first_declarator": "declarator?",
    "next_declarator": "expect? declarator?",
    "declaration": "specifiers?",
    "block": "opening? items?",
    "scoped_block": "tree?",
    "block_statement": "scoped_block? .",
    "declaration_item": "declaration? .",
    "case_item": "word? value?",
    "default_item": "word? colon? .",
    "statement_item": "statement? .",
    "condition": "opening? value?",
    "for_control": "opening? head?",
    "break_statement": "word? semicolon? .",
    "continue_statement": "word? semicolon? .",
    "return_statement": "word? value? .",
    "body": "tree?",
    "else_if": "if_word? condition?",
    "last_else": "body? .",
    "one_else": "word?",
    "if_statement": "word? condition?",
    "while_statement": "word? condition?",
    "do_statement": "word? body?",
    "for_statement": "word? control?",
    "switch_statement": "word? condition?",
    "statement": ">in-Braced=block_statement >in-If=if_statement >in-While=while_statement >in-Do=do_statement >in-For=for_statement"
    " >in-Switch=switch_statement >in-Break=break_statement >in-Continue=continue_statement >in-Return=return_statement"
    " >in-Expression=expression_statement",
    "function_body": "declare_parameters? body?",
    "external": "specifiers?",
}


def ways(path):
    """Each way out of a function: the name of its goal, and the steps on it that read."""
    steps, kept = [], []
    for word in path.split():
        name, _, call = word.lstrip(">.").partition("=")
        goal = "returns-" + name if name else "returns"
        if word == "{":
            kept.append(list(steps))
        elif word == "}":
            steps = kept.pop()
        elif word[0] in ">.":
            yield goal, steps + [call] * (call != "")
        elif word[0] == "E":
            refused = word[1:] if word[1:2] == "-" else ""
            yield f"returns-in-Err{refused}", [*steps, f"in-Err{refused}"]
            steps = [*steps, f"in-Ok{word[1:].replace('/', '-')}"]
        elif word.endswith("?-"):
            yield f"returns-in_err-{word[:-2]}", steps
        else:
            yield f"returns-in_err-{word[:-1]}", [*steps, f"in_err-{word[:-1]}"]
            steps = [*steps, f"in_ok-{word[:-1]}"]


def clause(goal, name, term):
    return f"\npub {goal}-clause-{name} : goal.{goal}-clause-{name}\n{goal}-clause-{name} g c = {term}\n"


def kept(steps):
    """The marks after these steps."""
    mark = "m"
    for step in steps:
        mark = f"(c.{step}.ensures.keeps mark names {mark})"
    return f"λ mark names m. {mark[1:-1] if steps else mark}"


def answer_of_units(at, goal, steps):
    """The answers for the way at this place among a function's ways: the residual of the first `?` has no longer name."""
    residual = "c.from_residual" + (f"-{goal.removeprefix('returns-')}" if at else "")
    if goal == "returns":
        keeps = kept(steps)
    elif goal.startswith("returns-in_err-"):
        keeps = f"refused _ {residual}.result {residual}.ensures.0"
    else:
        keeps = f"c.{steps[0]}.ensures.keeps"
    return clause(goal, "keeps", keeps) + clause(goal, "ends", " ∙ ".join(f"c.{step}.ensures.ends" for step in reversed(steps)))


def write(crate, function, uses, text):
    folder = Path("crates") / crate / "proofs" / MODULE / function
    folder.mkdir(parents=True, exist_ok=True)
    goals = f"use Rattle.{crate}.proofs.{MODULE.replace('/', '.')}.{function}.Goals as goal\n"
    (folder / "Answers.antt").write_text(f"{GENERATED}\n{HEADS[crate]}\n{uses}{goals}{text}")


def main():
    for function, path in EXPRESSIONS.items():
        write("c_expr_parser", function, "", "".join(clause(goal, "keeps", kept(steps)) for goal, steps in ways(path)))
    for function, path in UNITS.items():
        text = "".join(answer_of_units(at, *way) for at, way in enumerate(ways(path)))
        uses = "use Rattle.std.proofs.Common.{◌∙◌}\n" * ("∙" in text) + "use Rattle.c_unit_parser.proofs.Refused.{refused}\n" * ("refused" in text)
        write("c_unit_parser", function, uses, text)


main()

#!/usr/bin/env python3
"""Writes the answers for the methods of c_unit_parser's cursor that call c_expr_parser.

Run from the top of the repository: `python3 tools/unit_calls.py`. For each call in CALLS it writes an Answers.antt, which
begins with the line GENERATED below: what the call below reads is what the grammar reads there, by the lemma `went` of
crates/c_unit_parser/proofs/Called.antt.
"""

from dataclasses import dataclass
from pathlib import Path

CURSOR = Path("crates/c_unit_parser/proofs/cursor/Cursor")
GENERATED = "-- Written by tools/unit_calls.py."
HEAD = "-- What the call below reads is what the grammar reads there, by the lemma on calls."


@dataclass
class Call:
    name: str  # of the method and of the call
    found: str  # the variable for what is found
    trees: str  # the trees of the production
    parser: str  # the grammar's function, at @ that may still be nested
    law: str  # that the function reads the longest front, with what it takes
    uses: list  # what these name


def expression(name, production):
    return Call(name, "tree", f"trees.expressions {production}", f"grammar.expression @ {production}",
                f"{production}s_at_front", [f"use Rattle.c_tree.specs.Levels.Productions.{{{production}}}"])


CALLS = [
    expression("expression", "comma"),
    expression("assignment", "assignment"),
    expression("conditional", "conditional"),
    Call("specifiers", "trees", "trees.specifier_lists true", "grammar.specifiers @ true", "specifiers_at_front true", []),
    Call("declarator", "tree", "trees.declarators Declaring c.args.typed", "grammar.declarator @ Declaring c.args.typed",
         "declarators_at_front Declaring c.args.typed", ["use Rattle.c_tree.specs.Levels.Facts.{Declaring}"]),
]


def uses(call):
    """The lines that bring in what the text names."""
    words = ["◌-◌", *(["true"] if "true" in call.trees else []), "refl", "ap", "sym", "◌∙◌"]
    return [
        f"use Rattle.std.proofs.Common.{{{', '.join(words)}}}",
        *call.uses,
        "use Rattle.c_grammar.specs.Productions as trees",
        "use Rattle.c_grammar.specs.Read.Depth as grammar",
        f"use Rattle.c_grammar.specs.Laws.Productions.{{{call.law.split()[0]}}}",
        "use Rattle.c_unit_parser.specs.Reads.{Input}",
        "use Rattle.c_unit_parser.proofs.Called.{went}",
        f"use Rattle.c_unit_parser.proofs.cursor.Cursor.{call.name}.Goals as goal",
    ]


def answers(call):
    found = f"c.in_ok-{call.found}"
    law = f"({call.law})" if " " in call.law else call.law
    went = (
        f"let w = went ({call.trees}) (λ n. {call.parser.replace('@', 'n')}) {law}"
        f" c.self.inside.names c.{call.name}.new.names c.self.inside.tokens.now.list c.self.inside.at (256 - c.args.more) c.args.more"
        f" c.self.invariant c.requires refl {found}.{call.found} {found}.behind"
        f" {found}.ensures.found {found}.ensures.behind {found}.ensures.declared in"
    )
    reads = f"ap (λ (i : Input). {call.parser.replace('@', 'c.args.more')} i.state) (sym c.self.view_is) ∙ w.reads"
    text = ""
    for name, term in (("invariant_of-self-2", "w.within"), ("returns-clause-reads", reads)):
        text += f"\npub {name} : goal.{name}\n{name} c =\n    {went}\n    {term}\n"
    return text


def main():
    for call in CALLS:
        folder = CURSOR / call.name
        folder.mkdir(parents=True, exist_ok=True)
        (folder / "Answers.antt").write_text("\n".join([GENERATED, HEAD, *uses(call)]) + "\n" + answers(call))


main()

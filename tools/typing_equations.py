#!/usr/bin/env python3
"""Writes the folds that type syntax trees, and one equation for each kind of node.

Run from the top of the repository: `python3 tools/typing_equations.py`. It writes the files of
crates/c_typing/specs that begin with the line GENERATED of tree_equations.py; the steps that the folds
take are written by hand, in the `Of..` files beside them.
"""

import sys
from pathlib import Path

sys.path.insert(0, str(Path(__file__).parent))
import tree_equations as trees

SPECS = Path("crates/c_typing/specs")

# What typing makes of each kind of node, and where that is defined.
MADE = {
    "DeclaratorSuffix": "Suffixed", "Direct": "Declaring", "Expr": "Expressed", "Prefix": "Prefixed",
    "Suffix": "Suffixing", "Enumerator": "Enumerated", "Specifier": "Specified",
    "Declarator": "Declaring", "Parameter": "Listed", "Branch": "Branching", "Next": "Operating",
    "TypeName": "TypeNamed", "Member": "(Walk Members)", "MemberDeclarator": "Declaring",
    "Initialiser": "Initialising", "InitialiserItem": "Initialising",
    "BlockItem": "Itemised", "Stmt": "Stated", "Block": "Blocked", "Else": "Elsed",
}
DEFINED = {
    "Trees": [
        "Scopes.{Walk}",
        "Declarators.{Expressed, Declaring, Suffixed, Specified, TypeNamed, Enumerated, Members}",
        "Parts.{Prefixed, Suffixing, Operating, Branching, Listed}",
    ],
    "Initialisers": ["OfInitialisers.{Initialising}"],
    "Statements": ["OfStatements.{Itemised, Stated, Blocked, Elsed}"],
}


def main():
    family = trees.Family("", "typing", "typed", lambda kind: MADE[kind])
    for title, cycle in trees.CYCLES.items():
        if not (SPECS / f"Of{title}.antt").exists():
            continue
        lines = [trees.GENERATED, f"-- The fold whose steps stand in Of{title}, and one equation for each kind of node."]
        lines += trees.uses(cycle)
        lines.append(f"use Rattle.c_typing.specs.Of{title}.{{{', '.join(family.steps(kind) for kind in cycle)}}}")
        lines += [f"use Rattle.c_typing.specs.{names}" for names in DEFINED[title]]
        (SPECS / f"{title}.antt").write_text("\n".join(trees.used(lines + trees.equations(family, cycle))) + "\n")


if __name__ == "__main__":
    main()

#!/usr/bin/env python3
"""Writes the proofs of the loops of the parsers that read a list, one item a turn.

Run from the top of the repository: `python3 tools/parser_loops.py`. For the function of each loop in LOOPS it writes
Invariants.antt and Answers.antt, which begin with the line GENERATED below. All of them are the lemmas of
proofs/Turns.antt of the crate, at the parser on lists that the loop follows.
"""

import re
from dataclasses import dataclass
from pathlib import Path

GENERATED = "-- Written by tools/parser_loops.py."
HEADS = {
    "Invariants.antt": "-- What is left of the tokens gives what is left of the list, item by item.",
    "Answers.antt": "-- An item that is read or refused, and the end of the list, by the lemmas on turns.",
}


@dataclass
class Arms:
    """How the goals name the arms of the match on an item that was read."""

    read: str
    refused: str
    returns: str  # what the refused one returns


@dataclass
class Parser:
    """A crate, and in what its loops differ from those of the other."""

    crate: str
    state: str  # what of an input the parsers on lists read
    listing: str  # what of an invariant tells the list that is read so far
    clauses: list  # of a call that reads an item: what it reads, and what it leaves as it was
    inside: str  # what stands for @ below: how much may still be nested, and what is read there
    lemmas: list  # where the lemmas stand
    arms: Arms


@dataclass
class Loop:
    parser: Parser
    function: str  # its folder of proofs
    whole: str  # the parser of the whole list
    goes: str  # the test for a further item
    item: str  # the parser of an item
    test: str  # how the goals name the test
    is_behind_first: bool = False  # whether an item was put into the list before the loop
    opened: str = ""  # the definition of the whole list
    told: str = ""  # the variable for what the items so far tell
    step: str = ""  # how a further item changes that
    by: str = "cc"  # the tactic for what the test told
    tells: str = "cc"  # the tactic for what the item told
    first: str = ""  # what is read before the loop, as the goals name it
    own_arms: Arms | None = None  # where they have other names than those of the parser's other loops

    @property
    def arms(self):
        return self.own_arms or self.parser.arms

    @property
    def is_method(self):
        return self.function.startswith("grammar/Grammar/")

    @property
    def folder(self):
        return Path("crates") / self.parser.crate / "proofs" / self.function


EXPRESSIONS = Parser(
    "c_expr_parser", "", "", ["reads", "keeps"], "l.self.more (inside l.self.more)",
    [("Rattle.c_expr_parser.proofs.Turns", ["Listing", "TellingListing", "item_read", "item_refused", "items_end", "turns_end"])],
    Arms("in-Ok", "in-Err", "in-Err"),
)
UNITS = Parser(
    "c_unit_parser", ".state", ".so_far", ["reads", "keeps", "ends"], "l.self.more",
    [("Rattle.c_expr_parser.proofs.Turns", ["items_end", "turns_end"]),
     ("Rattle.c_unit_parser.proofs.Turns", ["Listing", "TellingListing", "item_read", "item_refused"])],
    Arms("in-Ok-or_drop", "in-Err-or_drop", "in-loop-turn"),
)

LITERAL = "(one expressions.literal_at)"
ARGUMENT = "((inside l.self.more).expr production.assignment)"
GRAMMAR = "grammar/Grammar/"
COMMA = "(sees p.Comma)"
BY_CASES = "first_of (search rules, grind (arith, common_steps))"

LOOPS = [
    Loop(EXPRESSIONS, "operands/more_literals", "parts.literals l.fn.first", "(λ i. is_bytes (peek i.1))", LITERAL,
         "not-is_bytes", is_behind_first=True),
    Loop(EXPRESSIONS, GRAMMAR + "more_arguments", f"expressions.nexts production.comma {ARGUMENT}", "(goes production.comma)",
         f"(expressions.after_operator {ARGUMENT})", "not-goes", opened="expressions.nexts"),
    Loop(EXPRESSIONS, GRAMMAR + "suffixes", "parts.suffixes @", "(goes production.postfix)", "(expressions.one_suffix @)",
         "not-goes", opened="parts.suffixes"),
    Loop(EXPRESSIONS, GRAMMAR + "run", "parts.run @", "expressions.goes_prefix", "(λ _. expressions.one_prefix @)",
         "not-goes_prefix", opened="parts.run", told="tight", step="(λ _. ties)"),
    Loop(EXPRESSIONS, GRAMMAR + "branches", "parts.branches @", "(goes production.conditional)", "(expressions.branch @)",
         "not-goes", opened="parts.branches", own_arms=Arms("in_Ok-found", "in_Err-found", "in_Err-found")),
    Loop(EXPRESSIONS, GRAMMAR + "targets", "parts.targets @ (is_unary l.first)", "expressions.goes_assign",
         "(λ _. expressions.after_operator (expressions.conditional @))",
         "not-goes", opened="parts.targets", told="unary", step="expressions.last_unary", by=BY_CASES),
    Loop(EXPRESSIONS, GRAMMAR + "comma_rest", "expressions.nexts production.comma (expressions.assignment @)",
         "(goes production.comma)", "(expressions.after_operator (expressions.assignment @))",
         "not-goes", opened="expressions.nexts"),
    Loop(EXPRESSIONS, GRAMMAR + "member_declarators", "parts.member_declarators @ l.typed", COMMA,
         "(specifiers.next_member_declarator @ l.typed)",
         "not-sees", is_behind_first=True, first="declarator", opened="parts.member_declarators"),
    Loop(EXPRESSIONS, GRAMMAR + "members", "parts.members @", "(specifiers.goes_member @)", "(specifiers.member @)",
         "not-begins_type", is_behind_first=True, first="first", opened="parts.members"),
    Loop(EXPRESSIONS, GRAMMAR + "enumerators", "parts.enumerators @", "specifiers.goes_enumerator",
         "(specifiers.next_enumerator @)",
         "not-goes_enumerator", is_behind_first=True, first="first", opened="parts.enumerators"),
    Loop(EXPRESSIONS, GRAMMAR + "specifiers", "specifiers.specifiers @ l.with_storage",
         "(specifiers.goes_specifier @ l.with_storage)", "(specifiers.one_specifier @ l.with_storage)",
         "not-begins_specifier", is_behind_first=True, first="first", told="typed", step="(specifiers.types @)"),
    Loop(EXPRESSIONS, "declarators/constants", "parts.constants", "(λ i. is_const (peek i.1))", "(one declarators.const_at)",
         "not-is_const", opened="parts.constants"),
    Loop(EXPRESSIONS, "declarators/pointers", "declarators.pointers", "(sees p.Star)", "declarators.pointer",
         "not-sees", opened="declarators.pointers"),
    Loop(EXPRESSIONS, GRAMMAR + "parameter_list", "parts.parameter_list @", COMMA, "(declarators.next_parameter @)",
         "not-sees", is_behind_first=True, first="first", opened="parts.parameter_list"),
    Loop(EXPRESSIONS, GRAMMAR + "declarator_suffixes", "parts.declarator_suffixes @", "parts.goes_declarator_suffix",
         "(declarators.one_suffix @)", "not-sees_suffix", opened="parts.declarator_suffixes"),
    Loop(UNITS, GRAMMAR + "initialisers", "parts.initialisers @", "initialisers.goes_initialiser",
         "(initialisers.next_initialiser @ (initialisers.inside_initialiser @))",
         "not-goes_initialiser", is_behind_first=True, opened="parts.initialisers"),
    Loop(UNITS, GRAMMAR + "more_declarators", "parts.more_declarators @ l.specifiers l.fn.first", COMMA,
         "(declarations.next_declarator @ l.specifiers)",
         "not-sees", is_behind_first=True, opened="parts.more_declarators"),
    Loop(UNITS, GRAMMAR + "items", "parts.items @ l.labels", "statements.goes_item", "((statements.within @).item l.labels)",
         "not-goes_item", opened="parts.items"),
    Loop(UNITS, GRAMMAR + "others", "parts.others @", "statements.goes_else", "(λ _. statements.one_else @ (statements.within @))",
         "not-goes_else", opened="parts.others", told="may", step="statements.goes_further", tells=BY_CASES),
    Loop(UNITS, GRAMMAR + "externals", "parts.externals @", "units.goes_external", "(units.one_external @)",
         "not-goes_external", is_behind_first=True, opened="parts.externals"),
]

# Where the names in the texts below come from, in the order of their lines.
NAMES = [
    ("Rattle.std.proofs.Common", ["rules", "arith", "refl"]),
    ("Rattle.std.proofs.lemmas.Grind", ["common_steps"]),
    ("Rattle.c_grammar.specs.Input", ["peek", "is_bytes", "sees", "goes", "one"]),
    ("Rattle.c_grammar.specs.Read.Nodes", ["ties", "is_unary"]),
    ("Rattle.c_grammar.specs.Read.Inner", ["is_const"]),
    ("Rattle.c_grammar.specs.Read.Depth", ["inside"]),
]
MODULES = [
    ("Rattle.c_tree.specs.declared.token.Punct.TheVariants", "p"),
    ("Rattle.c_tree.specs.Levels.Productions", "production"),
    ("Rattle.c_grammar.specs.Read.Expressions", "expressions"),
    ("Rattle.c_grammar.specs.Read.Specifiers", "specifiers"),
    ("Rattle.c_grammar.specs.Read.Declarators", "declarators"),
    ("Rattle.c_unit_grammar.specs.Read.Initialisers", "initialisers"),
    ("Rattle.c_unit_grammar.specs.Read.Declarations", "declarations"),
    ("Rattle.c_unit_grammar.specs.Read.Statements", "statements"),
    ("Rattle.c_unit_grammar.specs.Read.Units", "units"),
]


def uses(loop, text):
    """The lines that bring in what the text names."""
    words = set(re.findall(r"(?<![\w.-])[\w-]+", text))
    lines = []
    for module, names in NAMES + loop.parser.lemmas:
        found = [name for name in names if name in words]
        if found:
            lines.append(f"use {module}.{{{', '.join(found)}}}")
    modules = [*MODULES, (f"Rattle.{loop.parser.crate}.specs.Parts", "parts")]
    return lines + [f"use {module} as {name}" for module, name in modules if re.search(rf"(?<![\w.]){name}\.", text)]


def write(loop, file, goals, text):
    module = f"Rattle.{loop.parser.crate}.proofs." + loop.function.replace("/", ".")
    lines = [GENERATED, HEADS[file], *uses(loop, text), f"use {module}.{goals} as goal"]
    (loop.folder / file).write_text("\n".join(lines) + "\n" + text)


def invariant(loop):
    """What is left of the whole list is read by the turns that are left."""
    given = "g l" if loop.is_method else "l"
    if loop.told:
        list_read, told = f"TellingListing {loop.goes} {loop.item} {loop.step}", f"l.{loop.told} "
    else:
        list_read, told = f"Listing {loop.goes} {loop.item}", ""
    whole = f"({loop.whole} l.fn.input{loop.parser.state})"
    return f"""
abbrev pub invariant-loop-turn : goal.invariant-loop-turn
invariant-loop-turn {given} = {list_read} {whole} l.fn.input l._turn-end l._turn {told}l.found l.input
""".replace("@", loop.parser.inside)


def answer(loop, name, term, opened=""):
    given = "g c" if loop.is_method else "c"
    unfolding = f"unfolding {opened}\n" if opened else ""
    return f"\npub {name} : goal.{name}\n{unfolding}{name} {given} = {term}\n"


def answers(loop):
    listing = f"c.loop-turn.invariant{loop.parser.listing}"
    more = f"c.loop-turn-test.true ({loop.by})"
    refused = f"c.{loop.arms.refused}.ensures.reads"
    read = " ".join(f"c.{loop.arms.read}.ensures.{clause}" for clause in loop.parser.clauses)
    told = f"({loop.tells})" if loop.told else "refl"
    pushed = f"c.in_ok-found{'-2' if loop.is_behind_first else ''}.ensures"
    text = ""
    if loop.opened:
        text += answer(loop, "loop-turn-init", BY_CASES, loop.opened)
    text += answer(loop, f"returns-then-{loop.test}-clause-reads", f"items_end {listing} {more}")
    text += answer(loop, f"returns-{loop.arms.returns}-clause-reads", f"let e = item_refused c.loop-turn.invariant {more} {refused} in search (rules, e)")
    text += answer(loop, "loop-turn-preserved", f"item_read c.loop-turn.invariant {more} {read} {told} {pushed}")
    text += answer(loop, "returns-clause-reads", f"turns_end {listing} c.loop-turn-test.false")
    if not loop.parser.listing:
        text += marks(loop)
    return text


def marks(loop):
    """Each mark of the names stays good: an item keeps it, and the invariant says that those before it did."""

    def kept(name, *steps):
        mark = "m"
        for step in steps:
            mark = f"{step}.keeps mark names {mark if mark == 'm' else f'({mark})'}"
        return answer(loop, f"{name}-clause-keeps", f"λ mark names m. {mark}")

    so_far = "c.loop-turn.invariant"
    text = ""
    if loop.first:
        text += kept(f"returns-in_err-{loop.first}", f"c.in_err-{loop.first}.ensures")
    if loop.is_behind_first:
        text += kept("returns-in_err-found", *[f"c.in_ok-{loop.first}.ensures"] * (loop.first != ""))
    text += kept(f"returns-then-{loop.test}", so_far)
    text += kept(f"returns-{loop.arms.returns}", so_far, f"c.{loop.arms.refused}.ensures")
    text += kept(f"returns-in_err-found{'-2' if loop.is_behind_first else ''}", so_far, f"c.{loop.arms.read}.ensures")
    return text + kept("returns", so_far)


def main():
    for loop in LOOPS:
        loop.folder.mkdir(parents=True, exist_ok=True)
        write(loop, "Invariants.antt", "Given", invariant(loop))
        write(loop, "Answers.antt", "Goals", answers(loop))


main()

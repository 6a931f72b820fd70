#!/usr/bin/env python3
"""Writes the folds over the syntax trees and one equation for each kind of node.

Run from the top of the repository: `python3 tools/tree_equations.py`. It writes the files of
crates/c_tree/specs that begin with the line GENERATED below; the steps that the folds take are
written by hand, beside them.
"""

import re
from pathlib import Path

SPECS = Path("crates/c_tree/specs")
GENERATED = "-- Written by tools/tree_equations.py."

POS = "Pos"
NAME = "Identifier"


def one(kind):
    return ("one", kind)


def many(kind):
    return ("many", kind)


# Each cycle of tree types, in the order in which Rattle numbers them: where a type is declared, and
# the parts of each variant of an enum, or the fields of a struct.
TREE = {
    "DeclaratorSuffix": ("declarator", "enum", [
        ("Array", [("from", POS), ("to", POS)]),
        ("ArrayOf", [("from", POS), ("size", one("Expr")), ("to", POS)]),
        ("Empty", [("from", POS), ("to", POS)]),
        ("Void", [("from", POS), ("at", POS), ("to", POS)]),
        ("Parameters", [("from", POS), ("all", many("Parameter")), ("to", POS)]),
    ]),
    "Direct": ("declarator", "enum", [
        ("Nothing", []),
        ("Named", [("name", NAME)]),
        ("Grouped", [("from", POS), ("inner", one("Declarator")), ("to", POS)]),
    ]),
    "Expr": ("expression", "enum", [
        ("Name", [("name", NAME)]),
        ("Number", [("value", "ℕ"), ("kind", "IntKind"), ("at", POS)]),
        ("Char", [("value", "ℕ"), ("at", POS)]),
        ("Strings", [("all", "List Literal")]),
        ("Paren", [("from", POS), ("inner", one("Expr")), ("to", POS)]),
        ("Postfix", [("operand", one("Expr")), ("suffixes", many("Suffix"))]),
        ("SizeofType", [("at", POS), ("from", POS), ("type", one("TypeName")), ("to", POS)]),
        ("Prefixed", [("run", many("Prefix")), ("operand", one("Expr"))]),
        ("Binary", [("level", "Level"), ("first", one("Expr")), ("rest", many("Next"))]),
        ("Conditional", [("first", one("Expr")), ("rest", many("Branch"))]),
        ("Assign", [("first", one("Expr")), ("rest", many("Next"))]),
        ("Comma", [("first", one("Expr")), ("rest", many("Next"))]),
    ]),
    "Prefix": ("expression", "enum", [
        ("Operator", [("mark", "Mark")]),
        ("Sizeof", [("at", POS)]),
        ("Cast", [("from", POS), ("type", one("TypeName")), ("to", POS)]),
    ]),
    "Suffix": ("expression", "enum", [
        ("Index", [("from", POS), ("inner", one("Expr")), ("to", POS)]),
        ("Call", [("from", POS), ("to", POS)]),
        ("CallWith", [("from", POS), ("first", one("Expr")), ("rest", many("Next")), ("to", POS)]),
        ("Member", [("at", POS), ("name", NAME)]),
        ("Arrow", [("at", POS), ("name", NAME)]),
        ("Increment", [("at", POS)]),
        ("Decrement", [("at", POS)]),
    ]),
    "Enumerator": ("specifier", "enum", [
        ("Plain", [("comma", "Option Pos"), ("name", NAME)]),
        ("Valued", [("comma", "Option Pos"), ("name", NAME), ("equals", POS), ("value", one("Expr"))]),
    ]),
    "Specifier": ("specifier", "enum", [
        ("Storage", [("storage", "Storage"), ("at", POS)]),
        ("Const", [("at", POS)]),
        ("Word", [("word", "TypeWord"), ("at", POS)]),
        ("StructTag", [("at", POS), ("tag", NAME)]),
        ("Struct", [("at", POS), ("tag", "Option Identifier"), ("from", POS), ("members", many("Member")), ("to", POS)]),
        ("EnumTag", [("at", POS), ("tag", NAME)]),
        ("Enum", [("at", POS), ("tag", "Option Identifier"), ("from", POS), ("enumerators", many("Enumerator")), ("comma", "Option Pos"), ("to", POS)]),
        ("TypedefName", [("name", NAME)]),
    ]),
    "Declarator": ("declarator", "struct", [("pointers", "List Pointer"), ("direct", one("Direct")), ("suffixes", many("DeclaratorSuffix"))]),
    "Parameter": ("declarator", "struct", [("comma", "Option Pos"), ("specifiers", many("Specifier")), ("declarator", one("Declarator"))]),
    "Branch": ("expression", "struct", [("question", POS), ("gives", one("Expr")), ("colon", POS), ("operand", one("Expr"))]),
    "Next": ("expression", "struct", [("operator", "Mark"), ("operand", one("Expr"))]),
    "TypeName": ("expression", "struct", [("specifiers", many("Specifier")), ("declarator", one("Declarator"))]),
    "Member": ("specifier", "struct", [("specifiers", many("Specifier")), ("declarators", many("MemberDeclarator")), ("semicolon", POS)]),
    "MemberDeclarator": ("specifier", "struct", [("comma", "Option Pos"), ("declarator", one("Declarator"))]),
}

INITIALISER = {
    "Initialiser": ("declaration", "enum", [
        ("Expression", [("value", "Expr")]),
        ("List", [("from", POS), ("items", many("InitialiserItem")), ("comma", "Option Pos"), ("to", POS)]),
    ]),
    "InitialiserItem": ("declaration", "struct", [("comma", "Option Pos"), ("value", one("Initialiser"))]),
}

STATEMENT = {
    "BlockItem": ("statement", "enum", [
        ("Declaration", [("declaration", "Declaration")]),
        ("Statement", [("statement", one("Stmt"))]),
        ("Case", [("at", POS), ("value", "Expr"), ("colon", POS)]),
        ("Default", [("at", POS), ("colon", POS)]),
    ]),
    "Stmt": ("statement", "enum", [
        ("Block", [("block", one("Block"))]),
        ("Expression", [("value", "Option Expr"), ("semicolon", POS)]),
        ("If", [("at", POS), ("condition", "Condition"), ("body", one("Stmt")), ("others", many("Else"))]),
        ("While", [("at", POS), ("condition", "Condition"), ("body", one("Stmt"))]),
        ("Do", [("at", POS), ("body", one("Stmt")), ("while_at", POS), ("condition", "Condition"), ("semicolon", POS)]),
        ("For", [("at", POS), ("control", "ForControl"), ("body", one("Stmt"))]),
        ("Switch", [("at", POS), ("condition", "Condition"), ("body", one("Block"))]),
        ("Break", [("at", POS), ("semicolon", POS)]),
        ("Continue", [("at", POS), ("semicolon", POS)]),
        ("Return", [("at", POS), ("value", "Option Expr"), ("semicolon", POS)]),
    ]),
    "Block": ("statement", "struct", [("opening", POS), ("items", many("BlockItem")), ("closing", POS)]),
    "Else": ("statement", "struct", [("word", POS), ("head", "Option IfHead"), ("body", one("Stmt"))]),
}

CYCLES = {"Trees": TREE, "Initialisers": INITIALISER, "Statements": STATEMENT}

# Where the types of leaves are declared.
LEAVES = {
    "Pos": "token", "IntKind": "token", "Identifier": "expression", "Literal": "expression",
    "Level": "expression", "Mark": "expression", "Storage": "specifier", "TypeWord": "specifier",
    "Pointer": "declarator", "Expr": "expression", "Declaration": "declaration",
    "Condition": "statement", "ForControl": "statement", "IfHead": "statement",
}

# What is told of each type by a fold: for the levels, the type of what is told of it.
LEVELS = {
    "DeclaratorSuffix": "SuffixFacts", "Direct": "DeclaratorFacts", "Expr": "ℕ", "Prefix": "PrefixKind",
    "Suffix": "Bool", "Enumerator": "ListedFacts", "Specifier": "SpecifierKind",
    "Declarator": "DeclaratorFacts", "Parameter": "ParameterFacts", "Branch": "Bool",
    "Next": "Operand", "TypeName": "Bool", "Member": "Bool", "MemberDeclarator": "MemberDeclaratorFacts",
    "Initialiser": "Bool", "InitialiserItem": "ListedFacts",
    "BlockItem": "ItemFacts", "Stmt": "StatementFacts", "Block": "BlockFacts", "Else": "ElseFacts",
}
NESTING = {"Stmt": "Depth"}


def snake(kind):
    return re.sub(r"(?<!^)([A-Z])", r"_\1", kind).lower()


def place(kind):
    for cycle in CYCLES.values():
        if kind in cycle:
            return cycle[kind][0]
    return LEAVES[kind]


class Family:
    """A fold over a cycle: the names of its functions and steps, what they tell of each type, and whether
    that is told where some names are visible."""

    def __init__(self, module, suffix, step, carrier, named=False):
        self.module, self.suffix, self.step, self.carrier, self.named = module, suffix, step, carrier, named

    def function(self, kind):
        return f"{snake(kind)}_{self.suffix}"

    def steps(self, kind):
        return f"{self.step}_{snake(kind)}"


FAMILIES = [
    Family("Spelling", "spelling", "spelled", lambda kind: "Spelling"),
    Family("Nesting", "nesting", "nested", lambda kind: NESTING.get(kind, "ℕ")),
    Family("Levels", "level", "level_of", lambda kind: f"(With {LEVELS[kind]})", named=True),
]


def part_type(part):
    if isinstance(part, tuple):
        return part[1] if part[0] == "one" else f"List {part[1]}"
    return part


def leaf_names(cycle):
    names = set()
    for _, shape, body in cycle.values():
        variants = body if shape == "enum" else [("", body)]
        for _, parts in variants:
            for _, part in parts:
                if not isinstance(part, tuple):
                    names.update(word for word in part.split() if word in LEAVES)
    return sorted(names - set(cycle))


def declared_uses(cycle, of_enum, of_struct):
    """The imports of a cycle's types: each with the words that begin so, and the variants of its enums."""
    lines = [f"use Rattle.c_tree.specs.declared.{place(kind)}.{kind}.{{{kind}}}" for kind in leaf_names(cycle)]
    for kind, (file, shape, _) in cycle.items():
        own = f"Rattle.c_tree.specs.declared.{file}.{kind}"
        words = of_enum if shape == "enum" else of_struct
        lines.append(f"use {own}.{{{', '.join([kind] + [word + kind for word in words])}}}")
        if shape == "enum":
            lines.append(f"use {own}.TheVariants as {snake(kind)}")
    return lines


def uses(cycle):
    head = next(iter(cycle))
    at = f"Rattle.c_tree.specs.declared.{place(head)}.{head}"
    lines = ["use Rattle.std.specs.Prelude.{◌≡◌, ℕ, Bool, List, Option, map}", "use Rattle.std.proofs.Common.{ap, sym, ◌∙◌}"]
    lines += declared_uses(cycle, ["roll-"], ["out-", "roll-", "roll-out-"])
    lines.append(f"use {at}.TheOpen.{{{', '.join(kind + '-F' for kind in cycle)}}}")
    words = [f"{word}-{kind}" for kind in cycle for word in ("fold", "fold-roll", "map")]
    lines.append(f"use Rattle.c_tree.specs.Layers.{{{', '.join(kind + 'Layer' for kind in cycle)}}}")
    lines.append(f"use {at}.TheFolds.{{{', '.join(words)}}}")
    return lines


def layer_file(cycles):
    out = [GENERATED, "-- One node of a tree: `ExprLayer` with trees as its parts, `ExprOf A` with an `A` in place of each part."]
    seen = []
    for cycle in cycles.values():
        head = next(iter(cycle))
        for kind, (file, _, _) in cycle.items():
            seen.append(f"use Rattle.c_tree.specs.declared.{file}.{kind}.{{{kind}}}")
        seen.append(f"use Rattle.c_tree.specs.declared.{place(head)}.{head}.TheOpen.{{{', '.join(kind + '-F' for kind in cycle)}}}")
    out += seen
    for cycle in cycles.values():
        for kind in cycle:
            out += ["", f"abbrev pub {kind}Layer : Type 0", f"{kind}Layer = {kind}-F {' '.join(cycle)}"]
            out += ["", f"abbrev pub {kind}Of : Type 0 → Type 0", f"{kind}Of A = {kind}-F {' '.join('A' for _ in cycle)}"]
    return out


def parts_file(cycles):
    out = [GENERATED, "-- One node of a tree, with what the levels tell of each part in its place."]
    out += ["use Rattle.std.specs.Prelude.{ℕ, Bool}", "use Rattle.c_tree.specs.Levels.Names.{With}"]
    for file in sorted(set(FACT_FILES.values())):
        facts = ", ".join(sorted(fact for fact in FACT_FILES if FACT_FILES[fact] == file))
        out.append(f"use Rattle.c_tree.specs.Levels.{file}.{{{facts}}}")
    for cycle in cycles.values():
        head = next(iter(cycle))
        layers = ", ".join(kind + "-F" for kind in cycle)
        out.append(f"use Rattle.c_tree.specs.declared.{place(head)}.{head}.TheOpen.{{{layers}}}")
    for cycle in cycles.values():
        carriers = " ".join(f"(With {LEVELS[kind]})" for kind in cycle)
        for kind in cycle:
            out += ["", f"abbrev pub {kind}Parts : Type 0", f"{kind}Parts = {kind}-F {carriers}"]
    return out


def mapped(family, part, value):
    if not isinstance(part, tuple):
        return value
    function = family.function(part[1])
    return f"({function} {value})" if part[0] == "one" else f"(map {function} {value})"


def equations(family, cycle):
    order = list(cycle)
    carriers = " ".join(family.carrier(kind) for kind in order)
    steps = " ".join(family.steps(kind) for kind in order)
    opened = "unfolding " + " ".join(family.function(kind) for kind in order)
    out = []
    for kind in order:
        name = family.function(kind)
        out += ["", f"unfoldable pub {name} : {kind} → {family.carrier(kind)}", f"{name} = fold-{kind} {carriers} {steps}"]
    out += ["", "-- ---- what a fold tells of one node"]
    trees = " ".join(order)
    functions = " ".join(family.function(kind) for kind in order)
    for kind in order:
        name, step = family.function(kind), family.steps(kind)
        out += [
            "", f"pub {name}-roll : (node : {kind}Layer) → {name} (roll-{kind} node) ≡ {step} (map-{kind} {trees} {carriers} {functions} node)",
            opened, f"{name}-roll = fold-roll-{kind} {carriers} {steps}",
        ]
    out += ["", "-- ---- one equation for each kind of node"]
    for kind, (_, shape, body) in cycle.items():
        name, step = family.function(kind), family.steps(kind)
        if shape == "enum":
            for variant, parts in body:
                binders = "".join(f" ({part} : {part_type(what)})" for part, what in parts)
                values = "".join(f" {part}" for part, _ in parts)
                results = "".join(f" {mapped(family, what, part)}" for part, what in parts)
                node = f"{snake(kind)}.{variant}{values}"
                lhs = f"{name} ({node})" if parts else f"{name} {node}"
                layer = f"({kind}-F.{variant}{results})" if parts else f"{kind}-F.{variant}"
                plain = f"({kind}-F.{variant}{values})" if parts else f"{kind}-F.{variant}"
                rolls = f"({snake(kind)}.rolls-{variant}{values})" if parts else f"{snake(kind)}.rolls-{variant}"
                if family.named:
                    out += [
                        "", f"pub {name}-{variant} :{binders} (names : Names) → {lhs} names ≡ {step} {layer} names",
                        f"{name}-{variant}{values} names = ap (λ f. f names) (ap {name} (sym {rolls}) ∙ {name}-roll {plain})",
                    ]
                    continue
                arrow = f"{binders} →" if parts else ""
                out += [
                    "", f"pub {name}-{variant} :{arrow} {lhs} ≡ {step} {layer}",
                    f"{name}-{variant}{values} = ap {name} (sym {rolls}) ∙ {name}-roll {plain}",
                ]
        else:
            of = "; ".join(
                f"{field} = {mapped(family, what, f'(out-{kind} node).{field}').removeprefix('(').removesuffix(')')}" if isinstance(what, tuple)
                else f"{field} = (out-{kind} node).{field}" for field, what in body)
            if family.named:
                out += [
                    "", f"pub {name}-is : (node : {kind}) (names : Names) → {name} node names ≡ {step} (record {{ {of} }}) names",
                    f"{name}-is node names = ap (λ f. f names) (ap {name} (sym (roll-out-{kind} node)) ∙ {name}-roll (out-{kind} node))",
                ]
                continue
            out += [
                "", f"pub {name}-is : (node : {kind}) → {name} node ≡ {step} (record {{ {of} }})",
                f"{name}-is node = ap {name} (sym (roll-out-{kind} node)) ∙ {name}-roll (out-{kind} node)",
            ]
    return out


def family_file(family, title, cycle):
    head = next(iter(cycle))
    out = [GENERATED, f"-- The fold whose steps stand in {family.module}.Of{title}, and one equation for each kind of node."]
    out += uses(cycle)
    steps = [family.steps(kind) for kind in cycle]
    out.append(f"use Rattle.c_tree.specs.{family.module}.Of{title}.{{{', '.join(steps)}}}")
    if family.module == "Spelling":
        out.append("use Rattle.c_tree.specs.Spelling.Tokens.{Spelling}")
    elif family.module == "Nesting":
        if any(family.carrier(kind) == "Depth" for kind in cycle):
            out.append("use Rattle.c_tree.specs.Nesting.OfStatements.{Depth}")
    else:
        facts = sorted({LEVELS[kind] for kind in cycle} - {"ℕ", "Bool"})
        out.append("use Rattle.c_tree.specs.Levels.Names.{Names, With}")
        for fact in facts:
            out.append(f"use Rattle.c_tree.specs.Levels.{FACT_FILES[fact]}.{{{fact}}}")
    return out + equations(family, cycle)


FACT_FILES = {
    "Operand": "Facts", "PrefixKind": "Facts", "SpecifierKind": "Facts", "SuffixFacts": "Facts",
    "DeclaratorFacts": "Facts", "MemberDeclaratorFacts": "Facts", "ParameterFacts": "Facts", "ListedFacts": "Facts",
    "ItemFacts": "StatementFacts", "StatementFacts": "StatementFacts", "BlockFacts": "StatementFacts", "ElseFacts": "StatementFacts",
}


def used(lines):
    """The lines without imports of what no line names."""
    body = set(re.findall(r"[^\s(){}.,;]+", "\n".join(line for line in lines if not line.startswith("use "))))
    kept = []
    for line in lines:
        listed = re.fullmatch(r"(use [^{]*)\{(.*)\}", line)
        if listed:
            names = [name for name in listed[2].split(", ") if name in body or "◌" in name and name.strip("◌") in body]
            if names:
                kept.append(f"{listed[1]}{{{', '.join(names)}}}")
        elif not line.startswith("use ") or line.split(" as ")[-1] in body:
            kept.append(line)
    return kept


def write(path, lines):
    lines = used(lines)
    file = SPECS / path
    file.parent.mkdir(parents=True, exist_ok=True)
    file.write_text("\n".join(lines) + "\n")


def main():
    write("Layers.antt", layer_file(CYCLES))
    write("Levels/Layers.antt", parts_file(CYCLES))
    for family in FAMILIES:
        for title, cycle in CYCLES.items():
            write(f"{family.module}/{title}.antt", family_file(family, title, cycle))


if __name__ == "__main__":
    main()

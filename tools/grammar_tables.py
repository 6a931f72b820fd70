#!/usr/bin/env python3
"""Writes what the grammar has for each punctuator and for each kind of node.

Run from the top of the repository: `python3 tools/grammar_tables.py`. It writes the files of
crates/c_grammar/specs, crates/c_unit_grammar/specs and crates/c_typing_laws/specs that begin with the line
GENERATED below: the numbers of the punctuators and of the keywords, the cases of each enum of trees, the
inductions over trees, and the fold that tells how a tree ends, from the tables of tools/tree_equations.py.
"""

import re
from pathlib import Path

SOURCE = Path("crates/c_tree/src/token.rt").read_text()


def variants(name):
    body = re.search(rf"pub enum {name} \{{(.*?)\n\}}", SOURCE, re.S).group(1)
    return re.findall(r"^    (\w+),$", body, re.M)


def numbers(kind, short, same, item, what):
    """The file that tells whether two of an enum without fields are one."""
    marks = variants(kind)
    out = [
        "-- Written by tools/grammar_tables.py.",
        f"-- Whether two {what} are one, by a number for each.",
        "use Rattle.std.specs.Prelude.{◌≡◌, ℕ, Bool, true, ◌==◌, if◌then◌else◌, refl}",
        "use Rattle.std.proofs.Common.{ap, sym, ◌∙◌, arith}",
        "use Rattle.std.proofs.lemmas.Bool.Decides.{nat_tests}",
        f"use Rattle.c_tree.specs.declared.token.{kind}.{{{kind}}}",
        f"use Rattle.c_tree.specs.declared.token.{kind}.TheVariants as {short}",
        "", f"abbrev pub code : {kind} → ℕ",
    ]
    out += [f"code {short}.{mark} = {n}" for n, mark in enumerate(marks)]
    out += ["", f"abbrev decode : ℕ → {kind}"]
    choice = f"{short}.{marks[-1]}"
    for n in range(len(marks) - 2, -1, -1):
        choice = f"if n == {n} then {short}.{marks[n]} else ({choice})"
    out += [f"decode n = {choice}"]
    out += ["", f"decode-code : ({item} : {kind}) → decode (code {item}) ≡ {item}"]
    out += [f"decode-code {short}.{mark} = refl" for mark in marks]
    out += [
        "", f"abbrev pub {same} : {kind} → {kind} → Bool", f"{same} a b = code a == code b",
        "", "equal_numbers : (a b : ℕ) → (a == b) ≡ true → a ≡ b", "equal_numbers a b h = grind (arith, nat_tests)",
        "", f"pub {same}-true : (a b : {kind}) → {same} a b ≡ true → a ≡ b",
        f"{same}-true a b h = sym (decode-code a) ∙ ap decode (equal_numbers (code a) (code b) h) ∙ decode-code b",
        "", "equal_itself : (a : ℕ) → (a == a) ≡ true", "equal_itself a = grind (arith, nat_tests)",
        "", f"pub {same}-itself : (a : {kind}) → {same} a a ≡ true", f"{same}-itself a = equal_itself (code a)",
    ]
    return "\n".join(out) + "\n"


def punctuators():
    Path("crates/c_grammar/specs/Punctuators.antt").write_text(numbers("Punct", "p", "same_mark", "op", "punctuators"))


def keywords():
    Path("crates/c_unit_grammar/specs/Keywords.antt").write_text(numbers("Keyword", "word", "same_word", "key", "keywords"))

# ---- the trees

TOOL = Path("tools/tree_equations.py").read_text().replace("\nmain()\n", "\n")
TABLE = {"__name__": "tree_equations"}
exec(compile(TOOL, "tree_equations.py", "exec"), TABLE)
TREE, Family, snake, part_type = TABLE["TREE"], TABLE["Family"], TABLE["snake"], TABLE["part_type"]
HEAD = next(iter(TREE))
AT = f"Rattle.c_tree.specs.declared.{TREE[HEAD][0]}.{HEAD}"
SPECS = Path("crates/c_grammar/specs")
GENERATED = "-- Written by tools/grammar_tables.py."


def used(line, body):
    """An import without the names that the body does not have; None where it has none of them."""
    listed = re.fullmatch(r"use (\S+)\.\{(.*)\}", line)
    if not listed:
        return line
    names = re.findall(r"(?:[^,{}]+)", listed[2])
    kept = [name.strip() for name in names if needed(name.strip(), body)]
    return f"use {listed[1]}.{{{', '.join(kept)}}}" if kept else None


def needed(name, body):
    if "◌" in name:
        return any(part in body for part in name.split("◌") if part)
    return re.search(rf"(?<![\w'-]){re.escape(name)}(?![\w'-])", body) is not None


def write(path, lines, specs=SPECS):
    file = specs / path
    file.parent.mkdir(parents=True, exist_ok=True)
    body = "\n".join(line for line in lines if not line.startswith("use "))
    kept = [used(line, body) if line.startswith("use ") else line for line in lines]
    file.write_text("\n".join(line for line in kept if line is not None) + "\n")


def each_node(kind, variants, before, claim):
    """A line for each kind of node: its name, and the claim of it for all its parts."""
    lines = []
    for variant, parts in variants:
        binders = "".join(f" ({part} : {part_type(what)})" for part, what in parts)
        values = "".join(f" {part}" for part, _ in parts)
        node = f"({snake(kind)}.{variant}{values})" if parts else f"{snake(kind)}.{variant}"
        arrow = f"{binders} → " if parts else " "
        lines.append(f"  {before}{snake(variant)} :{arrow}{claim} {node}")
    return lines


def cases():
    out = [GENERATED, "-- A tree of an enum is one of its kinds of node: what is shown of each kind holds of every tree."]
    out += ["use Rattle.std.specs.Prelude.{◌≡◌, ℕ, List, Option}", "use Rattle.std.proofs.Common.{sym, ◌∙◌, subst}"]
    out += TABLE["declared_uses"](TREE, ["out-", "roll-", "roll-out-"], [])
    layers = [kind for kind in TREE if TREE[kind][1] == "enum"]
    out.append(f"use {AT}.TheOpen.{{{', '.join(kind + '-F' for kind in layers)}}}")
    out.append(f"use Rattle.c_tree.specs.Layers.{{{', '.join(kind + 'Layer' for kind in layers)}}}")
    for kind in layers:
        variants = TREE[kind][2]
        out += ["", f"pub record {kind}Cases (P : {kind} → Type 0) : Type 0 where"]
        out += each_node(kind, variants, "pub ", "P")
        out += ["", f"by_{snake(kind)} : (P : {kind} → Type 0) → {kind}Cases P → (x : {kind}) (node : {kind}Layer) → roll-{kind} node ≡ x → P x"]
        for variant, parts in variants:
            values = "".join(f" {part}" for part, _ in parts)
            node = f"({kind}-F.{variant}{values})" if parts else f"{kind}-F.{variant}"
            rolls = f"({snake(kind)}.rolls-{variant}{values})" if parts else f"{snake(kind)}.rolls-{variant}"
            shown = f"(c.{snake(variant)}{values})" if parts else f"c.{snake(variant)}"
            out.append(f"by_{snake(kind)} P c x {node} r = subst P (sym {rolls} ∙ r) {shown}")
        out += ["", f"pub {snake(kind)}_cases : (P : {kind} → Type 0) → {kind}Cases P → (x : {kind}) → P x"]
        out.append(f"{snake(kind)}_cases P c x = by_{snake(kind)} P c x (out-{kind} x) (roll-out-{kind} x)")
        out += ["", f"-- which kind of node the tree is", f"pub data {kind}Shape : {kind} → Type 0 where"]
        out += each_node(kind, variants, "a_", f"{kind}Shape")
        out += ["", f"pub {snake(kind)}_shape : (x : {kind}) → {kind}Shape x"]
        shapes = "; ".join(f"{snake(variant)} = {'λ' + ''.join(' ' + part for part, _ in parts) + '. ' if parts else ''}{kind}Shape.a_{snake(variant)}{''.join(' ' + part for part, _ in parts)}" for variant, parts in variants)
        out.append(f"{snake(kind)}_shape = {snake(kind)}_cases {kind}Shape (record {{ {shapes} }})")
    return out


def endings():
    family = Family("Ending", "ending", "ending_of", lambda kind: "Ending")
    out = [GENERATED, "-- The fold whose steps stand in Ending.OfTrees, and one equation for each kind of node."]
    out += TABLE["uses"](TREE)
    out.append(f"use Rattle.c_grammar.specs.Ending.OfTrees.{{Ending, {', '.join(family.steps(kind) for kind in TREE)}}}")
    return out + TABLE["equations"](family, TREE)



def told():
    """What the levels tell of each kind of node, as an equation of functions of the visible names."""
    family = Family("Levels", "level", "level_of", lambda kind: f"(With {TABLE['LEVELS'][kind]})")
    out = [GENERATED, "-- What is told of a tree of each kind of node, whatever names are visible."]
    out += TABLE["uses"](TREE)
    out.append(f"use Rattle.c_tree.specs.Levels.OfTrees.{{{', '.join(family.steps(kind) for kind in TREE)}}}")
    out.append(f"use Rattle.c_tree.specs.Levels.Trees.{{{', '.join(f'{snake(kind)}_level, {snake(kind)}_level-roll' for kind in TREE)}}}")
    lines = TABLE["equations"](family, TREE)
    for at, line in enumerate(lines):
        if re.match(r"pub \w+-(?!roll\b)\w+ :", line):
            out += ["", line, lines[at + 1]]
    return out


def declares_none(kind, tree="x"):
    """A parameter may declare a typedef name, which its list's scope holds back."""
    return "Unit {0}" if kind == "Parameter" else f"NoTypedefs ({snake(kind)}_level {tree})"


# What typing is shown to say of a node of each kind, where it tells no fault.
ANSWERS = {
    "DeclaratorSuffix": "Suffixes", "Direct": "Derives", "Expr": "Says", "Prefix": "Prefixes", "Suffix": "Continues", "Enumerator": "Counts",
    "Specifier": "IsSpecific", "Declarator": "Derives", "Parameter": "Listed", "Branch": "Branches", "Next": "Operates",
    "TypeName": "NamesType", "Member": "ListsMembers", "MemberDeclarator": "Derives",
}


def answers(kind, tree="x"):
    return f"{ANSWERS[kind]} ({snake(kind)}_typing {tree})"


def known(what, claim, uses):
    """A node of whose parts a claim is known, and the induction over trees by such nodes."""
    kinds = list(TREE)
    bare = " ".join(f"Known{kind}" for kind in kinds)
    trees = " ".join(kinds)
    firsts = " ".join("(λ e. e.0)" for _ in kinds)
    claims = " ".join(f"(λ x. {claim(kind)})" for kind in kinds)
    steps = " ".join(f"(λ x y is. subst (λ z. {claim(kind, f'(roll-{kind} z)')}) is (steps.of_{snake(kind)} y))" for kind in kinds)
    out = [GENERATED, f"-- What is shown of {what} holds of every tree."]
    out += ["use Rattle.std.specs.Prelude.{◌≡◌}", "use Rattle.std.proofs.Common.{subst}"]
    for kind, (file, _, _) in TREE.items():
        out.append(f"use Rattle.c_tree.specs.declared.{file}.{kind}.{{{kind}, roll-{kind}}}")
    out.append(f"use {AT}.TheOpen.{{{', '.join(kind + '-F' for kind in kinds)}}}")
    out.append(f"use {AT}.TheFolds.{{{', '.join(f'map-{kind}, ind-{kind}' for kind in kinds)}}}")
    out.append(f"use Rattle.c_tree.specs.Layers.{{{', '.join(kind + 'Layer' for kind in kinds)}}}")
    out += uses
    for kind in kinds:
        out += ["", f"abbrev pub Known{kind} : Type 0", f"Known{kind} = (x : {kind}) × {claim(kind)}"]
    for kind in kinds:
        out += ["", f"abbrev pub {kind}OfKnown : Type 0", f"{kind}OfKnown = {kind}-F {bare}"]
        out += ["", f"abbrev pub bare_{snake(kind)} : {kind}OfKnown → {kind}Layer", f"bare_{snake(kind)} = map-{kind} {bare} {trees} {firsts}"]
    out += ["", "pub record Steps : Type 0 where"]
    for kind in kinds:
        out.append(f"  pub of_{snake(kind)} : (y : {kind}OfKnown) → {claim(kind, f'(roll-{kind} (bare_{snake(kind)} y))')}")
    for kind in ["Expr", "Specifier", "Declarator"]:
        out += ["", f"pub every_{snake(kind)} : Steps → (x : {kind}) → {claim(kind)}", f"every_{snake(kind)} steps = ind-{kind} {claims} {steps}"]
    return out


def declared():
    levels = ", ".join(f"{snake(kind)}_level" for kind in TREE)
    return known("each node whose parts declare no typedef names", declares_none,
                 [f"use Rattle.c_tree.specs.Levels.Trees.{{{levels}}}", "use Rattle.c_grammar.specs.Fronts.{NoTypedefs}"])


def answered():
    typings = ", ".join(f"{snake(kind)}_typing" for kind in TREE)
    return known("typing of each node whose parts answer", answers,
                 [f"use Rattle.c_typing.specs.Trees.{{{typings}}}", "use Rattle.c_typing_laws.specs.Declarators.{Says, Derives, Counts, IsSpecific}",
                  "use Rattle.c_typing_laws.specs.OfTrees.{Suffixes, Prefixes, Continues, Branches, Operates, NamesType, ListsMembers, Listed}"])


punctuators()
keywords()
write("Laws/Cases.antt", cases())
write("Laws/Told.antt", told())
write("Laws/Known.antt", declared())
write("Ending/Trees.antt", endings())
write("Known.antt", answered(), Path("crates/c_typing_laws/specs"))

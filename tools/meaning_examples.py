#!/usr/bin/env python3
"""Runs the C sources of the computed examples of c_meaning through gcc, and compares.

Each law of crates/c_meaning/specs/Examples that tells an exit and has a whole program in the comment
above it is compiled and run. gcc's char is made unsigned, as the profile's is. The sources in ORDER
have an order of evaluation that C leaves open and the profile fixes, so gcc may differ there.

    python3 tools/meaning_examples.py
"""
import pathlib
import re
import subprocess
import sys
import tempfile

ORDER = {"left_operand_is_read_first", "designator_first", "old_value_is_read_last",
         "increment_before_read", "postfix_and_prefix", "arguments_in_order"}
LIBRARY = "int putchar(int);int getchar(void);void exit(int);\n"
FOLDER = pathlib.Path(__file__).parent.parent / "crates/c_meaning/specs/Examples"


def numbers(text):
    return [int(n) for n in re.findall(r"\d+", text)]


def paragraphs(text):
    """The comment and the text of each paragraph."""
    for paragraph in text.split("\n\n"):
        lines = paragraph.split("\n")
        yield (" ".join(line[2:].strip() for line in lines if line.startswith("--")),
               " ".join(line.strip() for line in lines if not line.startswith("--")))


def examples():
    """The name, source, input, status and output of each example that can be run.

    A program stands in the comment of its law, or of the unit before it that the law speaks of."""
    for path in sorted(FOLDER.glob("*.antt")):
        source = None
        for comment, text in paragraphs(path.read_text()):
            if comment:
                found = re.search(r"(?:(?:struct |static |void |int).*)?int main\(void\)\{.*\}", comment)
                source = found.group(0) if found and found.group(0).count("int main(") == 1 else None
            law = re.match(r"pub (\w+) : .* ≡ ends \(Exit (\d+)\) (\[\]|\(.*?\)) \d+ \d+ unfolding", text)
            if law and source and not re.search(r"\b[A-Z]\b(?!\{)", source):
                given = re.search(r" (\((?:\d+ ∷ )+\[\]\)) \d+ \d+ ≡", text)
                yield law.group(1), source, numbers(given.group(1)) if given else [], int(law.group(2)), numbers(law.group(3))


def main():
    compared = differ = 0
    with tempfile.TemporaryDirectory() as folder:
        for name, source, given, status, output in examples():
            path = pathlib.Path(folder) / "source.c"
            path.write_text(LIBRARY + source + "\n")
            program = pathlib.Path(folder) / "program"
            subprocess.run(["gcc", "-w", "-funsigned-char", path, "-o", program], check=True)
            run = subprocess.run([program], input=bytes(given), capture_output=True)
            compared += 1
            if (run.returncode, list(run.stdout)) != (status, output):
                note = "the order is the profile's" if name in ORDER else "DIFFERS"
                differ += name not in ORDER
                print(f"{name}: gcc gives {run.returncode} {list(run.stdout)}, the law {status} {output}: {note}")
    print(f"{compared} compared, {differ} differ")
    return 1 if differ else 0


if __name__ == "__main__":
    sys.exit(main())

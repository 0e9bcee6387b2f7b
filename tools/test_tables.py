"""The tables of the tests, by the models of this folder.

A model makes the whole of each constant as Rust text: `print_or_check` prints them, or with `--check` reads each where it
stands in its test and says whether it is equal, by tokens: layout, comments and the base of a number don't count. The
model then ends with status 1 where one differs.
"""
import argparse
import re
import sys
from pathlib import Path

CRATES = Path(__file__).parent.parent / "crates"

TOKEN = re.compile(r'//[^\n]*|b?"(?:\\.|[^"\\])*"|0x[0-9a-fA-F_]+|\d[\d_]*|\w+|\S', re.DOTALL)


def token(text):
    """A token in one spelling: numbers in decimal, and a string without the ends of its lines."""
    if text[0].isdigit():
        return str(int(text.replace("_", ""), 0))
    return re.sub(r"\\\n\s*", "", text) if text.endswith('"') else text


def tokens(rust):
    found = [token(text) for text in TOKEN.findall(rust) if not text.startswith("//")]
    return [text for text, behind in zip(found, found[1:] + [""]) if not (text == "," and behind in ("]", ")", "}"))]


def constant(test, name):
    """The tokens of the value of a constant in a test."""
    found = tokens((CRATES / test).read_text(encoding="utf-8"))
    start = next(i for i in range(len(found)) if found[i] in ("const", "static") and found[i + 1] == name)
    start = found.index("=", start) + 1
    return found[start:found.index(";", start)]


def table(rows):
    """Rows as the text of an array."""
    return "[\n    " + ",\n    ".join(rows) + ",\n]"


def difference(want, have):
    """What a test has in place of what a model makes, or nothing."""
    for place, (one, other) in enumerate(zip(want, have)):
        if one != other:
            return f"token {place} is {other}, and the model gives {one}"
    return f"{len(have)} tokens, and the model gives {len(want)}" if len(want) != len(have) else None


def print_or_check(model, made_with, tables):
    """`tables` has for each test and constant its value as Rust text; `made_with` names the libraries that made it."""
    options = argparse.ArgumentParser(description=model, formatter_class=argparse.RawDescriptionHelpFormatter)
    options.add_argument("--check", action="store_true", help="compare with the tables of the tests")
    check = options.parse_args().check
    wrong = False
    print(f"// By {made_with}.")
    for (test, name), rust in tables.items():
        if not check:
            print(f"// crates/{test}: {name}\n{rust}")
            continue
        differs = difference(tokens(rust), constant(test, name))
        print(f"{test}: {name}: {differs or 'equal'}")
        wrong |= differs is not None
    sys.exit(wrong)

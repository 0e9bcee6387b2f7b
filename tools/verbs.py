#!/usr/bin/env python3
"""The words of each verb, which man/geli.8 alone tells: its options, its operands, and whether only scripts use it.

    tools/verbs.py [--check | --names]

In COMMANDS of the page each command stands with its words, and is marked if it is of use in scripts alone. Without an
option this writes what follows from them into completions/geli.bash and kit/vuthrel/refusals.txt, and what DIAGNOSTICS
says of each refusal into the latter, between two comment lines: these files stand alone once installed, so they can't
ask the page. With --check nothing is written, and each file that would change is named. --names prints what the
first word behind `geli` may be.

It also says which verb COMMANDS has and the README's table of commands lacks, or the other way round, and which word
COMPATIBILITY lists among the verbs that come from FreeBSD and is none. The status is 1 where something is found.

Other tools take the words from `verbs_of_page`.
"""
import argparse
import re
import sys
from collections import namedtuple
from pathlib import Path

ROOT = Path(__file__).resolve().parent.parent
PAGE, README = "man/geli.8", "README.md"
FIRST = "# What follows is printed by tools/verbs.py from man/geli.8: change the page and run it again."
LAST = "# End of what tools/verbs.py prints."

# A verb: the letters of its options without a value, those with one, those of these that it needs, and its operands in
# each form that it has. They are in the order of the page, and operands have its names. A word that is given as it
# stands, as `read` of submit, has a = before it.
Verb = namedtuple("Verb", "alone valued needed forms is_for_scripts")

# What may stand in the head of a command. It is one line `.It Cm ...`, or several between `.It Xo` and `.Xc`; a command
# with several forms has a head for each.
HEAD = re.compile(r"^\.It (?:Xo\n((?:\..*\n)+?)\.Xc|(Cm .*))$", re.M)
PART = re.compile(r"Oo Fl (?P<alone>\w+) Oc|Oo Fl (?P<valued>\w) Ar \w+ Oc|Fl (?P<needed>\w) Ar \w+|"
                  r"Cm (?P<word>\w+)|Ar (?P<operands>[a-z]+(?: [a-z]+)*)|Pq (?P<mark>.+)")

# Stands in SYNOPSIS, and is no verb of a line.
SCRIPT = "script"
# The mark of a verb that is of use in scripts alone. Others are read over.
IN_SCRIPTS = "in scripts"
# The operands that are files.
FILES = ("image", "file", "place")


def text_of(name):
    return (ROOT / name).read_text(encoding="utf-8")


def section(name):
    return text_of(PAGE).split(f"\n.Sh {name}\n")[1].split("\n.Sh ")[0]


def form_of(head):
    """What the head of a command says: its words and operands, its letters by their kind, and its mark."""
    words, letters, mark, at = [], {"alone": "", "valued": "", "needed": ""}, "", 0
    while at < len(head):
        found = PART.match(head, at)
        if not found:
            sys.exit(f"{PAGE}: COMMANDS has a head that tools/verbs.py can't read: {head}")
        kind, text = found.lastgroup, found[found.lastgroup]
        if kind == "operands":
            words += text.split()
        elif kind == "word":
            words.append("=" + text)
        elif kind == "mark":
            mark = text
        else:
            letters[kind] += text
            if kind == "needed":
                letters["valued"] += text
        at = found.end() + 1
    return words, letters, mark


def once(texts):
    """The letters of all these texts, each once."""
    return "".join(dict.fromkeys("".join(texts)))


def heads():
    """The heads of commands in COMMANDS, each on one line, with all brackets as Oo and Oc."""
    for lines, line in HEAD.findall(section("COMMANDS")):
        yield line or " ".join(re.sub("^Op (.*)", r"Oo \1 Oc", part[1:]) for part in lines.splitlines())


def verbs_of_page():
    """The verbs of COMMANDS by their names, in its order."""
    found = {}
    for head in heads():
        (name, *operands), letters, mark = form_of(head)
        found.setdefault(name[1:], []).append((operands, letters, mark))
    return {
        name: Verb(*(once(letters[kind] for _, letters, _ in forms) for kind in ("alone", "valued", "needed")),
                   [operands for operands, _, _ in forms], all(mark == IN_SCRIPTS for _, _, mark in forms))
        for name, forms in found.items()
    }


def names():
    """What the first word behind `geli` may be."""
    return sorted([*verbs_of_page(), SCRIPT])


def letter_lines():
    """The cases of verbs by their letters. Verbs with the same letters share a line."""
    found = {}
    for name, verb in verbs_of_page().items():
        if verb.alone or verb.valued:
            found.setdefault(f"{verb.alone}:{verb.valued}", []).append(name)
    return "".join(f"        {' | '.join(same)}) echo {letters} ;;\n" for letters, same in found.items())


def operand_lines():
    """The cases of operands by their verb and place: those that are given as they stand, and those that are files.

    The first operand is a file as a rule, also of a verb that the page doesn't have.
    """
    others, files = "", ["*:0"]
    for name, verb in verbs_of_page().items():
        for place in range(max(map(len, verb.forms)) or 1):
            may_be = [form[place] for form in verb.forms if place < len(form)]
            fixed = [operand[1:] for operand in may_be if operand.startswith("=")]
            if fixed:
                words = f"compgen -W '{' '.join(fixed)}' -- \"$3\""
                others += f"        {name}:{place}) mapfile -t COMPREPLY < <({words}) ;;\n"
            elif set(may_be) & set(FILES):
                files += [f"{name}:{place}"] if place else []
            elif place == 0:
                others += f"        {name}:{place}) ;;\n"
    return f"{others}        {' | '.join(files)}) _geli_files \"$3\" ;;\n"


def completions():
    return f"""\
_geli_verbs='{' '.join(names())}'

# The option letters of a verb: those without a value, then behind a colon those with one.
_geli_letters() {{
    case $1 in
{letter_lines()}    esac
}}

# What is offered for an operand: VERB, how many operands stand before it, and what is typed of it.
_geli_operand() {{
    case $1:$2 in
{operand_lines()}    esac
}}
"""


def lists():
    """The verbs that are of use as single commands, and those that are of use in a script alone."""
    verbs = verbs_of_page()
    for_scripts = [name for name in sorted(verbs) if verbs[name].is_for_scripts]
    alone = [name for name in names() if name not in for_scripts]
    return f"alone: {' '.join(alone)}\nin-scripts: {' '.join(for_scripts)}\n"


# A macro of mdoc(7) that a line of text may have, and how its words are written. Others are read over.
MACROS = {"Fl": "-{}", "Sq": "'{}'", **dict.fromkeys(("Ar", "Cm", "Pa", "Sx", "Xr", "No"), "{}")}


def plain(line):
    """A line of the page without its macros."""
    words, form, is_page = [], "{}", False
    for word in line.lstrip(".").split() if line.startswith(".") else [line]:
        if word in MACROS and line.startswith("."):
            form, is_page = MACROS[word], word == "Xr"
        elif word in (".", ",", ";", ":") and words:
            words[-1] += word
        elif is_page and word.isdigit():
            words[-1] += f"({word})"
        else:
            words.append(form.format(word))
    return " ".join(words)


def refusals():
    """A line for each refusal of DIAGNOSTICS: its number, its name, its fields, and what the page says of it."""
    found, depth = [], 0
    for line in section("DIAGNOSTICS").splitlines():
        depth += line.startswith(".Bl") - line.startswith(".El")
        if line.startswith(".It ") and depth == 1:
            found.append(f"{plain('.No ' + line[4:])}:")
        elif depth and line.startswith(".It "):
            found[-1] += f" {plain('.No ' + line[4:])}:"
        elif depth and not line.startswith((".Bl", ".El")):
            found[-1] += f" {plain(line)}"
    return "".join(f"{line}\n" for line in found)


# The files with a printed part.
PRINTED = {"completions/geli.bash": completions, "kit/vuthrel/refusals.txt": lambda: lists() + refusals()}


def with_part(file, part):
    """The text of a file with this between the two comment lines."""
    before, first, rest = text_of(file).partition(FIRST + "\n")
    _, last, after = rest.partition(LAST + "\n")
    if not last:
        sys.exit(f"{file}: the two comment lines of tools/verbs.py aren't there")
    return before + first + part + last + after


def verbs_of_readme():
    """The first words of what stands in backquotes in the first column of the table of commands."""
    table = text_of(README).split("\n## Commands\n")[1].split("\n## ")[0]
    cells = re.findall(r"^\|([^|]*)\|", table, re.M)
    return {code.split()[0] for cell in cells for code in re.findall(r"`([^`]+)`", cell)}


def shared_verbs():
    """The verbs that COMPATIBILITY says come from FreeBSD."""
    items = section("COMPATIBILITY").split("\n.It\n")
    item = next((item for item in items if item.startswith("The commands\n")), "")
    return {name for line in re.findall(r"^\.Cm (.*)$", item, re.M) for name in re.findall(r"\w+", line)}


def strays():
    """The verbs that one place has and another lacks."""
    told, table, shared = set(verbs_of_page()), verbs_of_readme(), shared_verbs()
    places = [
        ("the table of commands lacks", README, told - table), ("COMMANDS lacks", PAGE, table - told),
        ("COMPATIBILITY names what is no verb:", PAGE, shared - told),
    ]
    for what, file, found in places:
        yield from (f"{file}: {what} {name}" for name in sorted(found))
    if not shared:
        yield f"{PAGE}: COMPATIBILITY has no list of the verbs that come from FreeBSD"


def main():
    options = argparse.ArgumentParser(description=__doc__, formatter_class=argparse.RawDescriptionHelpFormatter)
    one = options.add_mutually_exclusive_group()
    one.add_argument("--check", action="store_true", help="write nothing, and say which file would change")
    one.add_argument("--names", action="store_true", help="print the verbs and `script`")
    given = options.parse_args()
    if given.names:
        print(" ".join(names()))
        return 0
    texts = {file: with_part(file, part()) for file, part in PRINTED.items()}
    differing = [file for file, text in texts.items() if text != text_of(file)]
    for file in differing:
        print(f"{file}: {f'is not what {PAGE} says' if given.check else 'written'}")
        if not given.check:
            (ROOT / file).write_text(texts[file], encoding="utf-8")
    found = [*strays()]
    print("".join(line + "\n" for line in found), end="")
    return 1 if found or (given.check and differing) else 0


if __name__ == "__main__":
    sys.exit(main())

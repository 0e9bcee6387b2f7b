#!/usr/bin/env python3
"""Lists the definitions that some definitions reach, and counts their lines.

    tools/definition_lines.py CRATE/FILE/NAME...      as geli_core/Survivors/SurvivesCrashes

A definition reaches each one of specs/ that its text names. Imports, comments and blank lines don't count. Definitions
of the kit and the types of the code aren't followed.
"""
import os
import re
import sys

from definitions import outward

CRATES = os.path.join(os.path.dirname(os.path.abspath(__file__)), "..", "crates")
USE = re.compile(r"(?:unfoldable )?(?:pub )?use Rattle\.(\w+)\.specs\.([\w.]+?)(?:\.\{(.*)\})?(?: as (\w+))?$")
HEAD = re.compile(r"(?:abbrev |unfoldable |pub |record |data )*([^\s({:]+)")
files = {}


def load(crate, module):
    """The imports of a file, by the names in it, and its definitions, each with its lines."""
    if (crate, module) in files:
        return files[crate, module]
    path = os.path.join(CRATES, crate, "specs", module.replace(".", "/") + ".antt")
    if not os.path.exists(path):
        files[crate, module] = None
        return None
    imports, definitions, current = {}, {}, None
    for line in outward(open(path, encoding="utf-8").read().split("\n")):
        found = USE.match(line)
        if found:
            source, part, names, other = found.groups()
            for name in (names or "").split(","):
                imports[name.strip()] = (source, part, name.strip())
            if other:
                imports[other] = (source, part, None)
        elif line.strip() and not line.strip().startswith("--") and not line.startswith(("use ", "infix", "pub mod")):
            if not line.startswith(" "):
                current = HEAD.match(line).group(1)
            definitions.setdefault(current, []).append(line)
    files[crate, module] = (imports, definitions)
    return files[crate, module]


def owner(definitions, name):
    """The definition with this name, or the data type with this case."""
    if name in definitions:
        return name
    case = re.compile(r"\s+" + re.escape(name) + r" :")
    for other, lines in definitions.items():
        if "data " in lines[0] and any(case.match(line) for line in lines):
            return other
    return None


def reach(crate, module, name, reached):
    loaded = load(crate, module)
    if not loaded:
        return
    imports, definitions = loaded
    if name in imports and not owner(definitions, name):  # a module that passes the name on
        reach(*imports[name], reached)
        return
    name = owner(definitions, name)
    if name is None or (crate, module, name) in reached:
        return
    lines = definitions[name]
    reached[crate, module, name] = len(lines)
    text = "\n".join(lines)
    for word in set(re.findall(r"[^\s(){},;.\[\]]+", text)):
        if owner(definitions, word):
            reach(crate, module, word, reached)
        elif word in imports and imports[word][2]:
            reach(*imports[word], reached)
    for prefix, word in re.findall(r"(\w+)\.(\w+)", text):
        if prefix in imports and imports[prefix][2] is None:
            reach(imports[prefix][0], imports[prefix][1], word, reached)


def main(arguments):
    reached = {}
    for argument in arguments:
        reach(*argument.split("/"), reached)
    by_file = {}
    for (crate, module, name), lines in reached.items():
        by_file.setdefault((crate, module), []).append((name, lines))
    total = 0
    for (crate, module), names in sorted(by_file.items()):
        lines = sum(count for _, count in names)
        total += lines
        print(f"{lines:5} {crate}/specs/{module}.antt: {' '.join(sorted(name for name, _ in names))}")
    print(f"{total:5} in all")


if __name__ == "__main__":
    main(sys.argv[1:])

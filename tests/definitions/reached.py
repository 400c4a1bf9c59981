#!/usr/bin/env python3
"""Finds the definitions of specs/ that the clauses of public functions reach, and fails where one of these stands in specs/Inner, or another doesn't.

A definition is reached where a clause of a public function or of a public trait, the value of a public type's model, the
memory that it owns, which a caller in C owes, what a public conversion gives or how a public type shows names it, or where a definition that is
reached names it. Views and invariants don't count, nor does the relation `is_at` by which a public task is seen: no caller sees what they say.
"""

import re
import sys
from pathlib import Path

from calls import head_and_contract

TOP = Path(__file__).resolve().parents[2]
WORD = re.compile(r"[A-Za-z_◌][\w◌≡≢≤<>=+\-*/%^&|]*(?:\.[A-Za-z_]\w*)*|◌\S+◌")
HEAD = re.compile(r"^ *(?:abbrev pub|unfoldable pub|pub record|pub data) (\S+)")
IMPORT = re.compile(r"^\s*(?:ghost )?use (Rattle\.\S+?)(?:\.\{(.*)\}| as (\w+))?;?$")


def path_of(crate, file):
    """The file of definitions of this name."""
    return TOP / "crates" / crate / "specs" / f"{file}.antt"


def imports_of(lines):
    """The names that a file brings in: (crate, file, name) by word, and (crate, file) by word for whole files."""
    names, files = {}, {}
    for line in lines:
        found = IMPORT.match(line)
        if not found:
            continue
        path, listed, alias = found.groups()
        parts = path.split(".")
        if len(parts) < 4 or parts[2] != "specs" or parts[3] == "declared":
            continue
        crate, file = parts[1], "/".join(parts[3:])
        if listed is None:
            files[alias or parts[-1]] = (crate, file)
            continue
        for item in listed.split(","):
            name, _, other = item.strip().partition(" as ")
            names[other or name] = (crate, file, name)
    return names, files


def words_of(text):
    return WORD.findall(re.sub(r'"(?:[^"\\\n]|\\.)*"|--.*', "", text))


def resolved(text, names, files, own):
    """The definitions that a text names."""
    for word in words_of(text):
        first, _, rest = word.partition(".")
        if first in names:
            yield names[first]
        elif first in files and rest:
            yield (*files[first], rest.split(".")[0])
        elif own is not None and first in own[2]:
            yield (own[0], own[1], first)


def read_specs():
    """Each definition's text with what its file brings in, by (crate, file, name)."""
    definitions = {}
    for path in sorted(TOP.glob("crates/*/specs/**/*.antt")):
        crate = path.relative_to(TOP).parts[1]
        file = str(path.relative_to(TOP / "crates" / crate / "specs").with_suffix(""))
        lines = path.read_text().splitlines()
        names, files = imports_of(lines)
        blocks, block = {}, None
        for line in lines:
            head = HEAD.match(line)
            if head:
                block = blocks.setdefault(head.group(1), [])
            elif line.startswith("--") or line.lstrip().startswith(("use ", "pub mod", "infix", "module ")):
                block = None
            if block is not None:
                block.append(line)
        for name, text in blocks.items():
            definitions[crate, file, name] = ("\n".join(text), names, files, (crate, file, set(blocks)))
    return definitions


def clauses_of(lines):
    """The text of the clauses that callers of a crate see, function by function."""
    public_types = set(re.findall(r"^pub (?:struct|enum) (\w+)", "\n".join(lines), re.M))
    in_public_trait = in_trait_impl = in_model = False
    for number, line in enumerate(lines):
        if re.match(r"^pub trait ", line):
            in_public_trait = True
        if re.match(r"^impl\b.* for ", line):
            of = re.search(r"\bfor (\w+)", line).group(1)
            in_model = "Model for" in line and of in public_types
            in_trait_impl = "Model for" not in line and of in public_types
        if line == "}":
            in_public_trait = in_trait_impl = in_model = False
        seen = r"^\s*ghost (?:Value|also_owns)\b" if in_model else r"^\s*ghost (?:from_gives|output)\b"
        if (in_model or in_trait_impl) and re.match(seen, line):
            end = next(it for it in range(number, len(lines)) if lines[it].endswith("};"))
            yield "\n".join(lines[number:end + 1])
        public = re.match(r'^\s*pub (?:const |extern "C" )?fn ', line)
        if public or ((in_public_trait or in_trait_impl) and re.match(r"^\s*fn ", line)):
            text = "\n".join(head_and_contract(lines[number:]))
            start = re.search(r"\b(?:requires|ensures)\b", text)
            if start:
                yield text[start.start():]
        elif in_public_trait and re.match(r"^\s*ghost (?!use)", line):
            yield line


def seen_at():
    """The relations by which public tasks are seen."""
    for path in sorted(TOP.glob("crates/*/src/**/*.rt")):
        lines = path.read_text().splitlines()
        public_types = set(re.findall(r"^pub (?:struct|enum) (\w+)", "\n".join(lines), re.M))
        names, files = imports_of(lines)
        of = None
        for line in lines:
            if found := re.match(r"^impl\b.* for (\w+)", line):
                of = found.group(1)
            if of in public_types and (found := re.match(r"^    ghost is_at = \{ (\w+) \};$", line)):
                yield from resolved(found.group(1), names, files, None)


def named_by_clauses(definitions):
    for path in sorted(TOP.glob("crates/*/src/**/*.rt")):
        if "tests" in path.relative_to(TOP).parts or path.name == "tests.rt":
            continue
        lines = path.read_text().splitlines()
        names, files = imports_of(lines)
        for text in clauses_of(lines):
            yield from resolved(text, names, files, None)


def rests_on(definitions, start):
    """The definitions that these rest on, themselves included."""
    waiting = list(start)
    found, views = set(), set(seen_at())
    while waiting:
        key = waiting.pop()
        if key in found or key in views or key not in definitions:
            continue
        found.add(key)
        waiting.extend(resolved(*definitions[key]))
    return found


def reached():
    definitions = read_specs()
    return definitions, rests_on(definitions, named_by_clauses(definitions))


def main():
    definitions, found = reached()
    inner = sorted(key for key in found if key[1].startswith("Inner/"))
    outer = sorted(key for key in definitions.keys() - found if not key[1].startswith("Inner/") and "◌" not in key[2])
    for crate, file, name in inner:
        print(f"`{name}` of {crate}/specs/{file}.antt is reached by a public clause, and stands in specs/Inner")
    for crate, file, name in outer:
        print(f"`{name}` of {crate}/specs/{file}.antt isn't reached by a public clause, and doesn't stand in specs/Inner")
    print(f"{len(found)} definitions of {len(definitions)} are reached by public clauses")
    return 1 if inner or outer else 0


if __name__ == "__main__":
    sys.exit(main())

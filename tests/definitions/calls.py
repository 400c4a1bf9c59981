#!/usr/bin/env python3
"""Finds the public calls, and counts them.

A call is a public function that a library exports: by itself, of a type or a trait that is exported, of `laws`, or for C. So is a function that
such a type has of a trait, where it has clauses of its own.
"""

import re
from dataclasses import dataclass
from pathlib import Path

TOP = Path(__file__).resolve().parents[2]
USE = re.compile(r"^pub use ([\w:]+?)::(?:\{([^}]*)\}|(\w+));", re.M)
FUNCTION = re.compile(r'^(\s*)(pub )?(?:const )?(extern "C" )?fn (\w+)')
CLAUSE = re.compile(r"^\s*(requires|ensures)\*? (?:(\w+) \{|\{ (\w+) \}$)?", re.M)


@dataclass
class Call:
    """A call by its full name: its crate, its file below src/ and the line of its head, from 0, its `///`, and its clauses: `requires` or `ensures`, a
    name, and the definition that the clause is alone, both of which may be empty."""

    name: str
    crate: str
    file: str
    line: int
    comment: str
    clauses: list[tuple[str, str, str]]


def crates():
    """The crates that are libraries, in the order of crates.txt."""
    for row in (TOP / "crates.txt").read_text().splitlines():
        crate = row.split("#")[0].partition(":")[0].split()
        if crate and (TOP / "crates" / crate[0] / "src/lib.rt").is_file():
            yield crate[0]


def exported(crate):
    """The names that a crate exports of its own, and whether it has laws."""
    text = (TOP / "crates" / crate / "src/lib.rt").read_text()
    modules = re.findall(r"^(?:pub )?mod (\w+);", text, re.M)
    names = set()
    for path, listed, alone in USE.findall(text):
        if path.split("::")[0] in modules:
            names.update(re.findall(r"\w+", listed or alone))
    return names, "pub mod laws;" in text


def without_brackets(text):
    """A head without what stands between angle brackets."""
    text = text.replace("->", "")
    while (less := re.sub(r"<[^<>]*>", "", text)) != text:
        text = less
    return text


def head_and_contract(lines):
    """The lines of a function, from its head on, up to its body."""
    depth = 0
    for line in lines:
        code = line.partition("//")[0].rstrip()
        if depth == 0 and code.strip() in ("{", "{}"):
            return
        yield code
        depth += sum(map(code.count, "([{")) - sum(map(code.count, ")]}"))
        ends_head = code.endswith(" {") and not CLAUSE.match(code)
        if depth == 0 and code.endswith((";", "{}")) or depth == 1 and ends_head:
            return


def comment_above(lines):
    """The `///` above a head, of which these are the lines before it."""
    comment = []
    for line in reversed(lines):
        text = line.strip()
        if text.startswith("///"):
            comment.append(text[3:].strip())
        elif not text.startswith("#["):
            break
    return " ".join(reversed(comment))


def functions(path):
    """The functions of a file that others can call, each behind its type or trait, with its line, comment and clauses."""
    of, of_trait, all_public = None, False, False
    lines = path.read_text().splitlines()
    for number, line in enumerate(lines):
        plain = without_brackets(line)
        if head := re.match(r"(impl|(?:pub )?trait) (?:.* for )?(\w+)", plain):
            of, of_trait, all_public = head.group(2), " for " in plain, head.group(1) == "pub trait"
        elif line == "}":
            of = None
        if not (found := FUNCTION.match(line)):
            continue
        indent, public, for_c, name = found.groups()
        clauses = CLAUSE.findall("\n".join(head_and_contract(lines[number:])))
        if public and not indent:
            full_name = name
        elif of and indent == "    " and (public or all_public or of_trait and clauses):
            full_name = f"{of}::{name}"
        else:
            continue
        yield full_name, for_c, number, comment_above(lines[:number]), clauses


def calls():
    """The calls of each crate, file by file."""
    found = {}
    for crate in crates():
        names, laws = exported(crate)
        source = TOP / "crates" / crate / "src"
        for path in sorted(source.glob("**/*.rt")):
            file = path.relative_to(source)
            is_laws = laws and file.parts[0] in ("laws.rt", "laws")
            for name, for_c, *rest in functions(path):
                prefix = "" if for_c else f"{crate}::laws::" if is_laws else f"{crate}::"
                if for_c or is_laws or name.split("::")[0] in names:
                    found.setdefault(crate, []).append(Call(prefix + name, crate, str(file), *rest))
    return found


def main():
    print(f"{sum(map(len, calls().values()))} public calls")


if __name__ == "__main__":
    main()

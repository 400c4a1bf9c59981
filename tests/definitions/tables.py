"""Makes tables, in Markdown, of the public calls and of the definitions that their clauses rest on: of the sources as they stand.

Of a public call a row has the first sentence of its `///` and the names of its clauses; of a definition the comment above it.
"""

import re
from itertools import groupby, takewhile

import reached


def cell(text):
    """A comment as it stands in a cell: links of the kit's documentation lead nowhere here."""
    return re.sub(r"\[(`[^`]*`)\](?:\([^)]*\))?", r"\1", text).replace("|", "\\|")


def first_sentence(text):
    return re.match(r".*?(?:[.!?](?= [^a-z]|$)|$)", text).group()


def quoted(names):
    return ", ".join(f"`{name}`" for name in names)


def clauses_cell(clauses):
    """The clauses by their names, or by the definition that one is, those of `requires` behind that word."""
    promised = [f"`{name or definition}`" if name or definition else "unnamed" for word, name, definition in clauses if word == "ensures"]
    owed = [name for word, name, _ in clauses if word == "requires"]
    if owed:
        promised.append(f"requires {quoted(filter(None, owed))}".strip())
    return ", ".join(promised) or "none"


def calls_table(its_calls):
    """The table of these calls of a crate, file by file of src/."""
    yield "| call | says | clauses |"
    yield "|---|---|---|"
    for file, group in groupby(its_calls, lambda call: call.file):
        yield f"| **{file}** | | |"
        for call in group:
            yield f"| `{call.name}` | {cell(first_sentence(call.comment))} | {clauses_cell(call.clauses)} |"


def is_comment(line):
    return line.lstrip().startswith("--")


def text_of(comment):
    return cell(" ".join(line.lstrip(" -") for line in comment))


def parts_of(lines):
    """The parts of a file, which begin at its head and at comments that stand alone: the text of each, and its definitions, each with its comment."""
    head = list(takewhile(is_comment, lines))
    parts = [(text_of(head), [])]
    comment = []
    for line in lines[len(head):]:
        if line.startswith("-- ----"):
            parts.append((text_of([line]), []))
        elif is_comment(line):
            comment.append(line)
        else:
            if definition := reached.HEAD.match(line):
                parts[-1][1].append((definition.group(1), text_of(comment)))
            elif comment and not line:
                parts.append((text_of(comment), []))
            comment = []
    return parts


def file_rows(crate, file, names):
    """The rows of a file: these of its definitions, and at the end of each part those that have no comment, in one."""
    first = f"**{file}**"
    for text, definitions in parts_of(reached.path_of(crate, file).read_text().splitlines()):
        its_own = [(name, comment) for name, comment in definitions if name in names]
        if first or its_own:
            yield f"| {first} | {text} |"
            first = ""
        yield from (f"| `{name}` | {comment} |" for name, comment in its_own if comment)
        if bare := [name for name, comment in its_own if not comment]:
            yield f"| and {quoted(bare)} | |"


def definitions_table(crate, definitions):
    """The table of these definitions, each a file and a name, file by file in the order of specs/Lib."""
    yield "| definition | says |"
    yield "|---|---|"
    order = re.findall(r"^pub mod (\w+)", reached.path_of(crate, "Lib").read_text(), re.M)
    for file in sorted({file for file, _ in definitions}, key=lambda file: (order.index(file.split("/")[0]), file)):
        yield from file_rows(crate, file, {name for in_file, name in definitions if in_file == file})

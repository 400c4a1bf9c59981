"""Sees that each link of a page leads to a file of the repository and to a section that it has, that what docs/GUARANTEES.md names in backquotes is in the
sources, and that CONTRIBUTING.md names each crate among the layers."""

import re
import sys
from pathlib import Path

import calls

TOP = calls.TOP
BLOCK = re.compile(r"^```.*?^```", re.M | re.S)
HEADING = re.compile(r"^(##*) (.+)$", re.M)
LINK = re.compile(r"\]\(([^)\s]+)\)")
QUOTED = re.compile(r"`([^`\n]+)`")
SECTIONS = re.compile(r"(<!-- sections -->\n).*?(<!-- end -->\n)", re.S)

# The page whose names are looked up.
NAMING = "docs/GUARANTEES.md"


def pages():
    """The pages of the repository."""
    return sorted(path for path in TOP.glob("**/*.md") if not {"out", ".git"} & set(path.relative_to(TOP).parts))


def anchor(heading):
    """What a link to a section ends with."""
    return re.sub(r"[^\w\- ]", "", heading.lower()).replace(" ", "-")


def anchors(path):
    """The sections of a page, as links name them; of several with one heading the later ones have a number."""
    found = {}
    for _, heading in HEADING.findall(BLOCK.sub("", path.read_text())):
        name = anchor(re.sub(r"\[([^]]*)\]\([^)]*\)", r"\1", heading))
        found[name] = found.get(name, -1) + 1
    return {f"{name}-{count}" if count else name for name, last in found.items() for count in range(last + 1)}


def wrong_links(path):
    """The links of a page that lead nowhere."""
    for link in LINK.findall(BLOCK.sub("", path.read_text())):
        if re.match(r"[a-z]+:", link):
            continue
        name, _, section = link.partition("#")
        to = (path.parent / name).resolve() if name else path
        if not to.exists() or TOP not in (to, *to.parents):
            yield f"the link {link} leads to no file"
        elif section and (to.suffix != ".md" or section not in anchors(to)):
            yield f"the link {link} leads to no section"


def words():
    """Of each crate every word of its sources, and the names of their files and folders."""
    top, found = TOP / "crates", {}
    for path in top.glob("*/*/**/*"):
        if path.suffix in (".rt", ".antt") and "out" not in path.parts:
            parts = path.relative_to(top).parts
            found.setdefault(parts[0], set()).update((path.stem, *parts, *re.findall(r"\w+", path.read_text())))
    return found


def is_path(part):
    """Whether this is a path in the repository."""
    path = Path(part)
    return not path.is_absolute() and ".." not in path.parts and (TOP / path).exists()


def is_there(name, known):
    """Whether each part of a name is a path, or has words of the sources alone: of one crate, where that stands in front of `::`."""
    every = set().union(*known.values())
    return all(is_path(part) or known.get(part.partition("::")[0] if "::" in part else "", every).issuperset(re.findall(r"\w+", part)) for part in name.split())


def wrong_names(path):
    """What a page names that isn't there."""
    known = words()
    for name in sorted(set(QUOTED.findall(BLOCK.sub("", path.read_text())))):
        if not is_there(name, known):
            yield f"`{name}` isn't in the sources"


def missing_crates():
    """The crates that CONTRIBUTING.md doesn't name where it says how they fit."""
    layers = re.search(r"^## How the crates fit\n.*?(?=^## )", (TOP / "CONTRIBUTING.md").read_text(), re.M | re.S)[0]
    crates = re.findall(r"^(\w+)", (TOP / "crates.txt").read_text(), re.M)
    return [f"{crate} isn't among the layers" for crate in crates if f"`{crate}`" not in layers]


def main():
    wrong = [f"{path.relative_to(TOP)}: {what}" for path in pages() for what in wrong_links(path)]
    wrong += [f"{NAMING}: {what}" for what in wrong_names(TOP / NAMING)]
    wrong += [f"CONTRIBUTING.md: {what}" for what in missing_crates()]
    print(*wrong, f"{len(pages())} pages, whose links are looked up", sep="\n")
    return 1 if wrong else 0


if __name__ == "__main__":
    sys.exit(main())

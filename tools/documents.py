#!/usr/bin/env python3
"""Finds what the documents name, and compares their sizes with their bounds.

    tools/documents.py            a line for each fault; the status is 1 where there is one

The documents are README.md, docs/*.md, examples/README.md and the README.md of each crate. Outside fenced blocks, a
span in backquotes is one of these:

    `crate::path: clause, clause`     a function of that crate, and clauses that it ensures or requires
    `crate::path`                     a function, a type, a definition or a file of that crate
    `path: clause, clause`            in the README of a crate: the same, of this crate
    `word`                            in the README of a crate: a word of its src/ or specs/, the name of a file of its
                                      proofs/, a crate, a command, or a word of the language

A path is `function`, `Type::function` or `Type`; a function of a type is found without its type too. Any other span is
free. Each clause must be one of the function that is named, each path must be there, each link must lead to a file of
the repository and, after `#`, to a heading of it, and each file that is named by its folder (docs/.., crates/..,
tools/.., examples/.., editors/.., host/..) must be there. README.md has at most 8,000 bytes and rows of at most 200
characters; each crate has a README.md that begins with its name and has at most 3,000 bytes.
"""
import collections
import pathlib
import re
import sys

TOP = pathlib.Path(__file__).resolve().parent.parent
MOST_README, MOST_ROW, MOST_CRATE = 8000, 200, 3000
LANGUAGE = set("fip fbip fun data match let int bool main true false".split())
COMMANDS = set(
    "fp2 check compile verify upgrade exec run eval session tasks trace replay derive audit library gen".split()
)
OTHERS = ("std", "core", "alloc", "clap")
FUNCTION = re.compile(r"^(\s*)(?:pub(?:\([^)]*\))? )?(?:(?:const|unsafe|ghost|extern \"C\") )*fn (\w+)")
OWNER = re.compile(r"^(?:pub )?(?:unsafe )?(?:impl|trait)(?:<.*?>)? (?:.* for )?(\w+)")
CLAUSE = re.compile(r"^\s*(?:ensures|requires) (\w+) ?\{")
TYPE = re.compile(r"\b(?:struct|enum|trait|type|const|static) ([A-Za-z_]\w*)")
DEFINITION = re.compile(r"(?m)^(?:abbrev |unfoldable |mutual )*(?:pub )?(?:record |data )?([^\W\d]\w*)\b.*[:=]")
PATH = r"[A-Za-z_]\w*(?:::[A-Za-z_]\w*)?"
NAMED = re.compile(rf"(?:([a-z][a-z0-9_]*)::)?({PATH})(?:: ([a-z_]\w*(?:, [a-z_]\w*)*))?")
SPAN = re.compile(r"`([^`\n]+)`")
PLACE = re.compile(r"(?<![\w./])(?:docs|crates|tools|examples|editors|host)/[\w./-]*\w")
LINK = re.compile(r"\[[^\]\n]*\]\(([^)\s]+)\)")
WORD = re.compile(r"[^\W\d]\w*")


class Crate:
    """A crate's functions with the names of their clauses; the names of its files, types and definitions; its words."""

    def __init__(self, folder):
        self.clauses = collections.defaultdict(set)
        self.names, self.words = {path.stem for path in folder.glob("proofs/**/*.antt")}, set()
        for path in folder.glob("src/**/*.rt"):
            self.names.add(path.stem)
            self.read_code(path.read_text())
        for path in folder.glob("specs/**/*.antt"):
            self.names.add(path.stem)
            text = path.read_text()
            self.names.update(DEFINITION.findall(text))
            self.words.update(WORD.findall(text))
        self.names.update(self.clauses)
        self.words |= self.names

    def read_code(self, text):
        self.names.update(TYPE.findall(text))
        self.words.update(WORD.findall(text))
        owner, names = None, []
        for line in text.splitlines():
            if line.startswith("}"):
                owner = None
            elif found := OWNER.match(line):
                owner = found.group(1)
            elif found := FUNCTION.match(line):
                names = [found.group(2)]
                if found.group(1) and owner:
                    names.append(f"{owner}::{found.group(2)}")
                for name in names:
                    self.clauses[name] |= set()
            elif found := CLAUSE.match(line):
                for name in names:
                    self.clauses[name].add(found.group(1))

    def has(self, path):
        return path in self.names


def prose(text):
    """The lines of a document that stand in no fenced block, with their numbers."""
    is_fenced = False
    for number, line in enumerate(text.splitlines(), 1):
        if line.startswith("```"):
            is_fenced = not is_fenced
        elif not is_fenced:
            yield number, line


def headings(path):
    """The headings of a document, as links name them."""
    lines = [line.lstrip("#").strip().lower() for _, line in prose(path.read_text()) if line.startswith("#")]
    return {re.sub(r"[^\w\- ]", "", line).replace(" ", "-") for line in lines}


def link_fault(path, target):
    if re.match(r"[a-z]+:", target):
        return None
    name, _, heading = target.partition("#")
    there = (path.parent / name).resolve() if name else path
    if not there.exists() or TOP not in [there, *there.parents]:
        return f"a link to {target}, which isn't there"
    if heading and heading not in headings(there):
        return f"a link to {target}, which has no such heading"
    return None


def span_fault(span, own, crates):
    """What is wrong with a span in backquotes; own is the crate whose README has it."""
    found = NAMED.fullmatch(span)
    if not found:
        return None
    name, path, clauses = found.groups()
    if name in OTHERS:
        return None
    if name is not None and name not in crates:
        return f"`{span}`: no crate is named {name}"
    if name is None and own is None:
        return None
    crate = crates[name or own]
    if name is None and clauses is None and "::" not in path:
        if path in crate.words or path in crates or path in LANGUAGE or path in COMMANDS:
            return None
        return f"`{span}`: no word of {own}"
    if clauses is None:
        return None if crate.has(path) else f"`{span}`: {name or own} has no {path}"
    if path not in crate.clauses:
        return f"`{span}`: {name or own} has no function {path}"
    lacking = [clause for clause in clauses.split(", ") if clause not in crate.clauses[path]]
    return f"`{span}`: {path} has no clause {', '.join(lacking)}" if lacking else None


def place_fault(place):
    """What is wrong with the name of a file; NAME stands for any crate, and out/ is built."""
    if "NAME" in place or "/out/" in place or (TOP / place).exists():
        return None
    return f"{place} isn't there"


def document_faults(path, own, crates):
    for number, line in prose(path.read_text()):
        faults = [span_fault(span, own, crates) for span in SPAN.findall(line)]
        faults += [place_fault(place) for place in PLACE.findall(line)]
        faults += [link_fault(path, target) for target in LINK.findall(SPAN.sub("", line))]
        for fault in filter(None, faults):
            yield f"{path.relative_to(TOP)}:{number}: {fault}"


def size_faults(crates):
    readme = TOP / "README.md"
    if len(readme.read_bytes()) > MOST_README:
        yield f"README.md: {len(readme.read_bytes())} bytes, more than {MOST_README}"
    for number, line in prose(readme.read_text()):
        if line.startswith("|") and len(line) > MOST_ROW:
            yield f"README.md:{number}: a row of {len(line)} characters, more than {MOST_ROW}"
    for name in crates:
        path = TOP / "crates" / name / "README.md"
        if not path.is_file():
            yield f"crates/{name}: no README.md"
        elif not path.read_text().startswith(f"# {name}\n"):
            yield f"crates/{name}/README.md: its first line isn't its name"
        elif len(path.read_bytes()) > MOST_CRATE:
            yield f"crates/{name}/README.md: {len(path.read_bytes())} bytes, more than {MOST_CRATE}"


def main():
    crates = {path.parent.name: Crate(path.parent) for path in sorted((TOP / "crates").glob("*/src"))}
    documents = [(path, None) for path in (TOP / "README.md", TOP / "examples" / "README.md")]
    documents += [(path, None) for path in sorted((TOP / "docs").glob("*.md"))]
    documents += [(path, path.parent.name) for path in sorted((TOP / "crates").glob("*/README.md"))]
    faults = list(size_faults(crates))
    for path, own in documents:
        faults += document_faults(path, own, crates)
    for fault in faults:
        print(fault)
    named = sum(len(SPAN.findall(line)) for path, _ in documents for _, line in prose(path.read_text()))
    print(f"documents: {len(documents)} documents, {named} spans, {len(faults)} faults")
    sys.exit(1 if faults or not crates else 0)


if __name__ == "__main__":
    main()

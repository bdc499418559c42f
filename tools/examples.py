#!/usr/bin/env python3
"""Runs every example of the documents and compares what it prints with what the document says.

    tools/examples.py [--program PATH] [FILE.md ..]

Without files: README.md, docs/*.md and examples/*.md, and then each program and input of examples/ must have been
used. The program is the proved one that `rt ci` or tools/prove made, unless another is given here or as FP2:
`FP2=$(tools/prove --unproved) tools/examples.py` runs them with a program without a proof.
Each document is run in a folder of its own that begins with a copy of examples/ and a link to tools/. Its blocks:

    ```fp NAME            a source, stored under that name
    ```text NAME          an input or another text, stored under that name
    ```console            lines after `$ ` are commands for sh; what follows, up to the next one, is what they print
    ```refused            a source, a line `--`, and what `fp2 check` prints of it
    ```change NAME        lines `- OLD` and `+ NEW` for a stored source, then what `fp2 check` prints of what comes out
    ```code NAME          a code file as hexadecimal digits, with comments from `#`; stored under that name
    ```excerpt PATH       lines that stand in that file of the repository, whatever their indentation; `..` stands for
                          lines that are left out

A block without a word is no example, and has no line that begins with `$ `; another word is an error.
Where a command is `fp2 exec SOURCE ENTRY --gauge < INPUT` and prints what it should, the program goes other ways as
well: its evaluation gives the same results; a code file, whose run prints the same; a derivation, which is audited; a
trace, whose cells are counted at both ends. Without files each program of examples/ must have gone these ways.
The status is 0 exactly where nothing differs.
"""
import argparse
import os
import pathlib
import re
import shlex
import shutil
import subprocess
import sys
import tempfile

sys.dont_write_bytecode = True
import building

TOP = pathlib.Path(__file__).resolve().parent.parent
SECONDS = 60
GAUGED = re.compile(r"(?:\./)?fp2 exec (\S+\.fp) (\w+) --gauge < (\S+)")


def blocks(text):
    """The fenced blocks of a document: number of the first line, words behind the fence, lines."""
    lines = text.splitlines()
    at = 0
    while at < len(lines):
        if lines[at].startswith("```"):
            start = at
            words = lines[at][3:].split()
            at += 1
            inside = []
            while at < len(lines) and lines[at] != "```":
                inside.append(lines[at])
                at += 1
            if at == len(lines):
                raise SystemExit(f"a block that begins on line {start + 1} has no end")
            yield start + 1, words, inside
        at += 1


class Document:
    """A document that is run in a folder: how many of its examples were run, and how many differ."""

    def __init__(self, path, program, folder):
        self.path = path
        self.folder = pathlib.Path(folder)
        self.run_count = 0
        self.differences = 0
        self.used = set()
        self.gone_other_ways = set()
        shutil.copytree(TOP / "examples", self.folder / "examples")
        (self.folder / "bin").mkdir()
        script = self.folder / "bin" / "fp2"
        script.write_text(f'#!/bin/sh\nexec {shlex.quote(program)} "$@"\n')
        script.chmod(0o755)
        (self.folder / "fp2").symlink_to(script)
        (self.folder / "tools").symlink_to(TOP / "tools")
        self.environment = dict(os.environ, PATH=f"{self.folder / 'bin'}:{os.environ['PATH']}", FP2=str(script))

    def fail(self, line, why):
        raise SystemExit(f"{self.path}:{line}: {why}")

    def differ(self, line, what, wanted, printed):
        self.differences += 1
        print(f"{self.path}:{line}: {what}")
        print("  wanted:  " + "\n           ".join(wanted))
        print("  printed: " + "\n           ".join(printed))

    def stored(self, name):
        path = self.folder / name
        return path if path.is_file() else self.folder / "examples" / name

    def printed(self, command):
        try:
            done = subprocess.run(
                ["sh", "-c", command],
                cwd=self.folder,
                env=self.environment,
                stdin=subprocess.DEVNULL,
                stdout=subprocess.PIPE,
                stderr=subprocess.STDOUT,
                timeout=SECONDS,
            )
            return done.stdout.decode("utf-8", "replace").splitlines()
        except subprocess.TimeoutExpired:
            return [f"(nothing within {SECONDS} seconds)"]

    def run(self, line, command, wanted):
        self.run_count += 1
        self.used.update(command.replace(";", " ").split())
        printed = self.printed(command)
        gauged = GAUGED.fullmatch(command)
        if printed != wanted:
            self.differ(line, command, wanted, printed)
        elif gauged:
            self.other_ways(line, *gauged.groups(), printed)

    def other_ways(self, line, source, entry, given, printed):
        """The same source, entry and input by an evaluation, a code file, a derivation and a trace."""
        self.gone_other_ways.add(source)
        roots = self.printed(f"fp2 check {source}")
        results = [text for text in printed if not text.startswith(("cells of ", "stack: ", "bound: "))]
        first, last = self.cell_counts(source, entry, given, results)
        for command, wanted in (
            (f"fp2 eval {source} {entry} < {given}", results),
            (f"fp2 compile {source} way.fpc", roots),
            ("fp2 verify way.fpc", roots),
            (f"fp2 run way.fpc {entry} --gauge < {given}", printed),
            (f"fp2 derive {source} way.proof", ["derived"]),
            (f"fp2 audit {source} way.proof", ["derived"]),
            (f"fp2 trace {source} {entry} way.trace < {given}", results),
            ("fp2 replay way.trace 0 | grep -c ^cell", [str(first)]),
            ("fp2 replay way.trace 1000000000000000000 | grep -c ^cell", [str(last)]),
        ):
            self.run(line, command, wanted)

    def cell_counts(self, source, entry, given, results):
        """How many cells there are before a run and after it: one for each bracket of the texts, and each credit."""
        head = re.search(rf"^(?:fip|fbip) (.*?)fun {entry}\((.*?)\):", self.stored(source).read_text(), re.M)
        values = [text.count("(") for text in self.stored(given).read_text().splitlines()]
        kept = [count for count, name in zip(values, head[2].split(", ")) if name.startswith("^")]
        return sum(values) + head[1].count("+"), sum(text.count("(") for text in results) + sum(kept)

    def console(self, line, inside):
        command, first, wanted = None, line, []
        for number, text in enumerate(inside + ["$ "], line + 1):
            if text.startswith("$ "):
                if command is not None:
                    self.run(first, command, wanted)
                command, first, wanted = text[2:], number, []
            elif command is None:
                self.fail(number, "output before a command")
            else:
                wanted.append(text)

    def refused(self, line, inside):
        if "--" not in inside:
            self.fail(line, "no line --")
        cut = inside.index("--")
        (self.folder / "refused.fp").write_text("\n".join(inside[:cut]) + "\n")
        self.run(line, "fp2 check refused.fp", inside[cut + 1 :])

    def change(self, line, name, inside):
        old = "\n".join(text[2:] for text in inside if text.startswith("- "))
        new = "\n".join(text[2:] for text in inside if text.startswith("+ "))
        wanted = [text for text in inside if not text.startswith(("- ", "+ "))]
        source = self.stored(name).read_text()
        if source.count(old) != 1:
            self.fail(line, f"`{old}` stands {source.count(old)} times in {name}")
        (self.folder / "changed.fp").write_text(source.replace(old, new))
        self.run(line, "fp2 check changed.fp", wanted)

    def code(self, name, inside):
        digits = "".join(text.split("#")[0] for text in inside)
        (self.folder / name).write_bytes(bytes.fromhex(digits))

    def excerpt(self, line, name, inside):
        self.run_count += 1
        there = [text.strip() for text in (TOP / name).read_text().splitlines()]
        at = 0
        for part in "\n".join(text.strip() for text in inside).split("\n..\n"):
            part = part.split("\n")
            starts = [start for start in range(at, len(there)) if there[start : start + len(part)] == part]
            if not starts:
                return self.differ(line, f"an excerpt of {name}", part, [f"not there behind line {at}"])
            at = starts[0] + len(part)

    def block(self, line, words, inside):
        kind, name = (words + [None, None])[:2]
        if kind is None:
            if any(text.startswith("$ ") for text in inside):
                self.fail(line, "commands in a block that isn't run")
        elif kind == "console":
            self.console(line, inside)
        elif kind == "refused":
            self.refused(line, inside)
        elif name is None:
            self.fail(line, f"a block {kind} without a name")
        elif kind in ("fp", "text"):
            (self.folder / name).write_text("".join(text + "\n" for text in inside))
        elif kind == "change":
            self.change(line, name, inside)
        elif kind == "code":
            self.code(name, inside)
        elif kind == "excerpt":
            self.excerpt(line, name, inside)
        else:
            self.fail(line, f"a block {kind}")


def run_document(path, program):
    with tempfile.TemporaryDirectory() as folder:
        document = Document(path, program, folder)
        for line, words, inside in blocks(path.read_text()):
            document.block(line, words, inside)
        return document


def forgotten_in(documents):
    """What is wrong of the programs and inputs of examples/: those that no command names, or that went one way alone."""
    used = {word for document in documents for word in document.used}
    ways = {source for document in documents for source in document.gone_other_ways}
    names = [path.name for path in sorted((TOP / "examples").iterdir()) if path.suffix in (".fp", ".txt")]
    return [f"examples/{name}: no document uses it" for name in names if f"examples/{name}" not in used] + [
        f"examples/{name}: no derivation, trace or code file of it" for name in names
        if name.endswith(".fp") and f"examples/{name}" not in ways]


def main():
    parser = argparse.ArgumentParser()
    parser.add_argument("--program")
    parser.add_argument("files", nargs="*", type=pathlib.Path)
    words = parser.parse_args()
    program = words.program or building.program_to_test()
    if program is None:
        sys.exit("examples: there is no proved program of these sources: rt ci or tools/prove makes it")
    if not os.access(program, os.X_OK):
        sys.exit(f"examples: {program} isn't there, or is no program")
    program = str(pathlib.Path(program).resolve())
    every = [TOP / "README.md", *sorted((TOP / "docs").glob("*.md")), *sorted((TOP / "examples").glob("*.md"))]
    documents = [run_document(path, program) for path in words.files or every]
    forgotten = [] if words.files else forgotten_in(documents)
    for text in forgotten:
        print(text)
    count = sum(document.run_count for document in documents)
    differences = sum(document.differences for document in documents)
    print(f"examples: {count} run, {differences} differ, by {program}")
    sys.exit(0 if count and not differences and not forgotten else 1)


if __name__ == "__main__":
    main()

#!/usr/bin/env python3
"""Puts 1 to 200 on the library's empty finger tree, with as many cells as `need` tells and with one fewer, and tries `plug`.

    tools/library_rows.py [--program PATH]

Each number is put in front by `cons`, which `eval` evaluates and `exec` runs. With as many spare cells as `need` tells,
the items come in order, the flag is True, and there are as many cells as before; with one fewer the sequence and the
cells come back as they were, with False. `cons` has no theorem. `plug` of the library's list gives the list of a zipper.

The program is the proved one that `rt ci` or tools/prove made, unless another is given here or as FP2. The status is 0
exactly where all is as it should be.
"""
import argparse
import os
import pathlib
import re
import subprocess
import sys
import tempfile

sys.dont_write_bytecode = True
import building

MOST = 200
SECONDS = 60
TOKEN = re.compile(r"[A-Z][A-Za-z0-9]*|-?[0-9]+|[(),]")


def value_of(text):
    """A value: a number, or the name of a constructor and its fields."""
    tokens = TOKEN.findall(text)

    def value(at):
        head = tokens[at]
        if not head[0].isalpha():
            return int(head), at + 1
        fields, at = [], at + 1
        if at < len(tokens) and tokens[at] == "(":
            while tokens[at] != ")":
                field, at = value(at + 1)
                fields.append(field)
            at += 1
        return (head, *fields), at
    return value(0)[0]


def items(value):
    """The first numbers of the nodes Item, from left to right."""
    if isinstance(value, int):
        return []
    return [value[1]] if value[0] == "Item" else [item for field in value[1:] for item in items(field)]


def cells(value):
    return 0 if isinstance(value, int) or len(value) == 1 else 1 + sum(map(cells, value[1:]))


class Library:
    """The texts of the library in a folder, and what the program makes of them."""

    def __init__(self, program, folder):
        self.program, self.folder, self.tried, self.wrong = program, folder, 0, 0
        for name in ("list", "finger"):
            text = self.answer(["library", name], "")
            (pathlib.Path(folder) / f"{name}.fp").write_text(text)

    def answer(self, words, text):
        ended = subprocess.run([self.program, *words], input=text, capture_output=True, text=True, cwd=self.folder,
                               timeout=SECONDS)
        return ended.stdout if ended.returncode == 0 else f"status {ended.returncode}: {ended.stderr}"

    def tries(self, what, got, wanted):
        self.tried += 1
        if got != wanted:
            self.wrong += 1
            print(f"library_rows: {what}: {got!r} in place of {wanted!r}")


def spares(n):
    return "Pad3(0, 0, " * n + "Done" + ")" * n


def put(library, command, number, sequence):
    """Tries a number before a sequence; the sequence that comes."""
    need = int(library.answer(["eval", "finger.fp", "need"], f"{sequence}\n"))
    fewer = spares(need - 1)
    given = library.answer([command, "finger.fp", "cons"], f"{number}\n{sequence}\n{fewer}\n")
    library.tries(f"{command} cons {number}, a cell too few", given, f"{sequence}\n{fewer}\nFalse\n")
    lines = library.answer([command, "finger.fp", "cons"], f"{number}\n{sequence}\n{spares(need)}\n").splitlines()
    if len(lines) != 3:
        library.tries(f"{command} cons {number}", lines, "three lines")
        return sequence
    new, left, flag = lines
    library.tries(f"{command} cons {number}, its flag", flag, "True")
    library.tries(f"{command} cons {number}, the items", items(value_of(new)), list(range(number, 0, -1)))
    library.tries(f"{command} cons {number}, the cells", cells(value_of(new)) + cells(value_of(left)),
                  cells(value_of(sequence)) + need)
    return new


def main():
    parser = argparse.ArgumentParser(description="Tries cons and plug of the library.")
    parser.add_argument("--program")
    program = parser.parse_args().program or building.program_to_test()
    if program is None or not os.access(program, os.X_OK):
        sys.exit("library_rows: there is no proved program of these sources: rt ci or tools/prove makes it")
    program = os.path.abspath(program)
    with tempfile.TemporaryDirectory() as folder:
        library = Library(program, folder)
        for command in ("eval", "exec"):
            sequence = "Empty"
            for number in range(1, MOST + 1):
                sequence = put(library, command, number, sequence)
            given = library.answer([command, "list.fp", "plug"], "Zip(Cons(2, Cons(1, Nil)), Cons(3, Nil))\n")
            library.tries(f"{command} plug", given, "Cons(1, Cons(2, Cons(3, Nil)))\n")
            given = library.answer([command, "finger.fp", "cons"], "7\nEmpty\nDone\n")
            library.tries(f"{command} cons without a cell", given, "Empty\nDone\nFalse\n")
        print(f"library_rows: {library.tried} answers, {library.wrong} wrong")
        return 1 if library.wrong else 0


if __name__ == "__main__":
    sys.exit(main())

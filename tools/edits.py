#!/usr/bin/env python3
"""Prints a table of all must-fail edits: what each turns, and, from the output of a gate or of `rt must-fail`, what refused it.

    tools/edits.py [LOG]
"""
import pathlib
import re
import sys

TOP = pathlib.Path(__file__).resolve().parent.parent


def refusals(log):
    found = {}
    for line in log.splitlines():
        matched = re.match(r"rt: must-fail (\S+)\.edit: refused, as it must be: (.*)", line)
        if matched:
            goal = re.search(r"\(?`([a-zA-Z_0-9.+-]+)`\)?", matched.group(2))
            found[matched.group(1)] = goal.group(1) if goal else ""
    return found


def main():
    found = refusals(pathlib.Path(sys.argv[1]).read_text()) if len(sys.argv) > 1 else {}
    print("| Crate | Edit | File | In place of | Stands | Refused at |")
    print("|---|---|---|---|---|---|")
    for path in sorted([*TOP.glob("crates/*/must-fail/*.edit"), *TOP.glob("crates/*/must-fail-further/*.edit")]):
        crate = path.parent.parent.name
        fields = {"file": [], "old": [], "new": []}
        for line in path.read_text().splitlines():
            kind, _, text = line.partition(": ")
            if kind.rstrip(":") in fields:
                fields[kind.rstrip(":")].append(text.strip().replace("|", "\\|"))
        name = path.stem
        cells = [crate, name.replace("_", " "), " ".join(fields["file"])]
        cells += ["`" + " .. ".join(fields[kind]) + "`" for kind in ("old", "new")]
        cells.append(found.get(f"{crate}/{name}", ""))
        print("| " + " | ".join(cells) + " |")


if __name__ == "__main__":
    main()

#!/usr/bin/env python3
"""Lists the places of the code that answer want of memory though no allocation was refused.

    tools/memory_answers.py           prints the places, and how many there are
    tools/memory_answers.py --check   besides, the status is 1 where they aren't those of memory_answers.txt
    tools/memory_answers.py --drop    takes the rows out of memory_answers.txt whose places are gone

An answer is an expression in src/ that gives want of memory (`NoMemory`, or a variant of that name). It isn't listed
where it hands on what a call answered: an arm whose pattern is want of memory, a `from`, or what is answered to the
failure of a call that can fail for want of memory alone. Of the repository's functions these are those whose error is
one of MEMORY_ERRORS (looked up by name, in the same crate first); of std's, those of ALLOCATING. A line of
memory_answers.txt is a function that is known to have such places: `CRATE/src/FILE FUNCTION COUNT: REASON`.
"""
import argparse
import bisect
import collections
import pathlib
import re
import sys

TOP = pathlib.Path(__file__).resolve().parent.parent
KNOWN = TOP / "tools" / "memory_answers.txt"
ALLOCATING = {"push", "push_str", "insert", "insert_full", "extend_from_slice", "from_slice", "from_str", "reserve",
              "format!"}
MEMORY_ERRORS = {"NoMemory", "AllocError", "AllocFailed"}
WANTS = {"NoMemory", "Memory", "OutOfMemory"}
METHODS = {"ok_or", "or", "map_err", "unwrap_or"}
TOKEN = re.compile(r"[A-Za-z_]\w*!?|\d\w*|::|=>|->|==|!=|<=|>=|&&|\|\||\S")
OPENERS, CLOSERS = "([{", ")]}"


def blanked(text):
    """The text with blanks for comments, literals, attributes, imports and clauses, each character at its place."""
    blank = lambda found: re.sub(r"[^\n]", " ", found.group())
    text = re.sub(r"//[^\n]*|b?\"(?:\\.|[^\"\\])*\"|b?'(?:\\.|[^'\\])'", blank, text)
    text = re.sub(r"#!?\[[^\]]*\]|\b(?:pub(?:\([^)]*\))? |ghost )?use\s[^;]*;", blank, text)
    clause = re.compile(r"\b(?:requires|ensures|ghost \w+)\b[^{};]*\{")
    found = clause.search(text)
    while found:
        at, deep = found.end(), 1
        while deep:
            deep += {"{": 1, "}": -1}.get(text[at], 0)
            at += 1
        text = text[: found.start()] + re.sub(r"[^\n]", " ", text[found.start() : at]) + text[at:]
        found = clause.search(text, at)
    return text


class Source:
    """A file of src/ as tokens, each bracket with its partner."""

    def __init__(self, path):
        self.path = path
        text = path.read_text()
        self.lines = [0] + [found.end() for found in re.finditer("\n", text)]
        found = list(TOKEN.finditer(blanked(text)))
        self.tokens, self.places = [it.group() for it in found], [it.start() for it in found]
        self.partner, waiting = {}, []
        for at, token in enumerate(self.tokens):
            if token in OPENERS:
                waiting.append(at)
            elif token in CLOSERS:
                self.partner[at] = waiting.pop()
                self.partner[self.partner[at]] = at

    def crate(self):
        return self.path.relative_to(TOP / "crates").parts[0]

    def line(self, at):
        return bisect.bisect_right(self.lines, self.places[at])

    def text(self, start, end):
        return " ".join(self.tokens[start:end])

    def walk(self, at):
        """The tokens before one, in the same bracket; a bracket counts as one, by its opener. Last the enclosing opener."""
        while at > 0:
            at -= 1
            at = self.partner[at] if self.tokens[at] in CLOSERS else at
            yield at
            if self.tokens[at] in OPENERS and self.partner[at] >= self.inner:
                return

    def outwards(self, at, stops):
        """The nearest token before one, in the same bracket, that is one of these, or the bracket's opener; -1 if none."""
        self.inner = at
        return next((it for it in self.walk(at) if self.tokens[it] in stops
                     or self.tokens[it] in OPENERS and self.partner[it] >= at), -1)

    def functions(self):
        """Each function: its name, and where its signature begins and ends."""
        for at, token in enumerate(self.tokens):
            if token == "fn" and re.match(r"[A-Za-z_]", self.tokens[at + 1]):
                end = at + 2
                while self.tokens[end] not in ("{", ";"):
                    end = self.partner.get(end, end) + 1
                yield self.tokens[at + 1], at, end

    def is_value(self, at):
        """Whether a name of want of memory is an expression: no type, no pattern, no declaration of a variant."""
        tokens = self.tokens
        behind, first = at + 1, at
        while tokens[behind] == ")":
            behind += 1
        while tokens[first - 1] == "::":
            first -= 2
        if tokens[behind] in ("=>", "|", "=") or tokens[behind] == "if":
            return False
        if tokens[first - 1] in ("<", ":", "->", "&", "struct", "for") or tokens[at + 1] in (">", "{"):
            return False
        opener = self.outwards(first, ())
        before = self.text(max(opener - 8, 0), opener)
        return not (tokens[opener] == "{" and re.search(r"\benum \w+(?: < [^;{}]*>)?$", before))


def errors_of(result):
    """The names in the error of a type `Result<.., E>`, by its tokens; none where it is another type."""
    if result[:1] != ["Result"]:
        return None
    deep, last = 0, []
    for token in result[1:]:
        deep += (token in "<([") - (token in ">)]")
        if deep == 0:
            break
        last = [] if deep == 1 and token == "," else [*last, token]
    return {it for it in last if re.match(r"[A-Z]", it)}


class Code:
    """All sources; and by the name of a function, and the crate, the errors that its results have."""

    def __init__(self):
        self.sources = [Source(it) for it in sorted(TOP.glob("crates/*/src/**/*.rt"))]
        self.errors = collections.defaultdict(lambda: collections.defaultdict(list))
        for source in self.sources:
            for name, start, end in source.functions():
                part = source.tokens[start:end]
                error = errors_of(part[part.index("->") + 1 :]) if "->" in part else None
                self.errors[name][source.crate()].append(error)

    def fails_for_memory(self, source, text):
        """Whether the last call of an expression can fail for want of memory alone: all functions of that name in the
        expression's crate do, or in all crates where it has none."""
        words, deep, called = text.split(), 0, None
        for before, token in zip(["", *words], words):
            if deep == 0 and token in OPENERS and re.match(r"[A-Za-z_]\w*!?$", before):
                called = before
            deep += (token in OPENERS) - (token in CLOSERS)
        crates = self.errors.get(called, {})
        found = crates.get(source.crate()) or [it for errors in crates.values() for it in errors]
        return called in ALLOCATING or bool(found) and all(it and it <= MEMORY_ERRORS for it in found)

    def answers(self):
        """Each answer: its source and place, its function, and what it answers; None where it hands on."""
        for source in self.sources:
            functions = list(source.functions())
            for at, token in enumerate(source.tokens):
                if token in WANTS and source.is_value(at):
                    name = next((name for name, start, _ in reversed(functions) if start < at), "-")
                    yield source, at, name, None if name == "from" else self.cause(source, at)

    def cause(self, source, at):
        """The nearest condition around an answer, as text; None where the answer hands on what a call answered."""
        while True:
            at = source.outwards(at, ("=>",))
            if at < 0:
                return "no condition"
            if source.tokens[at] == "=>":
                return self.of_arm(source, at)
            if source.tokens[at] == "(" and source.tokens[at - 1] in METHODS:
                start = source.outwards(at - 1, ("=", ";", ",", "=>", "return", "match", ":", "let"))
                text, method = source.text(start + 1, at - 2), source.tokens[at - 1]
                hands_on = method != "ok_or" and self.fails_for_memory(source, text)
                return None if hands_on else f"{text} . {method}"
            if source.tokens[at] == "{":
                found = self.of_block(source, at)
                if found is not NotImplemented:
                    return found

    def of_arm(self, source, arrow):
        start = arrow
        source.inner = arrow
        for at in source.walk(arrow):
            if source.tokens[at] == "," or source.tokens[at] in OPENERS and source.partner[at] >= arrow:
                break
            if source.tokens[at] == "{" and source.tokens[at - 1] == "=>":
                break
            start = at
        pattern = source.tokens[start:arrow]
        if any(it in WANTS for it in pattern):
            return None
        block = source.outwards(arrow, ())
        head = source.outwards(block, ("match",))
        text = source.text(head + 1, block)
        if pattern[0] == "Err" and self.fails_for_memory(source, self.held_by(source, head, text)):
            return None
        return f"match {text}: {' '.join(pattern)}"

    def of_block(self, source, brace):
        """The condition of a block: that of its `if`, `else`, `let .. else` or arm; NotImplemented where it has none."""
        tokens = source.tokens
        if tokens[brace - 1] == "=>":
            return self.of_arm(source, brace - 1)
        if tokens[brace - 1] == "else":
            start = source.outwards(brace - 1, ("let", "if", ";"))
            text = source.text(start + 1, brace - 1)
            if tokens[start] == "let":
                called = self.held_by(source, start, text.partition(" = ")[2])
                return None if self.fails_for_memory(source, called) else f"let {text} else"
            return f"if {text.partition(' {')[0]}: else"
        start = source.outwards(brace, ("if", "let", "fn", ";", "=>", "for", "while", "loop", "impl", "match"))
        if tokens[start] == "if":
            text = source.text(start + 1, brace)
            called = re.fullmatch(r"(.*) \. is_err \( \)", text)
            return None if called and self.fails_for_memory(source, called[1]) else f"if {text}"
        return "no condition" if tokens[start] == "fn" else NotImplemented

    def held_by(self, source, at, text):
        """The expression that a variable holds, by the nearest `let` of it before; the text itself if it is no name."""
        if not re.fullmatch(r"\w+", text):
            return text
        while at > 0 and source.tokens[at : at + 3] != ["let", text, "="]:
            at -= 1
        end = at
        while at > 0 and source.tokens[end] != ";":
            end = source.partner.get(end, end) + 1 if source.tokens[end] in OPENERS else end + 1
        return source.text(at + 3, end)


def known_places():
    """By file and function, how many places are known."""
    lines = KNOWN.read_text().splitlines() if KNOWN.is_file() else []
    rows = [line.partition(": ")[0].split() for line in lines if line and not line.startswith("#")]
    return {(path, name): int(count) for path, name, count in rows}


def drop(gone, found):
    """Writes memory_answers.txt anew, with as many places of these functions as there are."""
    lines = []
    for line in KNOWN.read_text().splitlines(True):
        head, colon, reason = line.partition(": ")
        key = tuple(head.split()[:2])
        if line.startswith("#") or key not in gone:
            lines.append(line)
        elif found[key]:
            lines.append(f"{key[0]} {key[1]} {len(found[key])}: {reason}")
    KNOWN.write_text("".join(lines))


def main():
    parser = argparse.ArgumentParser()
    parser.add_argument("--check", action="store_true")
    parser.add_argument("--drop", action="store_true")
    words = parser.parse_args()
    handed_on, found = 0, collections.defaultdict(list)
    for source, at, name, cause in Code().answers():
        if cause is None:
            handed_on += 1
        else:
            found[str(source.path.relative_to(TOP / "crates")), name].append((source.line(at), cause))
    known = known_places()
    new = [it for it in found if len(found[it]) > known.get(it, 0)]
    gone = [it for it in known if len(found[it]) < known[it]]
    for (path, name), places in sorted(found.items()):
        for line, cause in places if not words.check or (path, name) in new else ():
            print(f"{path}:{line}: {name}: {cause}")
    if words.drop:
        drop(gone, found)
        gone = []
    for path, name in new:
        print(f"more than tools/{KNOWN.name} knows: {path} {name} {len(found[path, name])}")
    for path, name in gone:
        print(f"fewer than tools/{KNOWN.name} knows (--drop mends it): {path} {name} {len(found[path, name])}")
    count = sum(map(len, found.values()))
    print(f"memory_answers: {count} answers of want of memory that no allocation gave, {handed_on} that are handed on; "
          f"{len(new)} functions have more than is known, {len(gone)} have fewer")
    sys.exit(1 if words.check and (new or gone) or not handed_on else 0)


if __name__ == "__main__":
    main()

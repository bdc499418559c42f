#!/usr/bin/env python3
"""Tries the files of editors/ on the programs of examples/ and of the library, and on those of two documents.

    tools/editors.py [--program PATH]

The documents are docs/RULES.md and docs/LANGUAGE.md. Each token of a program, as tools/explain cuts it, must have one
class in Vim and one in the TextMate grammar (a small reader of its patterns takes at each place the first that
matches), and it must be the class of that token. In Vim each program of examples/ and of the library must come out of
`=` as it is, the commentstring must be that of the language, and `:make` must go to the place of each refusal of the
documents. The status is 0 exactly where all of this is so; without Vim it is 1.
"""
import argparse
import importlib.machinery
import importlib.util
import json
import os
import pathlib
import re
import shutil
import subprocess
import sys
import tempfile

TOP = pathlib.Path(__file__).resolve().parent.parent
GRAMMAR = TOP / "editors" / "textmate" / "fp2.tmLanguage.json"
SETTINGS = TOP / "editors" / "textmate" / "language-configuration.json"
CLASSES = {
    "place": ("fp2Place", "storage.modifier.fp2"),
    "data": ("fp2Keyword", "storage.type.fp2"),
    "let": ("fp2Keyword", "keyword.control.fp2"),
    "if": ("fp2Conditional", "keyword.control.fp2"),
    "type": ("fp2Type", "support.type.fp2"),
    "upper": ("fp2Constructor", "entity.name.tag.fp2"),
    "function": ("fp2Function", "entity.name.function.fp2"),
    "int": ("fp2Number", "constant.numeric.fp2"),
    "operator": ("fp2Operator", "keyword.operator.fp2"),
    "blank": ("fp2Blank", "variable.language.fp2"),
    "comment": ("fp2Comment", "comment.line.double-slash.fp2"),
    "other": ("", ""),
}
WORDS = {"fip": "place", "fbip": "place", "data": "data", "fun": "data", "let": "let", "match": "let", "match!": "let"}
WORDS.update({"if": "if", "else": "if", "int": "type", "bool": "type", "_": "blank"})
# Vim: at each byte of each line the name of the class; then the text as `=` makes it, and the settings.
SCRIPT = """
let result = {}
for name in split($FP2_FILES, "\\n")
  execute "edit! " . fnameescape(name)
  let rows = []
  for lnum in range(1, line("$"))
    call add(rows, map(range(1, len(getline(lnum))), 'synIDattr(synID(lnum, v:val, 1), "name")'))
  endfor
  let one = {"rows": rows, "comment": &commentstring}
  silent normal! gg=G
  let one.text = getline(1, "$")
  silent edit!
  silent make!
  let one.places = map(getqflist(), '[v:val.type, v:val.lnum, v:val.col, v:val.text]')
  let result[name] = one
endfor
call writefile([json_encode(result)], $FP2_OUT)
qall!
"""


def explain_module():
    loader = importlib.machinery.SourceFileLoader("explain", str(TOP / "tools" / "explain"))
    module = importlib.util.module_from_spec(importlib.util.spec_from_loader("explain", loader))
    loader.exec_module(module)
    return module


def wanted_classes(explain, text):
    """Each piece of a program and its class: begin, end and a key of CLASSES; comments among them."""
    found, at = [], 0
    while at < len(text):
        match = explain.TOKEN.match(text, at)
        kind, word = match.lastgroup, match.group()
        if kind == "blank" and word.startswith("//"):
            found.append((at, match.end(), "comment"))
        elif word in WORDS:
            found.append((at, match.end(), WORDS[word]))
        elif kind in ("upper", "int"):
            found.append((at, match.end(), kind))
        elif kind == "lower":
            is_function = re.match(r"[ \t]*[\[(]", text[match.end() :])
            found.append((at, match.end(), "function" if is_function else "other"))
        elif kind == "sign":
            found.append((at, match.end(), "other" if word in "()[]{},;:" else "operator"))
        at = match.end()
    return found


def textmate(grammar, line):
    """The classes of a line, byte by byte, and the pieces, by a grammar of single patterns."""
    patterns = [(pattern["name"], re.compile(pattern["match"])) for pattern in grammar["patterns"]]
    names, pieces, at = [""] * len(line), [], 0
    while at < len(line):
        found = [(hit.start(), number) for number, (_, each) in enumerate(patterns) if (hit := each.search(line, at))]
        found = [(begin, number) for begin, number in found if patterns[number][1].match(line, begin).end() > begin]
        if not found:
            break
        begin, number = min(found)
        end = patterns[number][1].match(line, begin).end()
        names[begin:end] = [patterns[number][0]] * (end - begin)
        pieces.append((begin, end))
        at = end
    return names, pieces


def compare(name, text, pieces, rows, which, cuts=None):
    """What differs: rows has the class of each byte, line by line; cuts the pieces of each line."""
    starts = [0] + [at + 1 for at, sign in enumerate(text) if sign == "\n"]
    for begin, end, kind in pieces:
        line = text.count("\n", 0, begin)
        first, last = begin - starts[line], end - starts[line]
        wanted = CLASSES[kind][which]
        seen = set(rows[line][first:last])
        if seen != {wanted}:
            yield f"{name}:{line + 1}:{first + 1}: `{text[begin:end]}` is {sorted(seen)}, not {wanted!r}"
        elif wanted and cuts is not None and (first, last) not in cuts[line]:
            yield f"{name}:{line + 1}:{first + 1}: `{text[begin:end]}` isn't one piece"


def sources(folder, program):
    """The programs to try, by path, and whether they are of examples/ or of the library."""
    every = {path: True for path in sorted((TOP / "examples").glob("*.fp"))}
    for name in ("list", "tree", "rbtree", "finger"):
        path = pathlib.Path(folder) / f"{name}.fp"
        path.write_bytes(subprocess.run([program, "library", name], stdout=subprocess.PIPE, check=True).stdout)
        every[path] = True
    for document in ("RULES", "LANGUAGE"):
        text = (TOP / "docs" / f"{document}.md").read_text()
        for number, (kind, inside) in enumerate(re.findall(r"(?ms)^```(fp|refused)[^\n]*\n(.*?)^```$", text)):
            path = pathlib.Path(folder) / f"{document}{number}.fp"
            path.write_text(inside.partition("--\n")[0] if kind == "refused" else inside)
            every[path] = False
    return every


def refusal(path, program):
    """What `fp2 check` prints of a program that it refuses; empty where it is accepted."""
    return subprocess.run([program, "check", str(path)], capture_output=True).stderr.decode().strip()


def run_vim(paths, folder, program):
    script, out = pathlib.Path(folder) / "try.vim", pathlib.Path(folder) / "out.json"
    script.write_text(SCRIPT)
    start = f"set runtimepath^={TOP / 'editors' / 'vim'} | filetype plugin indent on | syntax on"
    words = ["vim", "-es", "-N", "-u", "NONE", "-i", "NONE", "-c", start, "-S", str(script)]
    environment = dict(os.environ, FP2=program, FP2_FILES="\n".join(map(str, paths)), FP2_OUT=str(out))
    subprocess.run(words, env=environment, stdin=subprocess.DEVNULL, stdout=subprocess.DEVNULL, timeout=600)
    if not out.is_file():
        sys.exit("editors: Vim gave no answer")
    return json.loads(out.read_text())


def vim_faults(explain, every, folder, program):
    answers = run_vim(list(every), folder, program)
    for path, is_kept in every.items():
        text, one = path.read_text(), answers[str(path)]
        try:
            yield from compare(path.name, text, wanted_classes(explain, text), one["rows"], 0)
        except AttributeError:
            pass
        if one["comment"] != "// %s":
            yield f"{path.name}: the commentstring is {one['comment']!r}"
        if is_kept and one["text"] != text.split("\n")[:-1]:
            rows = zip(one["text"], text.split("\n"))
            number = next(number for number, (new, old) in enumerate(rows, 1) if new != old)
            yield f"{path.name}:{number}: `=` changes the line to {one['text'][number - 1]!r}"
        place = re.match(r"(E\d\d) at (\d+):(\d+)", refusal(path, program))
        wanted = [place.group(1), int(place.group(2)), int(place.group(3))] if place else None
        errors = [[text[:3], line, column] for kind, line, column, text in one["places"] if kind == "e"]
        if errors != ([wanted] if wanted else []):
            yield f"{path.name}: :make goes to {errors}, not {wanted}"


def textmate_faults(explain, every):
    grammar = json.loads(GRAMMAR.read_text())
    settings = json.loads(SETTINGS.read_text())
    if settings["comments"]["lineComment"] != "//" or GRAMMAR.read_text().count("fp2") < 11:
        yield "the settings aren't those of the language"
    for path in every:
        text = path.read_text()
        lines = [textmate(grammar, line) for line in text.split("\n")]
        try:
            pieces = wanted_classes(explain, text)
        except AttributeError:
            continue
        yield from compare(path.name, text, pieces, [names for names, _ in lines], 1, [cuts for _, cuts in lines])


def main():
    parser = argparse.ArgumentParser()
    parser.add_argument("--program", default=str(TOP / "crates" / "fip_cli" / "out" / "fip_cli"))
    program = str(pathlib.Path(parser.parse_args().program).resolve())
    if not os.access(program, os.X_OK):
        sys.exit(f"editors: {program} isn't there: ./fp2 or rt ci builds it")
    if not shutil.which("vim"):
        sys.exit("editors: vim isn't there")
    explain = explain_module()
    with tempfile.TemporaryDirectory() as folder:
        every = sources(folder, program)
        faults = list(textmate_faults(explain, every)) + list(vim_faults(explain, every, folder, program))
        tokens = bangs = refused = 0
        for path in every:
            text = path.read_text()
            refused += bool(refusal(path, program))
            bangs += text.count("match!")
            try:
                tokens += len(wanted_classes(explain, text))
            except AttributeError:
                pass
    for fault in faults:
        print(fault)
    counts = f"{len(every)} programs, {tokens} tokens, {bangs} times match!, {refused} refusals"
    print(f"editors: {counts}, {len(faults)} faults")
    sys.exit(1 if faults or not bangs or not refused else 0)


if __name__ == "__main__":
    main()

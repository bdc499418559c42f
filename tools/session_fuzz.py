#!/usr/bin/env python3
"""Compares the replies of `session` with those of a reference, on random lines over many programs.

    tools/session_fuzz.py --program PROGRAM --reference PROGRAM [--programs N] [--lines N] [--seed N]

Both are called as `PROGRAM session FILE --words .. --calls .. --frames ..` with the lines as input. The programs are those of
examples/ and of templates whose types, names and fields are drawn. A line that is refused leaves the session as it was, and one that
needs cells says how many words are left, so that a cell that stays or goes wrongly shows in a later reply. The last line says how many
lines were compared and how many replies differ; the status is 1 where one does.
"""
import argparse
import collections
import concurrent.futures
import pathlib
import random
import re
import subprocess
import sys
import tempfile

TOP = pathlib.Path(__file__).resolve().parent.parent
NAMES = ["a", "b", "c", "d", "xs", "ys", "n", "m", "r1", "x_Y"]
BAD_LINES = ["", " ", "?", "-", "- 5", "?A", "?a b", "? match", "-int", "let = f()", "a =", "a, = f()", "a == f()", "_ = f()", "\xe9"]
FUNCTION = re.compile(r"^(fip|fbip)[^(\n]*?\bfun\s+(\w+)\s*\(([^)]*)\)\s*:\s*(\([^)]*\)|\w+)", re.M)
KIND = re.compile(rb"bad line|no name|no entry|wrong number|bad argument|bad result|store too small|trap|out of calls|out of frames|ok")
DATA = re.compile(r"^data\s+(\w+)\s*\{([^}]*)\}", re.M)

Function = collections.namedtuple("Function", "name params results")   # params: (type, whether it is lent)


# ---- programs

def drawn_program(rng):
    """A program of a list-like type of drawn fields, a pair of lists, and functions that move, drop, borrow, trap, recurse and loop."""
    fields = [rng.choice(["int", "bool", "color"]) for _ in range(rng.randrange(4))]
    at = rng.randrange(len(fields) + 1)
    shape = fields[:at] + ["list"] + fields[at:]
    names = [f"x{i}" for i in range(len(shape))]
    item = ", ".join(names)
    tail = names[at]
    again = ", ".join("acc" if i == at else n for i, n in enumerate(names))
    longer = ", ".join(f"t{n}" if i == at else n for i, n in enumerate(names))
    wide = rng.choice([2, 3, 5, 16])
    parts = [
        "data color { Red; Green; Blue }",
        f"data list {{ End; Item({', '.join(shape)}) }}",
        "data two { Two(list, list) }",
        f"data box {{ Box({', '.join(['int'] * wide)}) }}",
        f"fip fun turn(xs: list, acc: list): list {{ match! xs {{ End -> acc; Item({item}) -> turn({tail}, Item({again})) }} }}",
        "fip fun pair(xs: list, ys: list): (list, list) { (ys, xs) }",
        f"fip +{wide} fun boxed(n: int): box {{ Box({', '.join(['n'] * wide)}) }}",
        "fip +2 fun both(xs: list, ys: list): two { Two(xs, ys) }",
        "fbip fun first(p: two): list { match! p { Two(xs, _) -> xs } }",
        "fbip fun drop(xs: list, n: int): int { n }",
        f"fip fun size(^xs: list, n: int): int {{ match xs {{ End -> n; Item({item}) -> size({tail}, n + 1) }} }}",
        "fbip fun swap(^xs: list, ys: list, n: int): (int, list) { let k = size(xs, 0); (k / n, ys) }",
        f"fbip fun deep(xs: list): list {{ match! xs {{ End -> End; Item({item}) -> let t{tail} = deep({tail}); Item({longer}) }} }}",
        "fbip fun spin(n: int, xs: list): list { if n < 1 { xs } else { spin(n - 1, xs) } }",
        "fip fun shade(c: color, b: bool, n: int): (color, int) { match c { Red -> (Green, n + 1); _ -> (c, n * n) } }",
    ]
    kept = parts[:5] + [p for p in parts[5:] if rng.random() < 0.8 or "fun size" in p]
    return "\n".join(kept) + "\n"


def programs(rng, count):
    texts = [p.read_text() for p in sorted((TOP / "examples").glob("*.fp"))]
    texts = [t for t in texts if FUNCTION.search(t)][:count]
    return texts + [drawn_program(rng) for _ in range(count - len(texts))]


def types_in(text):
    types = {"bool": [("False", []), ("True", [])]}
    for name, body in DATA.findall(re.sub(r"//.*", "", text)):
        shapes = []
        for part in filter(None, (p.strip() for p in body.split(";"))):
            head, _, fields = part.partition("(")
            shapes.append((head.strip(), [f.strip() for f in fields.rstrip(") ").split(",") if f.strip()]))
        types[name] = shapes
    return types


def functions_in(text):
    found = []
    for _, name, params, results in FUNCTION.findall(text):
        taken = []
        for param in filter(None, (p.strip() for p in params.split(","))):
            lent = param.startswith("^")
            taken.append((param.partition(":")[2].strip(), lent))
        given = [r.strip() for r in results.strip("()").split(",")]
        if all(re.fullmatch(r"\w+", t) for t, _ in taken) and all(re.fullmatch(r"\w+", t) for t in given):
            found.append(Function(name, taken, given))
    return found


# ---- lines

class Talk:
    """Draws lines, with a guess of what is held."""

    def __init__(self, rng, text):
        self.rng = rng
        self.types = types_in(text)
        self.functions = functions_in(text)
        self.held = {}

    def is_scalar(self, ty):
        return ty == "int" or (ty in self.types and all(not fields for _, fields in self.types[ty]))

    def value(self, ty, size):
        if ty == "int" or ty not in self.types:
            return str(self.rng.choice([0, 1, 2, 3, -1, 7, 1000] * 8 + [2 ** 63 - 1, -2 ** 63, 2 ** 63]))
        shapes = self.types[ty]
        if size <= 0:
            shapes = sorted(shapes, key=lambda s: len(s[1]))[:1]
        name, fields = self.rng.choice(shapes)
        if not fields:
            return name
        return name + "(" + ", ".join(self.value(f, size - 1) for f in fields) + ")"

    def argument(self, ty, used):
        near = [n for n, t in self.held.items() if t == ty and n not in used]
        if near and self.rng.random() < 0.6:
            return self.rng.choice(near)
        if self.rng.random() < 0.02:
            return self.rng.choice(NAMES)
        return self.value(ty, self.rng.choice([0, 1, 2, 4, 8]))

    def call(self):
        rng = self.rng
        function = rng.choice(self.functions)
        used, arguments = set(), []
        for ty, _ in function.params:
            argument = self.argument(ty, used)
            if not self.is_scalar(ty) and rng.random() < 0.95:
                used.add(argument)
            arguments.append(argument)
        gone = {a for a, (ty, lent) in zip(arguments, function.params) if a in self.held and not lent and not self.is_scalar(ty)}
        results = []
        for _ in function.results:
            free = [n for n in NAMES if (n not in self.held or n in gone) and n not in results]
            results.append(rng.choice(free if free and rng.random() < 0.94 else NAMES))
        if rng.random() < 0.03:
            arguments = arguments[:-1] if rng.random() < 0.5 else arguments + ["1"]
        if rng.random() < 0.03:
            results = results[:-1] or ["a", "b"]
        for name in gone:
            self.held.pop(name, None)
        self.held.update(zip(results, function.results))
        entry = function.name if rng.random() < 0.97 else rng.choice(["nope", "f", "Nil", "fun"])
        return ", ".join(results) + " = " + entry + "(" + ", ".join(arguments) + ")"

    def line(self):
        rng = self.rng
        drawn = rng.random()
        names = list(self.held) * 3 + NAMES
        if drawn < 0.2:
            line = "?" + rng.choice(names)
        elif drawn < (0.32 if len(self.held) < 8 else 0.55):
            name = rng.choice(names)
            self.held.pop(name, None)
            line = "- " + name
        elif drawn < 0.97 and self.functions:
            line = self.call()
        else:
            line = rng.choice(BAD_LINES)
        if rng.random() < 0.04:
            at = rng.randrange(len(line) + 1)
            line = line[:at] + rng.choice([" ", "\t", "\r", "(", ")", ",", "=", "x", "0", "_", "\xff"]) + line[at + rng.randrange(2):]
        return line.replace("\n", " ")


# ---- both sides

def answers(program, source, options, lines):
    command = [program, "session", str(source), *options]
    ran = subprocess.run(command, input=lines, capture_output=True, check=False)
    return ran.returncode, ran.stdout.split(b"\n"), ran.stderr


def compare(args, folder, number, text, seed):
    """The numbers of lines and of differences of one program; what differs first is printed."""
    rng = random.Random(seed)
    talk = Talk(rng, text)
    lines = [talk.line() for _ in range(args.lines)]
    words, calls, frames = rng.choice([0, 12, 60, 200, 200, 1000, 5000]), rng.choice([0, 3, 10, 1000, 1000, 1000]), rng.choice([0, 1, 3, 1000])
    options = ["--words", str(words), "--calls", str(calls), "--frames", str(frames)]
    source = folder / f"p{number}.fp"
    source.write_text(text)
    asked = "\n".join(lines).encode("latin-1") + rng.choice([b"", b"\n"])
    ours = answers(args.program, source, options, asked)
    theirs = answers(args.reference, source, options, asked)
    different = sum(a != b for a, b in zip(ours[1], theirs[1])) + abs(len(ours[1]) - len(theirs[1]))
    different += (ours[0], ours[2]) != (theirs[0], theirs[2])
    if different:
        pairs = zip(lines + [""] * len(ours[1]), ours[1], theirs[1])
        at, (line, a, b) = next(((i, p) for i, p in enumerate(pairs) if p[1] != p[2]), (0, ("", ours[2], theirs[2])))
        print(f"program {number}, {' '.join(options)}, line {at + 1}: {line!r}\n  {a!r}\n  {b!r}\n{text}", file=sys.stderr)
    kinds = collections.Counter((KIND.match(reply) or [b"value"])[0] for reply in ours[1] if reply)
    return len(ours[1]) - 1, different, kinds


def main():
    parser = argparse.ArgumentParser(description=__doc__.splitlines()[0])
    parser.add_argument("--program", required=True)
    parser.add_argument("--reference", required=True)
    parser.add_argument("--programs", type=int, default=200)
    parser.add_argument("--lines", type=int, default=500, help="of each program")
    parser.add_argument("--seed", type=int, default=1)
    parser.add_argument("--jobs", type=int, default=1)
    args = parser.parse_args()
    rng = random.Random(args.seed)
    lines, different, kinds = 0, 0, collections.Counter()
    with tempfile.TemporaryDirectory() as folder, concurrent.futures.ThreadPoolExecutor(args.jobs) as pool:
        texts = programs(rng, args.programs)
        runs = [pool.submit(compare, args, pathlib.Path(folder), n, t, args.seed * 1000003 + n) for n, t in enumerate(texts)]
        for run in runs:
            more, worse, seen = run.result()
            lines, different, kinds = lines + more, different + worse, kinds + seen
    print(", ".join(f"{kind.decode()}: {count}" for kind, count in kinds.most_common()))
    print(f"{lines} replies over {args.programs} programs, {different} differ")
    return 1 if different else 0


if __name__ == "__main__":
    sys.exit(main())

#!/usr/bin/env python3
"""Writes conformance/cases.txt, or tries a program on it: runs of codes and verdicts on codes, for other machines.

    tools/conformance.py [--program PATH] --write      writes the cases, with what the program answers
    tools/conformance.py [--program PATH]              says in which cases the program answers something else

The program is the proved one, or PATH; conformance/README.md has the format. The codes are those of examples/ and of
two small sources below. Inputs are values of the parameters' types by a fixed random series, and texts that are nearly
such; the codes of verdicts are edited, half of them where a function's kind or an instruction stands.
"""
import argparse
import concurrent.futures
import os
import pathlib
import random
import subprocess
import sys
import tempfile

sys.dont_write_bytecode = True
import building

TOP = pathlib.Path(__file__).resolve().parent.parent
CASES = TOP / "conformance/cases.txt"
RUNS, VERDICTS = 1000, 1000
# Of these codes there are also some without one of their instructions, of which verdicts are written.
SHORTENED, SHORTENED_OF_EACH = ("rev", "traps", "frames"), 16
BYTES_A_LINE = 60
# The operands of the instructions from 01 on: a number for that many bytes, s and l for lists of registers with a count
# of one byte and of two.
OPERANDS = ("28", "224", "22", "2122" + "44", "244", "284", "221", "2s", "224s", "2", "2", "4ls", "4l", "s", "4")


# Sources for ends that the examples don't come to: traps, frames that are used up, cells that are released.
SOURCES = {
    "traps": """data ints { Nil; Cons(int, ints) }
fip fun ratio(a: int, b: int): int { a / b + a % b }
fip fun power(a: int, n: int): int { if n < 1 { a } else { power(a * a, n - 1) } }
fbip fun ratios(xs: ints, a: int): ints {
  match! xs { Nil -> Nil; Cons(x, t) -> Cons(a / x, ratios(t, a)) }
}
""",
    "frames": """data ints { Nil; Cons(int, ints) }
data tree { Leaf; Node(tree, int, tree) }
fbip fun inc(xs: ints): ints { match! xs { Nil -> Nil; Cons(x, t) -> Cons(x + 1, inc(t)) } }
fbip fun sum(xs: ints): int { match! xs { Nil -> 0; Cons(x, t) -> x + sum(t) } }
fbip fun depth(^t: tree): int {
  match t { Leaf -> 0; Node(l, _, r) -> let a = depth(l); let b = depth(r); if a < b { b + 1 } else { a + 1 } }
}
fbip fun prune(t: tree, n: int): tree {
  match! t { Leaf -> Leaf; Node(l, k, r) -> if k < n { Leaf } else { Node(prune(l, n), k, prune(r, n)) } }
}
""",
}


class Reader:
    """The bytes of a code file, read from the front, and where kinds of functions and instructions stand."""

    def __init__(self, data):
        self.data, self.at, self.marks, self.instructions = data, 0, [], []

    def number(self, size):
        """A number of so many bytes."""
        self.at += size
        return int.from_bytes(self.data[self.at - size : self.at], "big")

    def numbers(self, count_size, size):
        """A count, and as many numbers."""
        return [self.number(size) for _ in range(self.number(count_size))]

    def name(self):
        """A name."""
        length = self.number(4)
        self.at += length
        return self.data[self.at - length : self.at].decode()

    def skip_kind(self):
        """A register's kind at a label."""
        op = self.number(1)
        if op in (1, 2):
            self.number(2)
            self.numbers(2, 4)
        self.at += {2: 5, 3: 2, 4: 1}.get(op, 0)

    def skip_body(self, registers):
        """A function's instructions and labels."""
        counted = self.at
        for _ in range(self.number(4)):
            start = self.at
            self.marks.append(start)
            for operand in OPERANDS[self.number(1) - 1]:
                if operand in "sl":
                    self.numbers(1 if operand == "s" else 2, 2)
                else:
                    self.at += int(operand)
            self.instructions.append((counted, start, self.at))
        for _ in range(self.number(4)):
            self.at += 4
            for _ in range(registers):
                self.skip_kind()


def read_code(data):
    """The types of a code file, each a list of constructors with their fields' types, its named functions, its marks,
    and for each instruction where its function's count of them stands, where it begins and ends."""
    it = Reader(data)
    it.at = 6
    types = [[(it.name(), it.numbers(1, 2)) for _ in range(it.number(4))] for _ in range(it.number(2))]
    functions = []
    for _ in range(it.number(2)):
        it.marks.append(it.at)
        it.at += 1
        name = it.name()
        params = [(it.number(1), it.number(2))[1] for _ in range(it.number(2))]
        it.numbers(1, 1)
        it.numbers(1, 2)
        it.skip_body(it.number(2))
        if name:
            functions.append((name, params))
    return types, functions, it.marks, it.instructions


def shortened(data, instruction):
    """A code file without one of its instructions."""
    counted, start, end = instruction
    count = int.from_bytes(data[counted : counted + 4], "big") - 1
    return data[:counted] + count.to_bytes(4, "big") + data[counted + 4 : start] + data[end:]


def value(rng, types, number, depth):
    """The text of a random value of a type."""
    if number == 0:
        return str(rng.choice((0, 1, 2, 3, 5, 7, 10, 50, -1, 2**63 - 1, rng.randrange(-99, 1000))))
    choices = types[number - 1]
    if depth <= 0:
        least = min(len(fields) for _, fields in choices)
        choices = [it for it in choices if len(it[1]) == least]
    name, fields = rng.choice(choices)
    if not fields:
        return name
    return f"{name}({', '.join(value(rng, types, it, depth - 1) for it in fields)})"


def text_of(rng, types, params):
    """The text of random arguments, or None where the values don't end soon."""
    try:
        return "".join(value(rng, types, it, rng.randrange(1, 6)) + "\n" for it in params)
    except RecursionError:
        return None


def spoilt(rng, text):
    """A text with one byte changed, left out or put in."""
    if not text:
        return "?"
    at, byte = rng.randrange(len(text)), rng.choice("(),- \nACN09z")
    return rng.choice((text[:at] + text[at + 1 :], text[:at] + byte + text[at + 1 :], text[:at] + byte + text[at:]))


class Machine:
    """The program that is asked."""

    def __init__(self, program, folder):
        self.program, self.folder, self.paths = program, folder, {}

    def ask(self, words, data=b""):
        """The status and the text of a command: on standard output, or where it is refused on standard error."""
        ran = subprocess.run([self.program, *words], input=data, capture_output=True, timeout=120, check=False)
        return ran.returncode, (ran.stderr if ran.returncode else ran.stdout).decode()

    def path(self, data):
        """The path of a file with these bytes."""
        if data not in self.paths:
            self.paths[data] = f"{self.folder}/{len(self.paths)}.code"
            pathlib.Path(self.paths[data]).write_bytes(data)
        return self.paths[data]

    def run(self, data, case):
        """The status and text of a run."""
        options = [f"--{it}" if isinstance(it, str) else str(it) for pair in case["room"] for it in pair]
        words = ["run", self.path(data), case["entry"], "--gauge", *options]
        return self.ask(words, case["input"].encode())

    def verdict(self, data):
        """What `verify` says of a code: `sound`, or its line."""
        status, text = self.ask(["verify", self.path(data)])
        return text.strip() if status else "sound"


def codes_of(machine):
    """The codes by name."""
    sources = {it.stem: it for it in sorted((TOP / "examples").glob("*.fp"))}
    for name, text in SOURCES.items():
        sources[name] = pathlib.Path(machine.folder) / f"{name}.fp"
        sources[name].write_text(text)
    found = {}
    for name, path in sources.items():
        made = f"{machine.folder}/{name}.code"
        status, text = machine.ask(["compile", str(path), made])
        if status == 0:
            found[name] = pathlib.Path(made).read_bytes()
        elif name in SOURCES:
            raise SystemExit(f"{name}: {text}")
    return found


def codes_shortened(codes):
    """The codes that lack an instruction, by name."""
    found = {}
    for name in SHORTENED:
        instructions = read_code(codes[name])[3]
        step = max(1, len(instructions) // SHORTENED_OF_EACH)
        for number, instruction in list(enumerate(instructions))[::step]:
            found[f"{name}_without_{number}"] = shortened(codes[name], instruction)
    return found


def rooms(rng, kind):
    """Calls, frames and words of a run: ample, or one of them scarce."""
    calls, frames, words = 100000, 1000, 4096
    if kind == 1:
        words = rng.randrange(0, 40)
    if kind == 2:
        calls = rng.randrange(0, 12)
    if kind == 3:
        frames = rng.randrange(0, 4)
    return (("calls", calls), ("frames", frames), ("words", words))


def run_cases(rng, codes):
    """Runs, without what they come to."""
    named = [(code, *read_code(data)[:2]) for code, data in codes.items()]
    named = [(code, types, function) for code, types, functions in named for function in functions]
    named += 3 * [it for it in named if it[0] in SOURCES]
    cases = []
    while len(cases) < RUNS:
        code, types, (entry, params) = named[len(cases) % len(named)]
        text = text_of(rng, types, params)
        if text is None or len(text) > 2000:
            continue
        if rng.randrange(8) == 0:
            text = spoilt(rng, text)
        kind = rng.choice((0, 3) if code == "frames" else (0, 0, 0, 1, 2, 3))
        cases.append({"code": code, "entry": entry, "room": rooms(rng, kind), "input": text})
    return cases


def edits(rng, data, marks):
    """Places with new bytes, and the length that is left."""
    at = rng.choice(marks) + rng.choice((0, 0, 2, 4)) if marks and rng.randrange(2) else rng.randrange(len(data))
    places = [(min(at, len(data) - 1), rng.choice((0, 1, 2, 3, 4, 5, 255, rng.randrange(256))))]
    while rng.randrange(4) == 0:
        places.append((min(places[-1][0] + rng.randrange(1, 4), len(data) - 1), rng.randrange(6)))
    return places, rng.randrange(len(data)) if rng.randrange(25) == 0 else len(data)


def edited(data, places, length):
    """The bytes with these edits."""
    made = bytearray(data)
    for at, byte in places:
        made[at] = byte
    return bytes(made[:length])


def verdict_cases(rng, codes, less):
    """Edited codes, without what is said of them."""
    names, marks = sorted(codes), {name: read_code(data)[2] for name, data in codes.items()}
    cases = [{"code": name, "places": [], "length": len(data)} for name, data in (codes | less).items()]
    while len(cases) < VERDICTS:
        name = names[len(cases) % len(names)]
        places, length = edits(rng, codes[name], marks[name])
        cases.append({"code": name, "places": places, "length": length})
    return cases


def written(codes, runs, verdicts):
    """The text of the cases."""
    rows = []
    for name, data in codes.items():
        digits = data.hex()
        rows.append(f"code {name} {len(data)}\n")
        rows += [f"{digits[at : at + 2 * BYTES_A_LINE]}\n" for at in range(0, len(digits), 2 * BYTES_A_LINE)]
    for number, case in enumerate(runs, 1):
        room = " ".join(f"{word} {count}" for word, count in case["room"])
        rows.append(f"run {number} of {case['code']} entry {case['entry']} {room}\n")
        rows.append(f"input {len(case['input'])}\n{case['input']}\n")
        rows.append(f"status {case['status']} text {len(case['text'])}\n{case['text']}\n")
    for number, case in enumerate(verdicts, 1):
        rows.append(f"verdict {number} of {case['code']} length {case['length']} edits {len(case['places'])}\n")
        rows += [f"{at} {byte}\n" for at, byte in case["places"]]
        rows.append(f"{case['said']}\n")
    return "".join(rows) + "end\n"


class Cases:
    """The text of the cases, read line by line and text by text."""

    def __init__(self, text):
        self.text, self.at = text, 0

    def line(self):
        """The words of the next line."""
        end = self.text.index("\n", self.at)
        words, self.at = self.text[self.at : end].split(), end + 1
        return words

    def block(self, length):
        """A text of so many bytes, and the end of line behind it."""
        found = self.text[self.at : self.at + length]
        self.at += length + 1
        return found


def read_cases(text):
    """The codes, runs and verdicts of a text."""
    it, codes, runs, verdicts = Cases(text), {}, [], []
    while True:
        words = it.line()
        if words == ["end"]:
            return codes, runs, verdicts
        if words[0] == "code":
            data = b""
            while len(data) < int(words[2]):
                data += bytes.fromhex(it.line()[0])
            codes[words[1]] = data
        elif words[0] == "run":
            room = tuple((words[at], int(words[at + 1])) for at in (6, 8, 10))
            case = {"code": words[3], "entry": words[5], "room": room, "input": it.block(int(it.line()[1]))}
            status = it.line()
            runs.append(case | {"status": int(status[1]), "text": it.block(int(status[3]))})
        else:
            places = [tuple(map(int, it.line())) for _ in range(int(words[7]))]
            said = " ".join(it.line())
            verdicts.append({"code": words[3], "places": places, "length": int(words[5]), "said": said})


def answers(machine, codes, runs, verdicts):
    """What the program answers to runs and verdicts."""
    datas = [edited(codes[it["code"]], it["places"], it["length"]) for it in verdicts]
    for data in [*codes.values(), *datas]:
        machine.path(data)
    with concurrent.futures.ThreadPoolExecutor(max(1, (os.cpu_count() or 2) // 2)) as pool:
        ran = list(pool.map(lambda it: machine.run(codes[it["code"]], it), runs))
        said = list(pool.map(machine.verdict, datas))
    return ran, said


def write(machine):
    """Writes the cases."""
    rng = random.Random(48)
    codes = codes_of(machine)
    less = codes_shortened(codes)
    runs, verdicts = run_cases(rng, codes), verdict_cases(rng, codes, less)
    codes |= less
    ran, said = answers(machine, codes, runs, verdicts)
    for case, (status, text) in zip(runs, ran):
        case |= {"status": status, "text": text}
    for case, text in zip(verdicts, said):
        case |= {"said": text}
    CASES.parent.mkdir(exist_ok=True)
    CASES.write_text(written(codes, runs, verdicts))
    print(f"{len(codes)} codes, {len(runs)} runs, {len(verdicts)} verdicts")


def compare(machine):
    """How many cases the program answers otherwise."""
    codes, runs, verdicts = read_cases(CASES.read_text())
    ran, said = answers(machine, codes, runs, verdicts)
    wrong = 0
    for kind, cases, found in (("run", runs, ran), ("verdict", verdicts, said)):
        for number, (case, got) in enumerate(zip(cases, found), 1):
            wanted = (case["status"], case["text"]) if kind == "run" else case["said"]
            if got != wanted:
                wrong += 1
                print(f"{kind} {number}: {got!r} where {wanted!r} is written")
    print(f"{len(runs)} runs and {len(verdicts)} verdicts, {wrong} of them otherwise")
    return wrong


def main():
    """Reads the words, and writes or compares."""
    words = argparse.ArgumentParser(description=__doc__, formatter_class=argparse.RawDescriptionHelpFormatter)
    words.add_argument("--program", default=os.environ.get("FP2"))
    words.add_argument("--write", action="store_true")
    said = words.parse_args()
    program = os.path.abspath(said.program or building.MADE_BY_RT)
    if not os.access(program, os.X_OK):
        raise SystemExit(f"there is no program {program}: run rt ci or tools/prove, or give one by --program")
    with tempfile.TemporaryDirectory() as folder:
        machine = Machine(program, folder)
        if said.write:
            write(machine)
        elif compare(machine):
            raise SystemExit(1)


if __name__ == "__main__":
    main()

#!/usr/bin/env python3
"""Runs each command again and again, each of its requests for memory refused in turn.

    tools/refusing.py [--program PATH] [--list] [NAME ..]

NAME is a row of RUNS below; all, unless some are given. A library that the kit's compiler builds of refusing.c stands in
front of the C library's allocator (LD_PRELOAD) and refuses one request. Each such run must end with status 10, `out of
memory` on err, nothing on out, and a folder in which each file is as it was, the one that the command stores too; or as
the whole run does, with the same texts and files. The latter comes where the program can do without what was refused,
as a block that was to be made smaller, an index of the verifier's, a hint of clap's; of a command at most one in FEW may.

Besides, a call that uses up its calls makes as many requests for 1,000,000 calls as for 2,000,000.

The program is the proved one that `rt ci` or tools/prove made, unless another is given here or as FP2. The status is 0
exactly where all of this holds.
"""
import argparse
import concurrent.futures
import os
import pathlib
import struct
import subprocess
import sys
import tempfile
import threading

sys.dont_write_bytecode = True
import building

HERE = pathlib.Path(__file__).resolve().parent
SECONDS = 600
OUT_OF_MEMORY = (10, b"", b"out of memory\n")
FEW = 4

LISTS = """data ints { Nil; Cons(int, ints) }
fip fun rev(xs: ints, acc: ints): ints {
  match! xs { Nil -> acc; Cons(x, t) -> rev(t, Cons(x, acc)) }
}
fbip fun inc(xs: ints): ints { match! xs { Nil -> Nil; Cons(x, t) -> Cons(x + 1, inc(t)) } }
fip +2 fun push(x: int, xs: ints): ints { Cons(x, xs) }
fip fun div(a: int, b: int): int { a / b }
fip fun spin(xs: ints): ints { match! xs { Nil -> Nil; Cons(x, t) -> spin(Cons(x, t)) } }
"""
MAPS = """data list[a] { End; More(a, list[a]) }
fip fun map[a, b, f: fun(a): b](xs: list[a], acc: list[b]): list[b] {
  match! xs { End -> acc; More(x, t) -> let y = f(x); map[a, b, f](t, More(y, acc)) }
}
fip fun half(x: int): int { x / 2 }
fip fun halves(xs: list[int]): list[int] { map[int, int, half](xs, End) }
"""
TWICE = """data ints { Nil; Cons(int, ints) }
fip fun rev(xs: ints, acc: ints): ints {
  match! xs { Nil -> acc; Cons(x, t) -> rev(t, Cons(x, Cons(x, acc))) }
}
"""
FILES = {"lists.fp": LISTS, "maps.fp": MAPS, "twice.fp": TWICE, "earlier": "as it was\n"}
# Files that the program itself stores, before anything is refused.
STORED = (("compile lists.fp lists.fpc", ""), ("derive lists.fp lists.proof", ""),
          ("trace lists.fp inc lists.trace", "Cons(1, Cons(2, Nil))\n"))
LISTED = "Cons(1, Cons(2, Cons(3, Nil)))\nNil\n"
MAPPED = "More(7, More(-7, End))\n"
TALK = "a = rev(Cons(1, Cons(2, Nil)), Nil)\n? a\nb = push(3, a)\n? a\n? b\n-b\nc = div(1, 0)\nnope\n"
TASKS = "rev(Cons(1, Cons(2, Nil)), Nil)\ndiv(1, 0)\npush(4, Cons(3, Nil))\n"
# By name: the words, the input and the status of the whole run.
RUNS = {
    "check": ("check maps.fp", "", 0),
    "check of a refused source": ("check twice.fp", "", 1),
    "exec": ("exec lists.fp rev --gauge", LISTED, 0),
    "exec of a refused source": ("exec twice.fp rev", LISTED, 1),
    "exec without the entry": ("exec lists.fp nope", LISTED, 1),
    "exec that traps": ("exec lists.fp div", "1\n0\n", 3),
    "exec without calls": ("exec lists.fp rev --calls 2", LISTED, 4),
    "exec of a bad input": ("exec lists.fp rev", "Cons(1, Nix)\n", 5),
    "exec in a small store": ("exec lists.fp rev --words 8", LISTED, 6),
    "exec without frames": ("exec lists.fp inc --frames 1", "Cons(1, Cons(2, Nil))\n", 7),
    "eval": ("eval maps.fp halves", MAPPED, 0),
    "compile": ("compile maps.fp earlier", "", 0),
    "verify": ("verify lists.fpc", "", 0),
    "verify of no code": ("verify lists.fp", "", 8),
    "run": ("run lists.fpc push --gauge", "4\nCons(5, Nil)\n", 0),
    "upgrade": ("upgrade lists.fpc earlier", "", 0),
    "library": ("library finger", "", 0),
    "gen": ("gen 7 20", "", 0),
    "session": ("session lists.fp", TALK, 0),
    "tasks": ("tasks lists.fp 1 20", TASKS, 0),
    "tasks with a bad line": ("tasks lists.fp 1 20", "rev(Nil)\n", 5),
    "derive": ("derive maps.fp earlier", "", 0),
    "audit": ("audit lists.fp lists.proof", "", 0),
    "audit of no derivation": ("audit lists.fp earlier", "", 1),
    "trace": ("trace lists.fp inc earlier", "Cons(1, Cons(2, Nil))\n", 0),
    "replay": ("replay lists.trace 1", "", 0),
    "replay of no trace": ("replay lists.fp 1", "", 8),
    "no command": ("nope", "", 2),
    "no file": ("check nope.fp", "", 9),
}


def build_library(folder):
    """The library that refuses, built by the kit's compiler."""
    kit = building.find_kit()
    if kit is None:
        sys.exit("refusing: there is no kit")
    made = f"{folder}/refusing.so"
    words = [f"{kit.folder}/toolchain/bin/clang", "-O1", "-shared", "-fPIC", "-nostdlib", "-fuse-ld=lld",
             "-o", made, str(HERE / "refusing.c")]
    done = subprocess.run(words, capture_output=True, text=True)
    if done.returncode:
        sys.exit(f"refusing: {done.stderr}")
    return made


class Room:
    """A folder of files in which the program runs, one run at a time."""

    def __init__(self, program, library, files, place):
        self.program, self.files = program, files
        self.folder, self.count = pathlib.Path(place) / "files", pathlib.Path(place) / "count"
        self.folder.mkdir()
        self.environment = dict(os.environ, LD_PRELOAD=library, REFUSED_COUNT=str(self.count))
        self.fill()

    def fill(self):
        for name, held in self.files.items():
            (self.folder / name).write_bytes(held)

    def held(self):
        return {path.name: path.read_bytes() for path in self.folder.iterdir()}

    def run(self, words, given, refused):
        """What a run ends with, what it leaves in the folder, and how many requests it makes."""
        self.count.write_bytes(bytes(8))
        done = subprocess.run([self.program, *words.split()], cwd=self.folder, input=given.encode(), timeout=SECONDS,
                              env=dict(self.environment, REFUSED=str(refused)), capture_output=True)
        requests = struct.unpack("Q", self.count.read_bytes())[0]
        held = self.held()
        if held != self.files:
            for name in held:
                (self.folder / name).unlink()
            self.fill()
        return (done.returncode, done.stdout, done.stderr), held, requests


class Refusals:
    """Runs in rooms, one for each thread."""

    def __init__(self, program, library, place):
        self.program, self.library, self.place = program, library, place
        self.local, self.lock, self.rooms = threading.local(), threading.Lock(), 0
        self.files = {name: text.encode() for name, text in FILES.items()}

    def room(self):
        if not hasattr(self.local, "room"):
            with self.lock:
                self.rooms += 1
                place = f"{self.place}/{self.rooms}"
            os.mkdir(place)
            self.local.room = Room(self.program, self.library, self.files, place)
        return self.local.room

    def store(self):
        """Lets the program store the files of STORED, in a room that isn't used again."""
        for words, given in STORED:
            os.mkdir(f"{self.place}/{words.split()[-1]}")
            room = Room(self.program, self.library, self.files, f"{self.place}/{words.split()[-1]}")
            ends, held, _ = room.run(words, given, 0)
            if ends[0]:
                sys.exit(f"refusing: {words} ended so: {ends}")
            self.files = held

    def refused(self, name, whole, number):
        """How the run ends whose request of this number is refused: told, gone on, or a text that says what is wrong."""
        words, given, _ = RUNS[name]
        try:
            ends, held, _ = self.room().run(words, given, number)
        except subprocess.TimeoutExpired:
            return f"{name}, request {number}: no end within {SECONDS} seconds"
        if ends == OUT_OF_MEMORY and held == self.files:
            return "told"
        if (ends, held) == whole:
            return "went on"
        changed = sorted(it for it in held.keys() | self.files.keys() if held.get(it) != self.files.get(it))
        return f"{name}, request {number}: status {ends[0]}, out {ends[1]!r}, err {ends[2]!r}, files changed: {changed}"

    def each_in_turn(self, pool, name):
        """How many requests there are, and what is wrong in the runs in which one is refused."""
        words, given, status = RUNS[name]
        ends, held, requests = self.room().run(words, given, 0)
        if ends[0] != status or not requests:
            return requests, [f"{name}: status {ends[0]}, wanted {status}; {requests} requests; err {ends[2]!r}"]
        found = list(pool.map(lambda it: self.refused(name, (ends, held), it), range(1, requests + 1)))
        wrong = [it for it in found if it not in ("told", "went on")]
        if found.count("went on") * FEW > requests:
            wrong.append(f"{name}: {found.count('went on')} of {requests} runs went on")
        print(f"{name}: {requests} requests, {found.count('told')} told, {found.count('went on')} went on", flush=True)
        return requests, wrong

    def spin(self):
        """What is wrong where a call uses up its calls: nothing, where it makes as many requests for more calls."""
        found = []
        for calls in (1_000_000, 2_000_000):
            ends, _, requests = self.room().run(f"exec lists.fp spin --calls {calls}", "Cons(1, Nil)\n", 0)
            if ends != (4, b"", b"out of calls: %d\n" % calls):
                return [f"spin, {calls} calls: {ends}"]
            found.append(requests)
        print(f"spin: {found[0]} requests for 1,000,000 calls, {found[1]} for 2,000,000")
        return [] if found[0] == found[1] else [f"spin: {found[0]} requests, then {found[1]}"]


def main():
    parser = argparse.ArgumentParser()
    parser.add_argument("--program")
    parser.add_argument("--list", action="store_true", help="print the names of the runs")
    parser.add_argument("names", nargs="*")
    words = parser.parse_args()
    if words.list:
        return print("\n".join(RUNS))
    unknown = [name for name in words.names if name not in RUNS]
    if unknown:
        parser.error(f"no such run: {unknown[0]}")
    program = words.program or building.program_to_test()
    if program is None or not os.access(program, os.X_OK):
        sys.exit("refusing: there is no proved program of these sources: rt ci or tools/prove makes it")
    with tempfile.TemporaryDirectory(prefix="fp2-refusing-") as place:
        refusals = Refusals(os.path.abspath(program), build_library(place), place)
        refusals.store()
        total, wrong = 0, refusals.spin()
        names = words.names or list(RUNS)
        with concurrent.futures.ThreadPoolExecutor(building.processors()) as pool:
            for name in names:
                requests, faults = refusals.each_in_turn(pool, name)
                total, wrong = total + requests, wrong + faults
    for text in wrong[:20]:
        print(f"wrong: {text}")
    print(f"refusing: {total} requests of {len(names)} runs refused in turn, {len(wrong)} wrong")
    sys.exit(1 if wrong or not total else 0)


if __name__ == "__main__":
    main()

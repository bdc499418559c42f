#!/usr/bin/env python3
"""Gives each front part of a code file, and the file with one bit turned, to the commands that take a code.

    tools/turned_codes.py [--program PATH]

The file is CODE, version 2 of the reversal of a list. Of each front part `verify`, `run` and `upgrade` must say that it is
no code file, at its end. With the lowest or the highest bit of one byte turned `verify` and `run` must end as TABLE says,
which a reference implementation in Python computed that isn't part of the repository. What `verify` takes `upgrade` must
take with the same line. `run` is told to stop after 100 calls, for a turned bit may make a loop.

The program is the proved one that `rt ci` or tools/prove made, unless another is given here or as FP2. The status is 0
exactly where nothing differs.
"""
import argparse
import concurrent.futures
import os
import pathlib
import re
import subprocess
import sys
import tempfile

sys.dont_write_bytecode = True
import building

CODE = bytes.fromhex("""
4650324300020002000000020000000546616c73650000000004547275650000000002000000034e696c0000000004436f6e
730200000002000100000000037265760002000002000002000100020007000000060500000000000000000003080000000e
010001080000020002000309000000020000000102000200010d000000000002000300000000000100000003010002000100
000001010002000200000000000000010000000000""")
INPUT = b"Cons(1, Cons(2, Cons(3, Nil)))\nNil\n"
SECONDS = 60

# Status and text of `verify`; those of `run`, where they are others; then the bytes, from 0, each with `l` where its
# lowest bit is turned and `h` where its highest is. A line that begins with two blanks goes on with the one before.
TABLE = """
8 bad code at 0 | 0l 0h
8 bad code at 1 | 1l 1h
8 bad code at 2 | 2l 2h
8 bad code at 3 | 3l 3h
8 bad code at 4 | 4l 4h
8 bad code at 5 | 5l 5h
8 bad code at 64 | 6l 6h 7l 7h 64h
8 bad code at 35 | 8l 8h 9l 9h 10l 10h 11l 11h
8 bad code at 21 | 12l 12h 13l 13h 14l 14h 15h
8 bad code at 171 | 15l 21h 30h 38l 42h 51h 56l 56h 57h 75h 78l 78h 79h 98h 100h 106h 111l 120h 125l 130l 130h 131l
  131h 136l 136h 137l 137h 138l 138h 139h 147l 147h 148l 148h 153l 156l 156h 157l 157h 166l 167l 168l 169l 170l
8 unsound function 0 instruction 0 rule S0 | 16l 18l 19l 20l 26l 27l 28l 29l 52l 52h 53h 54l 54h 55l 55h
8 bad code at 16 | 16h
8 bad code at 17 | 17l 17h
8 bad code at 18 | 18h
8 bad code at 19 | 19h
8 bad code at 20 | 20h
8 bad code at 28 | 21l 28h
8 bad code at 30 | 22l 22h 23l 23h 24l 24h 25l 25h
8 bad code at 26 | 26h
8 bad code at 27 | 27h
8 bad code at 29 | 29h
8 bad code at 41 | 30l 41h
8 bad code at 60 | 31l 31h 32l 32h 33l 33h 34l 34h 51l
8 bad code at 42 | 35l 35h 36l 36h 37l 37h 38h
0 rev fip stack 0 frames 9 words | 5 bad input at 24 | 39l
8 bad code at 39 | 39h
0 rev fip stack 0 frames 9 words | 5 bad input at 25 | 40l
8 bad code at 40 | 40h
0 rev fip stack 0 frames 9 words | 5 bad input at 26 | 41l
8 bad code at 49 | 42l 49h
8 bad code at 51 | 43l 43h 44l 44h 45l 45h 46l 46h
0 rev fip stack 0 frames 9 words | 5 bad input at 0 | 47l
8 bad code at 47 | 47h
0 rev fip stack 0 frames 9 words | 5 bad input at 1 | 48l
8 bad code at 48 | 48h
0 rev fip stack 0 frames 9 words | 5 bad input at 2 | 49l
0 rev fip stack 0 frames 9 words | 5 bad input at 3 | 50l
8 bad code at 50 | 50h
0 rev fip stack 0 frames 9 words | 5 bad input at 5 | 53l
8 bad code at 58 | 57l 58h
0 rev fbip | 0 Cons(3, Cons(2, Cons(1, Nil))) | 58l
8 bad code at 66 | 59l 59h 60l 60h 61l 61h 62h
8 bad code at 67 | 62l
0 sev fip stack 0 frames 9 words | 1 E70: rev | 63l
8 bad code at 63 | 63h
0 rdv fip stack 0 frames 9 words | 1 E70: rev | 64l
0 rew fip stack 0 frames 9 words | 1 E70: rev | 65l
8 bad code at 65 | 65h
8 bad code at 77 | 66l 66h 67h
8 bad code at 78 | 67l
8 unsound function 0 instruction 0 rule S5 | 68l 71l 86l 90l 152l
8 bad code at 68 | 68h
8 unsound function 0 instruction 0 rule S9 | 69l 69h 70l 70h 72l 72h 73l 73h 76l 76h 77l 77h 140l 140h 141l 141h 142l
  142h 143h 145l 145h 146l 146h 149l 149h 150l 150h 151l 151h 152h 154l 154h 155l 155h 158l 158h 159l 159h 160l 160h
  161l 161h 162l 162h 163l 163h 164l 164h 165l 165h
8 bad code at 71 | 71h
8 bad code at 98 | 74l
8 bad code at 74 | 74h
8 bad code at 82 | 75l
8 bad code at 170 | 79l 170h
8 bad code at 136 | 80l 80h 81l 81h 82l 82h 83l 83h 84l
8 bad code at 84 | 84h
8 unsound function 0 instruction 0 rule S1 | 85l 85h 86h 91l 91h 92l 92h 93l 93h 94l 94h 143l
8 unsound function 0 instruction 0 rule S2 | 87l 87h 88l 88h 89l 89h 90h
8 bad code at 105 | 95l
8 bad code at 95 | 95h
8 unsound function 0 instruction 1 rule S1 | 96l 96h 97h
8 unsound function 0 instruction 1 rule S2 | 97l
8 bad code at 101 | 98l 100l
8 bad code at 104 | 99l
8 bad code at 99 | 99h
8 unsound function 0 instruction 2 rule S1 | 101l 101h 102h
8 unsound function 0 instruction 2 rule S2 | 102l
8 bad code at 113 | 103l 106l
8 bad code at 103 | 103h
8 unsound function 0 instruction 3 rule S1 | 104l 104h 105h 107l 107h 108h 109l 109h 110h
8 unsound function 0 instruction 3 rule S2 | 105l
8 unsound function 0 instruction 3 rule S3 | 108l 110l
8 bad code at 111 | 111h
8 unsound function 0 instruction 4 rule S1 | 112l 112h 113h 114l 114h 115l 115h 116l 116h 117l 117h 118l 118h 119h
  121l 121h 122h 123l 123h 124h
8 unsound function 0 instruction 4 rule S3 | 113l
8 unsound function 0 instruction 4 rule S2 | 119l 122l 124l
8 bad code at 127 | 120l
8 bad code at 125 | 125h
8 unsound function 0 instruction 5 rule S1 | 126l 126h 127l 127h 128l 128h 129l 129h 132l 132h 133h 134l 134h 135h
8 unsound function 0 instruction 5 rule S2 | 133l 135l
8 bad code at 140 | 139l
8 bad code at 169 | 144l 169h
8 bad code at 144 | 144h
8 bad code at 153 | 153h
8 bad code at 166 | 166h
8 bad code at 167 | 167h
8 bad code at 168 | 168h
"""


def rows():
    """By the byte and the bit that are turned, what `verify` and `run` end with."""
    found = {}
    for line in TABLE.strip().replace("\n  ", " ").splitlines():
        *answers, turned = line.split(" | ")
        ends = [(int(status), text.encode() + b"\n") for status, text in (it.split(" ", 1) for it in answers)]
        for place, bit in re.findall(r"(\d+)([lh])", turned):
            found[int(place), 0x01 if bit == "l" else 0x80] = (ends[0], ends[-1])
    return found


class Codes:
    """Runs of the program over a code, each in a folder of its own."""

    def __init__(self, program):
        self.program = program

    def ends(self, code, words):
        """The status and what is printed, on out after status 0 and else on err; why it is wrong, where more was done."""
        with tempfile.TemporaryDirectory(prefix="fp2-code-") as folder:
            (pathlib.Path(folder) / "code").write_bytes(code)
            done = subprocess.run([self.program, *words.split()], cwd=folder, input=INPUT, capture_output=True,
                                  timeout=SECONDS)
            names = sorted(it.name for it in pathlib.Path(folder).iterdir())
        is_ok = done.returncode == 0
        printed, other = (done.stdout, done.stderr) if is_ok else (done.stderr, done.stdout)
        if other:
            return f"status {done.returncode}, out and err both written"
        if names != (["code", "stored"] if is_ok and "stored" in words else ["code"]):
            return f"status {done.returncode}, files {names}"
        return done.returncode, printed

    def wrong(self, what, code, verified, ran):
        """What differs for a code, as texts."""
        wanted = {"verify code": verified, "run code rev --calls 100": ran, "upgrade code stored": verified}
        found = {words: self.ends(code, words) for words in wanted}
        return [f"{what}: {words}: wanted {wanted[words]}, was {found[words]}"
                for words in wanted if found[words] != wanted[words]]

    def front(self, length):
        refused = (8, b"bad code at %d\n" % length)
        return self.wrong(f"the first {length} bytes", CODE[:length], refused, refused)

    def turned(self, row):
        (place, mask), (verified, ran) = row
        code = bytearray(CODE)
        code[place] ^= mask
        return self.wrong(f"byte {place}, bit {mask:#x} turned", bytes(code), verified, ran)


def main():
    parser = argparse.ArgumentParser()
    parser.add_argument("--program")
    words = parser.parse_args()
    program = words.program or building.program_to_test()
    if program is None or not os.access(program, os.X_OK):
        sys.exit("turned_codes: there is no proved program of these sources: rt ci or tools/prove makes it")
    table = rows()
    lacking = [(place, mask) for place in range(len(CODE)) for mask in (0x01, 0x80) if (place, mask) not in table]
    codes = Codes(os.path.abspath(program))
    with concurrent.futures.ThreadPoolExecutor(building.processors()) as pool:
        found = [*pool.map(codes.front, range(len(CODE))), *pool.map(codes.turned, table.items())]
    wrong = [text for texts in found for text in texts] + [f"no row: {it}" for it in lacking]
    for text in wrong[:20]:
        print(text)
    print(f"turned_codes: {len(CODE)} front parts, {len(table)} turned bits, {len(wrong)} differ")
    sys.exit(1 if wrong else 0)


if __name__ == "__main__":
    main()

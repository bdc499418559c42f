#!/usr/bin/env python3
"""Makes code files of the shapes that take longest to verify, and times `fp2 verify` on each.

    tools/large_codes.py [--program PATH] [--bytes N] [--most SECONDS] [SHAPE ..]

Without shapes: all of them, each of at most N bytes (16 MiB, the most that is read). For each it prints its size, how
the program ended, and its seconds of processor time. The status is 0 exactly where each was accepted in SECONDS at most
(60). The program is the proved one that `rt ci` or tools/prove made, unless another is given here or as FP2.
"""
import argparse
import resource
import struct
import subprocess
import sys
import tempfile

sys.dont_write_bytecode = True
import building

LIMIT = 16 * 1024 * 1024
REGISTERS = 4096
NONE = 0xFFFF
OWNED, LENT = 0, 1
INT, BOOL = 0, 1

# The parts of a code file, each as its bytes.


def u16(number):
    return struct.pack(">H", number)


def u32(number):
    return struct.pack(">I", number)


def text(name):
    return u32(len(name)) + name


def data_type(*constructors):
    """A type by its constructors: a name and the types of the fields."""
    return u32(len(constructors)) + b"".join(
        text(name) + bytes([len(fields)]) + b"".join(map(u16, fields)) for name, fields in constructors
    )


BOOLS = data_type((b"False", ()), (b"True", ()))
INT_CELL = data_type((b"C", (INT,)))


def cell(ty, fields=1):
    return data_type((b"C", (ty,) * fields))


def enumeration(count):
    """A type with so many constructors, each of a cell with an int."""
    return data_type(*((b"A%x" % number, (INT,)) for number in range(count)))


GONE = b"\0"


def scalar_kind(ty):
    return b"\3" + u16(ty)


def tree_kind(mark, ty, constructors):
    return bytes([mark]) + u16(ty) + u16(len(constructors)) + b"".join(map(u32, constructors))


def owned_kind(ty, constructors):
    return tree_kind(1, ty, constructors)


def lent_kind(ty, constructors, root=NONE, source=NONE):
    """A tree in that of a register, and the register of which it is field 0; or neither."""
    return tree_kind(2, ty, constructors) + u16(root) + u16(source) + b"\0"


def const(register, value=0):
    return b"\1" + u16(register) + struct.pack(">q", value)


def move(destination, source):
    return b"\3" + u16(destination) + u16(source)


def test(register, constructor, target):
    return b"\5" + u16(register) + u32(constructor) + u32(target)


def test_int(register, value, target):
    return b"\6" + u16(register) + struct.pack(">q", value) + u32(target)


def peek(destination, register, field=0):
    return b"\7" + u16(destination) + u16(register) + bytes([field])


def take(register, parts):
    return b"\x08" + u16(register) + bytes([len(parts)]) + b"".join(map(u16, parts))


def put(destination, ty, parts):
    return b"\x09" + u16(destination) + u16(ty) + u32(0) + bytes([len(parts)]) + b"".join(map(u16, parts))


def drop(register):
    return b"\x0a" + u16(register)


def ret(register):
    return b"\x0e" + b"\1" + u16(register)


def function(params, registers, instructions, labels=(), is_fip=False):
    """A function with an int as its result: params are marks and types, labels places and kinds."""
    return (
        (b"\0" if is_fip else b"\1")
        + text(b"" if is_fip else b"f")
        + u16(len(params))
        + b"".join(bytes([mark]) + u16(ty) for mark, ty in params)
        + b"\1"
        + u16(INT)
        + u16(registers)
        + u32(len(instructions))
        + b"".join(instructions)
        + u32(len(labels))
        + b"".join(u32(at) + b"".join(kinds) for at, kinds in labels)
    )


def code_file(types, functions):
    types = [BOOLS] + types
    return b"FP2C" + u16(1) + u16(len(types)) + b"".join(types) + u16(len(functions)) + b"".join(functions)


def how_many(room, size):
    """How many parts of a size there is room for, which is one at least."""
    if room < size:
        sys.exit("there are too few bytes for this shape")
    return room // size


def fill(instructions, room, more):
    """The instructions, and then those that `more` gives for 0, 1, .. while there is room for them."""
    filled = list(instructions)
    room -= sum(map(len, filled))
    number = 0
    while True:
        further = more(number)
        room -= sum(map(len, further))
        if room < 0:
            return filled
        filled += further
        number += 1


# The shapes. Each gives a code file of about so many bytes.


def moves(room):
    """A tree is moved to and fro, and a field of it read each time, while all other registers read another tree."""
    start = [peek(register, 1) for register in range(3, REGISTERS)]

    def turn(number):
        here, there = (2, 0) if number % 2 else (0, 2)
        return [peek(REGISTERS - 1, here), move(there, here)]

    body = fill(start, room, turn)
    turns = (len(body) - len(start)) // 2
    last = 2 if turns % 2 else 0
    body += [drop(last), const(last), ret(last)]
    return code_file([INT_CELL, cell(2)], [function([(OWNED, 3), (LENT, 3)], REGISTERS, body)])


def takes(room, fields=1):
    """A cell is taken apart and put together again, while all other registers read another tree."""
    start = [peek(register, 1) for register in range(40, REGISTERS)]
    parts = range(2, 2 + fields)
    body = fill(start, room, lambda n: [peek(2, 0), take(0, parts), put(0, 3, parts)])
    body += [drop(0), const(0), ret(0)]
    return code_file([INT_CELL, cell(2, fields)], [function([(OWNED, 3), (LENT, 3)], REGISTERS, body)])


def wide_takes(room):
    """The same with a cell of 16 fields."""
    return takes(room, 16)


def heirs(room, depth=2000):
    """A chain of cells, each read through the one before, is taken apart cell by cell, and put together again."""
    types = [INT_CELL] + [cell(ty) for ty in range(2, depth + 3)]
    top = len(types) + 1
    others = range(depth + 5, REGISTERS - 5)
    turn = [peek(place + 1, place) for place in range(depth)]
    turn += [peek(register, depth) for register in others]
    turn += [take(place, [place + 1]) for place in range(depth)]
    turn += [put(place, top - place, [place + 1]) for place in reversed(range(depth))]
    body = fill([], room - sum(map(len, types)), lambda n: turn)
    return code_file(types, [function([(OWNED, top)], REGISTERS, body + [drop(0), const(0), ret(0)])])


def reversed_heirs(room, depth=3000):
    """The same with a label map before each turn, in which each register came from the one behind it."""
    types = [INT_CELL] + [cell(ty) for ty in range(2, depth + 3)]
    top = len(types) + 1
    chain = [0, *range(depth, 0, -1)]
    pairs = list(zip(chain, chain[1:]))
    turn = [peek(below, register) for register, below in pairs]
    turn += [take(register, [below]) for register, below in pairs]
    turn += [put(register, top - place, [below]) for place, (register, below) in reversed(list(enumerate(pairs)))]
    kinds = [owned_kind(top, [0])]
    kinds += [
        lent_kind(top - chain.index(register), [0], 0, (register + 1) % (depth + 1)) for register in range(1, depth + 1)
    ]
    size = sum(map(len, turn)) + sum(map(len, kinds)) + 4
    turns = how_many(room - sum(map(len, types)), size)
    labels = [(number * len(turn) + depth, kinds) for number in range(turns)]
    body = turn * turns + [drop(0), const(0), ret(0)]
    return code_file(types, [function([(OWNED, top)], depth + 1, body, labels)])


def circles(room, depth=2000):
    """The same as `heirs`, behind a label map in which two registers that read another tree came from each other."""
    types = [INT_CELL] + [cell(ty) for ty in range(2, depth + 3)]
    top = len(types) + 1
    first, second = REGISTERS - 2, REGISTERS - 1
    others = range(depth + 5, REGISTERS - 5)
    kinds = [GONE] * REGISTERS
    kinds[0] = owned_kind(top, [0])
    kinds[first] = lent_kind(top, [0], NONE, second)
    kinds[second] = lent_kind(top, [0], NONE, first)
    turn = [peek(place + 1, place) for place in range(depth)]
    turn += [peek(register, depth) for register in others]
    turn += [take(place, [place + 1]) for place in range(depth)]
    turn += [put(place, top - place, [place + 1]) for place in reversed(range(depth))]
    end = [drop(0), const(0), ret(0)]
    body = fill(end, room - sum(map(len, types)) - sum(map(len, kinds)), lambda n: turn)
    return code_file(types, [function([(OWNED, top)], REGISTERS, body + end, [(len(end), kinds)])])


def circles_in_trees(room, trees=800):
    """Label maps with many trees, each with two registers that came from each other. Each tree's cell is taken apart
    into the next register of a chain that reads another tree, and put together again."""
    chain = REGISTERS - 3 * trees
    kinds = [owned_kind(2, [0])] * trees
    for number in range(trees):
        first = trees + 2 * number
        kinds += [lent_kind(2, [0], number, first + 1), lent_kind(2, [0], number, first)]
    start = len(kinds)
    kinds += [lent_kind(2, [0])] + [lent_kind(2, [0], NONE, register) for register in range(start, start + chain - 1)]
    turn = []
    for number in range(trees):
        turn += [take(number, [start + number]), put(number, 2, [start + number])]
    turn += [drop(number) for number in range(trees)] + [const(0), ret(0)]
    size = sum(map(len, turn)) + sum(map(len, kinds)) + 4
    turns = how_many(room, size)
    begin = [const(0), ret(0)]
    labels = [(len(begin) + number * len(turn), kinds) for number in range(turns)]
    return code_file([INT_CELL], [function([], REGISTERS, begin + turn * turns, labels)])


def changing_heirs(room, depth=4000):
    """A chain of cells is taken apart once, where the lowest was read again and again before, by a register that read
    the one above it between."""
    types = [INT_CELL] + [cell(ty) for ty in range(2, depth + 4)]
    top = len(types) + 1
    lowest, keeper, other = depth, depth + 1, depth + 2
    start = [peek(place + 1, place) for place in range(depth)] + [peek(keeper, lowest)]
    takes = [take(place, [place + 1]) for place in range(depth)]
    puts = [put(place, top - place, [place + 1]) for place in reversed(range(depth))]
    end = takes + puts + [drop(0), const(0), ret(0)]
    room -= sum(map(len, types)) + sum(map(len, end))
    body = fill(start, room, lambda n: [peek(other, lowest), peek(other, lowest - 1)])
    return code_file(types, [function([(OWNED, top)], REGISTERS, body + end)])


def heirs_on_both_sides(room, depth=1000, side=2):
    """A chain of cells of two fields: each is taken apart while registers read below both, those of the chain below the
    first, and some below the second."""
    types = [INT_CELL] + [cell(ty, 2) for ty in range(2, depth + side + 3)]
    top = len(types) + 1
    step = side + 2
    turn = []
    for place in range(depth):
        first = place * step
        # the next of the chain, and what is read below the second field, one below the other
        turn += [peek(first + step, first), peek(first + 1, first, 1)]
        turn += [peek(first + 1 + number, first + number) for number in range(1, side + 1)]
    parts = [[place * step + step, place * step + 1] for place in range(depth)]
    turn += [take(place * step, parts[place]) for place in range(depth)]
    turn += [put(place * step, top - place, parts[place]) for place in reversed(range(depth))]
    body = fill([], room - sum(map(len, types)), lambda n: turn)
    return code_file(types, [function([(OWNED, top)], REGISTERS, body + [drop(0), const(0), ret(0)])])


def loose_heirs(room, depth=2000, loose=2000):
    """The same as `heirs`, with many registers before each turn that have no from any more."""
    types = [INT_CELL] + [cell(ty) for ty in range(2, depth + 4)]
    top = len(types) + 1
    first, second = depth + 20, depth + 21
    others = range(depth + 1, depth + 19)
    turn = []
    for number in range(loose):
        turn += [peek(first, 0), peek(second, first), const(first)]
    turn += [peek(place + 1, place) for place in range(depth)]
    turn += [peek(register, depth) for register in others]
    turn += [take(place, [place + 1]) for place in range(depth)]
    turn += [put(place, top - place, [place + 1]) for place in reversed(range(depth))]
    body = fill([], room - sum(map(len, types)), lambda n: turn)
    return code_file(types, [function([(OWNED, top)], REGISTERS, body + [drop(0), const(0), ret(0)])])


def repeated_tests(room, known, asked, count):
    """A value that may have some of so many constructors is tested again and again, for a label that asks others."""
    table = enumeration(count)
    room -= len(table) + 4 * len(known) + 8 * len(asked)
    tests = how_many(room, len(move(1, 0) + test(1, 0, 0)))
    last = 2 + 2 * tests
    first = [lent_kind(2, known), GONE, GONE, GONE]
    second = [lent_kind(2, asked), lent_kind(2, asked), GONE, GONE]
    end = [const(2), ret(2)]
    body = end + [move(1, 0), test(1, known[1], last)] * tests + end
    return code_file([table], [function([(LENT, 2)], 4, body, [(2, first), (last, second)])])


def same_sets(room):
    """Tests of a value that may have every second of 131,000 constructors, for a label that asks the same."""
    known = range(0, 131000, 2)
    return repeated_tests(room, known, known, 131000)


def other_sets(room):
    """Tests of a value that may have every second of 65,536 constructors, for a label that asks all but one."""
    return repeated_tests(room, range(0, 65535, 2), [0, *range(2, 65536)], 65536)


def many_maps(room):
    """Functions of 4,096 registers, each with a label map."""
    kinds = [scalar_kind(INT)] + [GONE] * (REGISTERS - 1)
    one = function([], REGISTERS, [const(0), const(0), ret(0)], [(1, kinds)], is_fip=True)
    return code_file([], [one] * min(4096, room // len(one)))


def blocks(room, labels, kinds, start):
    """Blocks of which each jumps to all that follow it, with a map of these kinds before each."""
    size = sum(map(len, kinds)) + 4
    tests = how_many(room - labels * size - sum(map(len, start)), labels * len(test_int(0, 0, 0)))
    starts = [len(start) + block * (tests + 1) for block in range(labels)]
    body = list(start)
    for block in range(labels):
        for number in range(tests):
            target = min(block + 1 + number, labels - 1)
            body.append(test_int(0, number, starts[target]) if target > block else const(1))
        body.append(const(1))
    return code_file([], [function([], REGISTERS, body + [ret(0)], [(at, kinds) for at in starts])])


def jumps(room):
    """A thousand blocks with maps that ask little, each of which jumps to all that follow it."""
    return blocks(room, 1000, [scalar_kind(INT)] + [GONE] * (REGISTERS - 1), [const(0)])


def full_jumps(room):
    """The same with maps that ask for an int in each register."""
    return blocks(room, 780, [scalar_kind(INT)] * REGISTERS, [const(register) for register in range(REGISTERS)])


def changes(room, labels=2000):
    """Jumps to one label map after another, with a change between."""
    kinds = [scalar_kind(INT)] + [GONE] * (REGISTERS - 1)
    room -= labels * (sum(map(len, kinds)) + 4 + 2 * len(const(1)))
    tests = how_many(room, len(const(0) + test_int(0, 0, 0)))
    first = 1 + 2 * tests
    starts = [first + 2 * number for number in range(labels)]
    body = [const(0)]
    for number in range(tests):
        body += [const(1 + number % (REGISTERS - 1)), test_int(0, number, starts[number % labels])]
    body += [const(1)] * (2 * labels) + [ret(0)]
    return code_file([], [function([], REGISTERS, body, [(at, kinds) for at in starts])])


SHAPES = {
    shape.__name__: shape
    for shape in (
        moves,
        takes,
        wide_takes,
        heirs,
        reversed_heirs,
        circles,
        circles_in_trees,
        changing_heirs,
        heirs_on_both_sides,
        loose_heirs,
        same_sets,
        other_sets,
        many_maps,
        jumps,
        full_jumps,
        changes,
    )
}


def seconds_of(program, path):
    """How a run of `verify` ended, and its processor time."""
    before = resource.getrusage(resource.RUSAGE_CHILDREN)
    done = subprocess.run([program, "verify", path], stdout=subprocess.DEVNULL, stderr=subprocess.PIPE)
    after = resource.getrusage(resource.RUSAGE_CHILDREN)
    told = done.stderr.decode("utf-8", "replace").strip()
    return done.returncode, told, after.ru_utime + after.ru_stime - before.ru_utime - before.ru_stime


def main():
    words = argparse.ArgumentParser(description=__doc__, formatter_class=argparse.RawDescriptionHelpFormatter)
    words.add_argument("--program")
    words.add_argument("--bytes", type=int, default=LIMIT)
    words.add_argument("--most", type=float, default=60.0)
    words.add_argument("shapes", nargs="*", metavar="SHAPE", help=" ".join(SHAPES))
    given = words.parse_args()
    if unknown := [name for name in given.shapes if name not in SHAPES]:
        sys.exit(f"no such shape: {' '.join(unknown)}")
    program = given.program or building.program_to_test()
    if program is None:
        sys.exit("there is no proved program of these sources: rt ci or tools/prove makes it")
    failed = 0
    for name in given.shapes or SHAPES:
        # some bytes are left for heads and ends
        code = SHAPES[name](given.bytes - 2000)
        with tempfile.NamedTemporaryFile(suffix=".fpc") as stored:
            stored.write(code)
            stored.flush()
            status, told, seconds = seconds_of(program, stored.name)
        print(f"{name}: {len(code)} bytes, {told or 'accepted' if status == 0 else told}, {seconds:.1f} s", flush=True)
        failed += status != 0 or seconds > given.most
    return min(failed, 1)


if __name__ == "__main__":
    sys.exit(main())

#!/usr/bin/env python3
"""Writes host/fip_host.h, the header of the C calls, from the exports of crates/fip_host.

    tools/header.py            writes the header
    tools/header.py --check    says whether the header is the one that it would write; the status is 1 where it isn't

What is written: each `#[repr(C)]` struct of src/answer.rt with its comments, and each export of src/ with its comment,
what it does to memory, and the names of its clauses. A slice becomes a pointer and a length; an allocator takes no place
in C. Whatever has no row in the tables below is an error: a type, a status; and so is a `requires`.
"""
import pathlib
import re
import sys
import textwrap

TOP = pathlib.Path(__file__).resolve().parent.parent
SOURCES = TOP / "crates/fip_host/src"
HEADER = TOP / "host/fip_host.h"
WIDTH = 116
# The files with exports, in the order of the header, and what each has.
PARTS = (
    ("calls/codes.rt", "Codes: verifying one, what it has, its end"),
    ("calls/cells.rt", "The store and its cells"),
    ("calls/runs.rt", "Runs"),
    ("calls/values.rt", "Values that are kept from run to run, and their text"),
)
NUMBERS = {"u8": "uint8_t", "u32": "uint32_t", "u64": "uint64_t", "usize": "size_t", "bool": "bool"}
# Parameters of bytes that are text.
TEXTS = ("name", "text", "out")
STATUSES = {
    0: ("FIP_OK", "it is done; of a run: it ended with values"),
    3: ("FIP_TRAP", "the run ended in a trap"),
    4: ("FIP_OUT_OF_CALLS", "no call is left"),
    5: ("FIP_BAD_INPUT", "the text is none of the parameters' types"),
    6: ("FIP_TOO_SMALL", "the store has too few words left"),
    7: ("FIP_OUT_OF_FRAMES", "no frame is left"),
    8: ("FIP_BAD_CODE", "the bytes are no code file"),
    10: ("FIP_NO_MEMORY", "there was no memory"),
    11: ("FIP_UNSOUND", "the code isn't sound"),
    12: ("FIP_OUT_OF_RANGE", "a number names nothing, or is too large"),
    13: ("FIP_NOT_READY", "there is no run, or it has no results to be read"),
    14: ("FIP_WRONG_VALUE", "an argument is no value of its parameter's type"),
    15: ("FIP_GOES_ON", "the run goes on"),
}
# The clause by which a call changes nothing.
SAME = "machine.new.held ≡ machine.old.held"
FIRST = """\
/* The machine for C programs: codes of FP2 are verified, run and read. docs/HOST.md begins with it.
 *
 * tools/header.py writes this file from the exports of crates/fip_host: change those, and not this file.
 *
 * A machine has a verified code, one store of cells, at most one run over it, and values that are kept from run to run.
 * A word is 64 bits: an int; twice the number of a constructor without fields; or an odd number that names a cell. A
 * cell with k fields takes k + 1 words of the store.
 *
 * Bytes and numbers may be anything: code files, texts, words, and numbers of functions, types, fields, cells and kept
 * values are checked, and what is wrong gets a status. Nothing checks these, which the caller keeps:
 *
 * - A pointer isn't null, also where its length is 0. It is aligned, leads to as much as its length says, or to one of
 *   its type, and what it leads to has values of that type: begin with `FipEnd end = {0};`, and give a bool no other
 *   bytes than 0 and 1.
 * - What a call writes to overlaps nothing else that the call is given.
 * - A FipMachine is from fip_verify with status 0, and ends at fip_free. A copy of it is the same machine.
 * - A machine is in one call at a time, and stays in one thread. Two machines may be in two threads where the functions
 *   for memory may.
 * - The functions for memory that are linked (host/heap.c or host/arena.c) give blocks that are aligned to 16 bytes.
 * - No call is made from a signal handler.
 *
 * A machine's code never changes. A call whose comment doesn't speak of memory asks for none. Where a status isn't 0
 * only what the comment names is written. Names and texts end with their length, without a byte 0. "Proved" names the
 * clauses of the export in crates/fip_host/src/calls, which say it exactly.
 */
"""
# What is said of memory where the comment of an export doesn't.
MEMORY = {"fip_cell": "It takes no memory: that of the cells was taken by `fip_store`."}


class Fault(Exception):
    """What the tables of this file have no row for."""


def commented(text, indent=""):
    """A comment of C with this text, on as many lines as it takes."""
    lines = textwrap.wrap(text, WIDTH - len(indent) - 6)
    return f"{indent}/* " + f"\n{indent} * ".join(lines) + " */\n"


def comment_in(lines):
    """The text of the lines of a comment."""
    return " ".join(it.strip().removeprefix("///").strip() for it in lines)


def struct_names(text):
    """The names of the structs that cross."""
    return re.findall(r"#\[repr\(C\)\]\n(?:#\[[^\n]*\]\n)*pub struct (Fip\w+)", text)


def number_of(kind, names):
    """The type in C of a number or a struct."""
    if kind in NUMBERS:
        return NUMBERS[kind]
    if kind in names:
        return kind
    raise Fault(f"no type of C is known for {kind}")


def structs(text, names):
    """The declarations of the structs."""
    form = r"((?:///[^\n]*\n)+)#\[repr\(C\)\]\n(?:#\[[^\n]*\]\n)*pub struct (Fip\w+) \{\n(.*?)\n\}"
    for comment, name, fields in re.findall(form, text, re.S):
        if name not in names:
            continue
        yield "\n" + commented(comment_in(comment.splitlines())) + f"typedef struct {name} {{\n"
        for said, field, kind in re.findall(r"((?: *///[^\n]*\n)+) *pub (\w+): (\w+),", fields + "\n"):
            yield commented(comment_in(said.splitlines()), "    ") + f"    {number_of(kind, names)} {field};\n"
        yield f"}} {name};\n"


def parameters(name, kind, names, is_same):
    """The parameters of C for one of an export, which may leave the machine as it is."""
    if kind == "Global":
        return []
    if kind == "Handle":
        return [f"FipMachine {name}"]
    if kind in ("&mut Handle", "&mut Slot"):
        return [f"{'const ' if is_same else ''}FipMachine *{name}"]
    found = re.fullmatch(r"&(mut )?(\[)?(\w+)\]?", kind)
    if not found:
        return [f"{number_of(kind, names)} {name}"]
    is_out, is_slice, inner = found.groups()
    is_text = is_slice and inner == "u8" and name in TEXTS
    base = "char" if is_text else number_of(inner, names)
    length = f"{name}_size" if inner == "u8" else f"{name}_count"
    return [f"{'' if is_out else 'const '}{base} *{name}"] + ([f"size_t {length}"] if is_slice else [])


def leaves_same(clauses):
    """Whether a clause says that the machine stays as it is."""
    return SAME in [re.sub(r"\s+", " ", clause).strip() for _, clause in clauses]


def said_of(name, comment, clauses, takes_memory):
    """The comment of a call: the export's, what is said of memory, and its clauses."""
    rows = [comment, MEMORY[name]] if name in MEMORY and "memory" not in comment else [comment]
    if takes_memory and not re.search(r"\bmemory\b", " ".join(rows)):
        raise Fault(f"the comment of {name}, which has an allocator, says nothing of memory")
    if leaves_same(clauses):
        rows.append("The machine stays as it is.")
    if clauses:
        rows.append(f"Proved: {', '.join(it for it, _ in clauses)}.")
    return " ".join(rows)


def declared(head, words):
    """A declaration with these parameters, broken between two of them where it is too long."""
    lines, line = [], head
    for word in [f"{it}," for it in words[:-1]] + [f"{words[-1]});"]:
        if len(line) + 1 + len(word) > WIDTH:
            lines.append(line)
            line = " " * len(head) + word
        else:
            line += word if line == head else f" {word}"
    return "\n".join([*lines, line]) + "\n"


def exports(text, names):
    """The declarations of the exports of a file, each with its comment."""
    form = r'((?:///[^\n]*\n)+)#\[unsafe\(no_mangle\)\]\npub extern "C" fn (\w+)\((.*?)\)(?: -> (\w+))?(?: \{|\n(.*?)\n\{)\n'
    if len(re.findall(form, text, re.S)) != text.count("#[unsafe(no_mangle)]"):
        raise Fault("an export has a form that isn't understood")
    for comment, name, params, result, contract in re.findall(form, text, re.S):
        pairs = [it.strip().split(": ", 1) for it in re.sub(r"\s+", " ", params).split(",") if it.strip()]
        if re.search(r"(?m)^\s*requires", contract):
            raise Fault(f"{name} has a requires, which the first comment must say")
        clauses = re.findall(r"ensures (\w+) \{(.*?)\}(?=\s*ensures|\s*$)", contract, re.S)
        words = [word for pair in pairs for word in parameters(*pair, names, leaves_same(clauses))]
        takes_memory = any(kind == "Global" for _, kind in pairs)
        said = said_of(name, comment_in(comment.splitlines()), clauses, takes_memory)
        yield "\n" + commented(said) + declared(f"{number_of(result, names) if result else 'void'} {name}(", words)


def check_statuses(answer, others):
    """That each status of the sources has a name here, and each name its status."""
    told = re.findall(r"Refusal::\w+(?: \{ \.\. \})? => (\d+),", answer)
    told += [it for text in others for it in re.findall(r"\b(?:told|reported|verdict|end_at)\((\d+)|\bstatus: (\d+)", text)]
    numbers = {int(number) for it in told for number in ([it] if isinstance(it, str) else it) if number}
    numbers.add(0)
    if numbers != set(STATUSES):
        raise Fault(f"statuses {sorted(numbers ^ set(STATUSES))} are not in both the sources and this file")


def header():
    """The text of the header."""
    texts = {str(path.relative_to(SOURCES)): path.read_text() for path in sorted(SOURCES.glob("**/*.rt"))}
    answer = texts["answer.rt"]
    check_statuses(answer, [text for name, text in texts.items() if name != "answer.rt"])
    lacking = [name for name, text in texts.items() if "no_mangle" in text and name not in dict(PARTS)]
    if lacking:
        raise Fault(f"exports in {lacking[0]}, which isn't listed")
    names = struct_names(answer)
    calls = [f"\n/* {said} */\n" + "".join(exports(texts[name], names)) for name, said in PARTS]
    rows = [FIRST, "#ifndef FIP_HOST_H\n#define FIP_HOST_H\n\n"]
    rows.append("#include <stdbool.h>\n#include <stddef.h>\n#include <stdint.h>\n\n")
    rows.append('#ifdef __cplusplus\nextern "C" {\n#endif\n\n/* What a call answers. */\nenum {\n')
    for number, (name, said) in STATUSES.items():
        rows.append(f"    {name} = {number}, /* {said} */\n")
    rows.append("};\n\n/* A machine. What `at` points to is the library's alone. */\n")
    rows.append("typedef struct FipMachine {\n    void *at;\n} FipMachine;\n")
    used = [name for name in names if any(f"{name} *" in text for text in calls)]
    rows += structs(answer, used)
    rows += calls
    rows.append("\n#ifdef __cplusplus\n}\n#endif\n\n#endif\n")
    return "".join(rows)


def main():
    """Writes or compares."""
    if sys.argv[1:] not in ([], ["--check"]):
        raise SystemExit(__doc__)
    try:
        text = header()
    except Fault as fault:
        raise SystemExit(f"tools/header.py: {fault}") from None
    if not sys.argv[1:]:
        HEADER.parent.mkdir(exist_ok=True)
        HEADER.write_text(text)
    elif not HEADER.is_file() or HEADER.read_text() != text:
        raise SystemExit("host/fip_host.h isn't that of the exports: run tools/header.py")


if __name__ == "__main__":
    main()

#!/usr/bin/env python3
"""Measures long sessions: whether a line keeps its time, and a session its memory.

    tools/session_long.py [--host HOST] [--program PROGRAM] [--lines N] [--fills N]

Two kinds of sessions: lines that turn one list of 20 items round and round, and lines that fill the store, find no room for
a cell more, and give all of it up. Each is run with a quarter, a half and the whole of the lines.

First through the library's call `Session::line`, by a program that is compiled here, without a proof, and that holds one
line and one reply at a time (with `--host` it is kept there, or the one that is there is used again). Then, where `--program`
names the program, through `fp2 session`, in lines so short that a million of them are within the 16 MiB of an input: it
holds the whole input and all replies, each in a vector that doubles, and of these twice their bytes are taken off here.

The table has the microseconds of a line and the KiB of memory at the most, by GNU time. What is replied is compared with what must be.
The status is 1 where that differs, where a line of the longest session takes half as long again as one of the shortest, or
where the memory of the longest is more than 1 MiB above that of the shortest.
"""
import argparse
import pathlib
import shutil
import subprocess
import sys
import tempfile

sys.dont_write_bytecode = True
from session_cells import compiled

PROGRAM = """data l { N; C(int, l) }
fip fun t(xs: l, acc: l): l { match! xs { N -> acc; C(x, r) -> t(r, C(x, acc)) } }
"""
ITEMS = 20
WORDS = 3 * ITEMS
SLOWER = 1.5
TIME = shutil.which("time")
MORE_KIB = 1024

MAIN = r'''// Does the lines of a session: the first one once, and those behind it round and round.
#![tactic(auto)]

use command_source::front;
use fip_base::plain::NoMemory;
use fip_room::Room;
use fip_outside::all::{read_all, write_all};
use fip_outside::outside::Folder;
use fip_outside::real::{FileFolder, StdSink, StdSource};
use fip_session::Session;
use session_lines::line_at;
use std::alloc::Global;
use std::env;
use std::process::ExitCode;

// A number that is written in digits.
fn number(word: &str) -> u64 {
    let mut n = 0u64;
    for byte in word.as_bytes() {
        n = n.saturating_mul(10).saturating_add(u64::from(byte.saturating_sub(48)));
    }
    n
}

// The bytes of all replies, how many they are, and the last one.
fn answers(alloc: Global, source: &[u8], words: &[String], lines: &[u8]) -> Result<Vec<u8>, NoMemory> {
    let mut out = Vec::new(alloc);
    let Ok(found) = front(alloc, source) else {
        out.extend_from_slice(b"refused\n")?;
        return Ok(out);
    };
    let Some(room) = Room::new(1_000_000, 1_000, number(words[2].as_str())) else {
        out.extend_from_slice(b"no such room\n")?;
        return Ok(out);
    };
    let count = number(words[3].as_str());
    let mut session = Session::new(alloc, &found.typed, &found.verified, room)?;
    let mut again = 0;
    let mut at = 0;
    let mut told = 0u64;
    for n in 0..count {
        if at >= lines.len() {
            at = again;
        }
        let (line, next) = line_at(lines, at);
        let (after, reply) = session.line(line)?;
        session = after;
        told = told.saturating_add(reply.len() as u64);
        at = next;
        if n == 0 {
            again = at;
        }
        if n.saturating_add(1) == count {
            out.extend_from_slice(reply.as_slice())?;
        }
    }
    let text = format!(in alloc; "\n{told}\n")?;
    out.extend_from_slice(text.as_bytes())?;
    Ok(out)
}

fn main(rt: HostRuntime) -> ExitCode {
    let alloc = rt.alloc();
    let mut words = Vec::new(alloc);
    if let Ok(args) = env::args(&rt) {
        for word in args {
            let _ = words.push(word);
        }
    }
    if words.len() < 4 {
        let mut err = StdSink::new(rt.stderr());
        let _ = write_all(&mut err, b"fp2: words not understood\n");
        return ExitCode::from(2);
    }
    let mut folder = FileFolder::new(alloc, &rt);
    let mut input = StdSource::new(rt.stdin());
    let mut out = StdSink::new(rt.stdout());
    let Ok(source) = folder.fetch(words[1].as_str(), 1048576) else {
        return ExitCode::from(9);
    };
    let Ok(lines) = read_all(alloc, &mut input, 16777216) else {
        return ExitCode::from(9);
    };
    let Ok(text) = answers(alloc, source.as_slice(), words.as_slice(), lines.as_slice()) else {
        return ExitCode::from(10);
    };
    let _ = write_all(&mut out, text.as_slice());
    ExitCode::from(0)
}
'''
USES = "fip_base fip_room fip_outside fip_session session_lines command_source"


def value(items):
    return "C(7," * items + "N" + ")" * items


# A kind of session: its first line with the reply, and the lines that come again and again, with theirs.
TURNING = ((f"a=t({value(ITEMS)},N)", "ok"), [("a=t(a,N)", "ok")] * 999 + [("?a", "C(7, " * ITEMS + "N" + ")" * ITEMS)])
FILLING = (("?a", "no name a"), [(f"a=t({value(ITEMS)},N)", "ok"), ("b=t(C(1,N),N)", "store too small: 3 needed, 0 left"), ("-a", "ok")])


def replies_of(kind, count):
    """The replies to so many lines."""
    first, again = kind
    rounds, rest = divmod(count - 1, len(again))
    return [first[1]] + [reply for _, reply in again] * rounds + [reply for _, reply in again[:rest]]


def lines_of(kind, count):
    """So many lines."""
    first, again = kind
    rounds, rest = divmod(count - 1, len(again))
    return [first[0]] + [line for line, _ in again] * rounds + [line for line, _ in again[:rest]]


def run(words, text):
    """The seconds of the processor, the KiB at the most, the status and the output of a program on an input."""
    with tempfile.NamedTemporaryFile() as asked, tempfile.NamedTemporaryFile("r") as used:
        asked.write(text)
        asked.flush()
        # (the memory of a child of this process would count that of this one, from before it became the program)
        with open(asked.name, "rb") as given:
            ran = subprocess.run([TIME, "-q", "-f", "%U %S %M", "-o", used.name, *words], stdin=given, capture_output=True, check=False)
        user, system, memory = used.read().split()
    return float(user) + float(system), int(memory), ran.returncode, ran.stdout


def by_host(host, source, kind, count):
    """Seconds and KiB of so many lines through `Session::line`, and whether the replies are right."""
    lines = "\n".join([kind[0][0]] + [line for line, _ in kind[1]]) + "\n"
    seconds, memory, status, out = run([host, source, str(WORDS), str(count)], lines.encode())
    replies = replies_of(kind, count)
    return seconds, memory, status == 0 and out == f"{replies[-1]}\n{sum(map(len, replies))}\n".encode()


def by_command(program, source, kind, count):
    """The same through the command, without twice the input and the replies."""
    text = ("\n".join(lines_of(kind, count)) + "\n").encode()
    seconds, memory, status, out = run([program, "session", source, "--words", str(WORDS)], text)
    right = status == 0 and out == ("\n".join(replies_of(kind, count)) + "\n").encode()
    return seconds, memory - 2 * (len(text) + len(out)) // 1024, right


def measure(name, runs, count):
    """Whether time and memory stay, from a quarter of the lines to all."""
    rows = []
    for part in (4, 2, 1):
        seconds, memory, right = runs(count // part)
        rows.append((seconds * 1e6 / (count // part), memory, right))
        print(f"| {name} | {count // part:,} | {rows[-1][0]:.2f} | {memory:,} | {'right' if right else 'WRONG'} |", flush=True)
    return all(right for _, _, right in rows) and rows[-1][0] < SLOWER * rows[0][0] and rows[-1][1] < rows[0][1] + MORE_KIB


def main():
    parser = argparse.ArgumentParser(description=__doc__.splitlines()[0])
    parser.add_argument("--host", type=pathlib.Path, help="where the program that calls the library is kept, or is to be kept")
    parser.add_argument("--program", help="the program whose command is measured too")
    parser.add_argument("--lines", type=int, default=1_000_000)
    parser.add_argument("--fills", type=int, default=10_000)
    args = parser.parse_args()
    if TIME is None:
        sys.exit("tools/session_long.py: GNU time is needed, and is not on the path")
    with tempfile.TemporaryDirectory() as name:
        folder = pathlib.Path(name)
        host = args.host
        if host is None or not host.exists():
            made = compiled(folder, MAIN, USES)
            host = shutil.copy2(made, host) if host else made
        source = folder / "turn.fp"
        source.write_text(PROGRAM)
        print("| Session | Lines | Microseconds a line | KiB | Replies |")
        print("|---|---|---|---|---|")
        good = measure("`line`, turns a list", lambda n: by_host(host, source, TURNING, n), args.lines)
        good &= measure("`line`, fills and empties", lambda n: by_host(host, source, FILLING, n), args.fills * 3)
        if args.program:
            good &= measure("command, turns a list", lambda n: by_command(args.program, source, TURNING, n), args.lines)
            good &= measure("command, fills and empties", lambda n: by_command(args.program, source, FILLING, n), args.fills * 3)
    return 0 if good else 1


if __name__ == "__main__":
    sys.exit(main())

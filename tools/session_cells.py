#!/usr/bin/env python3
"""Compares the cells of sessions, as the library's calls tell them, with those that the definition says, on random lines.

    tools/session_cells.py --reference PROGRAM [--programs N] [--lines N] [--seed N] [--program PROGRAM]

It compiles, without a proof, a program that answers the lines of a session by `Session::line`, and prints behind each reply what
`Session::held` and `Session::cells` tell: which of some names are held, and of each size the cells that aren't released and those that
are. What these must be is computed here of the replies of a reference, `PROGRAM session FILE ..`, which is asked after each line what
each name holds: the cells that aren't released are those of these values; the cells of a size that were ever made are the most that some
line needed at once, its values and its entry's credits counted; all others are released; and the words that are left are those of the
store less those of all cells, which is compared where a reply tells them. Programs and lines are those of session_fuzz.py. With
`--program` the program that an earlier call made is used again. The status is 1 where a reply or a number differs.
"""
import argparse
import collections
import concurrent.futures
import os
import pathlib
import random
import re
import shutil
import subprocess
import sys
import tempfile

from session_fuzz import KIND, NAMES, TOP, Talk, programs

CALL = re.compile(r"^[\w, \t\r]*=[ \t\r]*(\w+)[ \t\r]*\((.*)\)[ \t\r]*$", re.S)
CREDITS = re.compile(r"^(?:fip|fbip)((?:[ \t]*\+\d+)*)[ \t]+fun[ \t]+(\w+)", re.M)
VALUE = re.compile(r"[A-Z]\w*|-?\d+|[(),]")
RESULTS = re.compile(r"^([\w, \t\r]*)=")
ROOM = re.compile(r"store too small: (\d+) needed, (\d+) left")

MAIN = r'''// Answers the lines of a session, and prints behind each reply what the library's calls tell of names and cells.
#![tactic(auto)]

use cell_store::{Cells, Sealed};
use command_source::front;
use fip_base::plain::NoMemory;
use fip_room::Room;
use fip_outside::all::{read_all, write_all};
use fip_outside::outside::Folder;
use fip_outside::real::{FileFolder, StdSink, StdSource};
use fip_session::Session;
use session_lines::line_at;
use std::alloc::Global;
use std::env;
use std::process::ExitCode;

const NAMES: [&str; NUMBER] = [LIST];

// A number that is written in digits.
fn number(word: &str) -> u64 {
    let mut n = 0u64;
    for byte in word.as_bytes() {
        n = n.saturating_mul(10).saturating_add(u64::from(byte.saturating_sub(48)));
    }
    n
}

// Which names are held.
fn put_names(out: &mut Vec<u8>, session: &Session) -> Result<(), NoMemory> {
    for name in NAMES.iter() {
        if session.held(name.as_bytes()).is_some() {
            out.push(b' ')?;
            out.extend_from_slice(name.as_bytes())?;
        }
    }
    Ok(())
}

// Of each size the cells that aren't released and those that are.
fn put_cells(alloc: Global, out: &mut Vec<u8>, cells: &Sealed) -> Result<(), NoMemory> {
    let mut live = [0usize; 17];
    let mut released = [0usize; 17];
    let mut at = cells.after(None);
    while let Some(place) = at {
        let size = cells.cell_size(place);
        if cells.is_released(place) {
            released[size] += 1;
        } else {
            live[size] += 1;
        }
        at = cells.after(Some(place));
    }
    for size in 1..17usize {
        if live[size] + released[size] > 0 {
            let (kept, free) = (live[size], released[size]);
            let text = format!(in alloc; " {size}:{kept}/{free}")?;
            out.extend_from_slice(text.as_bytes())?;
        }
    }
    Ok(())
}

fn answers(alloc: Global, source: &[u8], words: &[String], input: &[u8]) -> Result<Vec<u8>, NoMemory> {
    let mut out = Vec::new(alloc);
    let Ok(found) = front(alloc, source) else {
        out.extend_from_slice(b"refused\n")?;
        return Ok(out);
    };
    let (store, calls, frames) = (words[2].as_str(), words[3].as_str(), words[4].as_str());
    let Some(room) = Room::new(number(calls), number(frames), number(store)) else {
        out.extend_from_slice(b"no such room\n")?;
        return Ok(out);
    };
    let mut session = Session::new(alloc, &found.typed, &found.verified, room)?;
    let mut at = 0;
    while at < input.len() {
        let (line, next) = line_at(input, at);
        let (after, reply) = session.line(line)?;
        session = after;
        out.extend_from_slice(reply.as_slice())?;
        out.push(b'\n')?;
        put_names(&mut out, &session)?;
        put_cells(alloc, &mut out, session.cells())?;
        out.push(b'\n')?;
        at = next;
    }
    Ok(out)
}

fn main(rt: HostRuntime) -> ExitCode {
    let alloc = rt.alloc();
    let mut words = Vec::new(alloc);
    if let Ok(args) = env::args(&rt) {
        for word in args {
            let _ = words.push(word);
        }
    }
    if words.len() < 5 {
        let mut err = StdSink::new(rt.stderr());
        let _ = write_all(&mut err, b"fp2: words not understood\n");
        return ExitCode::from(2);
    }
    let mut folder = FileFolder::new(alloc, &rt);
    let mut input = StdSource::new(rt.stdin());
    let mut out = StdSink::new(rt.stdout());
    let Ok(source) = folder.fetch(words[1].as_str(), 1048576) else {
        return ExitCode::from(9);
    };
    let Ok(lines) = read_all(alloc, &mut input, 16777216) else {
        return ExitCode::from(9);
    };
    let Ok(text) = answers(alloc, source.as_slice(), words.as_slice(), lines.as_slice()) else {
        return ExitCode::from(10);
    };
    let _ = write_all(&mut out, text.as_slice());
    ExitCode::from(0)
}
'''


# ---- the program

def compiled(folder, main, uses):
    """A program, compiled without a proof of a copy of these sources, in which it stands in the place of fip_cli."""
    copy = folder / "copy"
    listed = subprocess.run(["git", "ls-files", "-co", "--exclude-standard", "--", "crates", "crates.txt", "tools", "fp2"],
                            cwd=TOP, capture_output=True, text=True, check=True).stdout.split("\n")
    for name in filter(None, listed):
        if (TOP / name).is_file():
            (copy / name).parent.mkdir(parents=True, exist_ok=True)
            shutil.copy2(TOP / name, copy / name)
    cli = copy / "crates/fip_cli"
    shutil.rmtree(cli / "proofs", ignore_errors=True)
    (cli / "src/main.rt").write_text(main)
    crates = (copy / "crates.txt").read_text()
    (copy / "crates.txt").write_text(re.sub(r"^fip_cli:.*$", "fip_cli: " + uses, crates, flags=re.M))
    subprocess.run([copy / "fp2", "none"], cwd=copy, env={**os.environ, "FP2_LANES": "0"}, check=False)
    found = [p for p in (copy / "out/unproved").glob("*") if p.is_file() and os.access(p, os.X_OK)]
    if not found:
        sys.exit("the program wasn't made")
    return found[0]


def made_in(folder):
    """The program that tells names and cells."""
    main = MAIN.replace("NUMBER", str(len(NAMES))).replace("LIST", ", ".join(f'"{n}"' for n in NAMES))
    return compiled(folder, main, "fip_base fip_room fip_outside fip_session cell_store session_lines command_source")


# ---- what the definition says

def cells_of(text):
    """How many cells of each size a value has, by its text; None where it is no value's text."""
    words = VALUE.findall(text)
    if "".join(words) != re.sub(r"[ \t\r]", "", text):
        return None
    cells, open_ones = collections.Counter(), []
    for word, behind in zip(words, words[1:] + [""]):
        if word == "(":
            open_ones.append(1)
        elif word == "," and open_ones:
            open_ones[-1] += 1
        elif word == ")" and open_ones:
            cells[open_ones.pop()] += 1
    return None if open_ones else cells


def parts_of(text):
    """What stands between the commas outside of brackets."""
    parts, depth = [""], 0
    for c in text:
        depth += (c == "(") - (c == ")")
        if c == "," and depth == 0:
            parts.append("")
        else:
            parts[-1] += c
    return [p.strip(" \t\r") for p in parts]


def needed_by(line, credits):
    """How many cells of each size the values of a call and the credits of its function need."""
    name, given = CALL.match(line).groups()
    need = collections.Counter(credits.get(name, []))
    for part in parts_of(given):
        if part[:1].isupper():
            need += cells_of(part)
    return need


def binds_others(line):
    """Whether a line has a result name that isn't asked for, and so would hold cells that aren't counted here."""
    found = RESULTS.match(line)
    return found is not None and any(name.strip(" \t\r") not in NAMES for name in found[1].split(","))


def asked(lines):
    """The lines, each followed by a question for each name."""
    return [text for line in lines for text in [line] + ["?" + name for name in NAMES]]


def expected(lines, replies, credits, words):
    """The lines that the program must print, and which words must be left where a reply tells them."""
    made, live, wanted, wrong = collections.Counter(), collections.Counter(), [], []
    step = 1 + len(NAMES)
    for n, line in enumerate(lines):
        reply, held = replies[n * step], replies[n * step + 1:(n + 1) * step]
        room = ROOM.fullmatch(reply)
        left = words - sum(count * (size + 1) for size, count in made.items())
        if room and int(room[2]) != left:
            wrong.append(f"line {n + 1}: {room[2]} words are left, of which {left} are expected")
        kind = (KIND.match(reply.encode("latin-1")) or [b""])[0]
        if kind in (b"trap", b"out of calls", b"out of frames") or (kind == b"ok" and CALL.match(line)):
            for size, count in (live + needed_by(line, credits)).items():
                made[size] = max(made[size], count)
        values = {name: text for name, text in zip(NAMES, held) if text != "no name " + name}
        live = sum((cells_of(text) for text in values.values()), collections.Counter())
        names = "".join(" " + name for name in NAMES if name in values)
        sizes = "".join(f" {size}:{live[size]}/{made[size] - live[size]}" for size in sorted(made) if made[size])
        wanted += [reply, names + sizes]
    return wanted, wrong


# ---- both sides

def compare(args, program, folder, number, text, seed):
    """The numbers of lines and of differences of one program; what differs first is printed."""
    rng = random.Random(seed)
    talk = Talk(rng, text)
    lines = [line if not binds_others(line) else "?" + NAMES[0] for line in (talk.line() for _ in range(args.lines))]
    words, calls, frames = rng.choice([0, 12, 60, 200, 200, 1000, 5000]), rng.choice([0, 3, 10, 1000, 1000, 1000]), rng.choice([0, 1, 3, 1000])
    source = folder / f"p{number}.fp"
    source.write_text(text)
    credits = {name: [int(k) for k in re.findall(r"\d+", marks)] for marks, name in CREDITS.findall(text)}

    def told(command, given):
        ran = subprocess.run(command, input="\n".join(given).encode("latin-1") + b"\n", capture_output=True, check=False)
        return ran.stdout.decode("latin-1").split("\n")[:-1]

    room = ["--words", str(words), "--calls", str(calls), "--frames", str(frames)]
    theirs = told([args.reference, "session", str(source), *room], asked(lines))
    ours = told([program, str(source), str(words), str(calls), str(frames)], lines)
    wanted, wrong = expected(lines, theirs, credits, words)
    places = [n for n, (a, b) in enumerate(zip(ours, wanted)) if a != b] or ([len(ours)] if len(ours) != len(wanted) else [])
    if places or wrong:
        at = places[0] if places else 0
        line = lines[at // 2] if at // 2 < len(lines) else ""
        print(f"program {number}, {' '.join(room)}, line {at // 2 + 1}: {line!r}\n  {ours[at:at + 1]}\n  {wanted[at:at + 1]}\n{wrong[:1]}\n{text}",
              file=sys.stderr)
    return len(lines), len(places) + len(wrong)


def main():
    parser = argparse.ArgumentParser(description=__doc__.splitlines()[0])
    parser.add_argument("--reference", required=True)
    parser.add_argument("--program", type=pathlib.Path, help="where the program is kept, or is to be kept")
    parser.add_argument("--programs", type=int, default=200)
    parser.add_argument("--lines", type=int, default=500, help="of each program")
    parser.add_argument("--seed", type=int, default=1)
    parser.add_argument("--jobs", type=int, default=1)
    args = parser.parse_args()
    rng = random.Random(args.seed)
    lines, different = 0, 0
    with tempfile.TemporaryDirectory() as name, concurrent.futures.ThreadPoolExecutor(args.jobs) as pool:
        folder = pathlib.Path(name)
        program = args.program
        if program is None or not program.exists():
            made = made_in(folder)
            program = shutil.copy2(made, program) if program else made
        texts = programs(rng, args.programs)
        runs = [pool.submit(compare, args, program, folder, n, t, args.seed * 1000003 + n) for n, t in enumerate(texts)]
        for run in runs:
            more, worse = run.result()
            lines, different = lines + more, different + worse
    print(f"{lines} lines over {args.programs} programs, each with its reply, the names that are held and the cells of each size; {different} differ")
    return 1 if different else 0


if __name__ == "__main__":
    sys.exit(main())

#!/usr/bin/env python3
"""Measures fp2 and programs of other languages side by side. See README.md.

    bench/run.py                                 all that is installed; writes RESULTS.md and results.svg
    bench/run.py --program PATH --minutes 20     another program than the built one, more repetitions
    bench/run.py --instructions                  only counts instructions, which needs no idle machine, and keeps them
    bench/run.py --only c,fp2 --workloads life   a part, into the build folder alone
    bench/run.py --check                         every peer answers every workload once, and nothing is measured
    bench/run.py --show PATH                     tables and picture again, from the numbers of an earlier run

What is built is put into the folder BENCH_BUILD, else fp2-bench among the temporary files, and so are the numbers of
all runs, as last.json, and the counts of instructions, as counts.json. The status is 1 where an output was wrong.
"""
import argparse
import concurrent.futures
import hashlib
import json
import math
import os
import platform
import random
import shutil
import statistics
import subprocess
import sys
import tempfile
import textwrap
import threading
import time
from pathlib import Path

HERE = Path(__file__).resolve().parent
TOP = HERE.parent
BUILD = Path(os.environ.get("BENCH_BUILD", Path(tempfile.gettempdir()) / "fp2-bench"))
sys.dont_write_bytecode = True
sys.path[:0] = [str(TOP / "examples"), str(TOP / "tools")]
import building  # noqa: E402
import expected  # noqa: E402  the gallery's results by other means

SEED = 7
# What README.md shows of the results, and before which line.
BEFORE = "## How it is built\n"
SHOWN = """## Measured beside other languages

![fp2 and other languages, as ratios to C in place](bench/results.svg)

[The results](bench/RESULTS.md) name machine, versions and date; `bench/run.py` makes them anew.

"""
RATIOS = (("kernel_s", "time_to_c"), ("rss_kb", "peak_to_c"), ("instructions", "instructions_to_c"))


# ---- workloads: inputs, and the outputs by other means ----
def following(x):
    return (x * 1103515245 + 12345) % 2**31


def drawn(n):
    x, found = 1, []
    for _ in range(n):
        x = following(x)
        found.append(x)
    return found


def chain(cell, end, items):
    items = list(items)
    return "".join(f"{cell}({x}, " for x in items) + end + ")" * len(items) + "\n"


def perfect(name, low, high, plus=0):
    """The text of a perfect tree of the numbers from low to high."""
    if low > high:
        return "Leaf"
    x = (low + high) // 2
    return f"{name}({perfect(name, low, x - 1, plus)}, {x + plus}, {perfect(name, x + 1, high, plus)})"


def reverse(n, m):
    items = range(1, n + 1)
    return f"{m}\n" + chain("Cons", "Nil", items), chain("Cons", "Nil", items[::-1] if m % 2 else items)


def redblack(n, m):
    """m is how often the tree is built."""
    x, keys = SEED, set()
    for _ in range(n):
        x = following(x)
        keys.add(x)
    return f"{SEED} {n} {m}\n", f"keys {n}\nnodes {len(keys)}\nleast {min(keys)}\ngreatest {max(keys)}\n"


def treemap(n, m):
    return f"{m}\n{perfect('Bin', 1, n)}\n", perfect("Bin", 1, n, m) + "\n"


def mixed(items, m):
    """Each item changed m times by the linear congruence, at once."""
    factor, term = 1, 0
    for _ in range(m):
        factor, term = factor * 1103515245 % 2**31, following(term)
    return [(x * factor + term) % 2**31 for x in items] if m else items


def mergesort(n, m):
    items = drawn(n)
    after = mixed(items, m)
    return f"{m}\n" + chain("Cons", "Nil", items), chain("Cons", "Nil", sorted(after) if m else after)


def pairing(n, m):
    items = drawn(n)
    after = mixed(items, m)
    texts = [chain("Item", "End", (f"{x}, 0" for x in xs)) for xs in (items, sorted(after)[::-1] if m else after)]
    return f"{m}\n" + texts[0], texts[1]


def splay(n, m):
    text = perfect("Node", 1, n)
    nodes, x = expected.Nodes(expected.parse(text), 2), SEED
    for _ in range(m):
        x = following(x)
        node, _ = nodes.search(x // 65536 % 8192)
        while node is not None and node["up"] is not None:
            up = node["up"]
            if up["up"] is not None:
                nodes.raise_over(up if nodes.side(node) == nodes.side(up) else node)
            nodes.raise_over(node)
    return f"{m}\n{SEED}\n{text}\n", expected.show(nodes.tree(False)) + "\n"


def life(n, m):
    """A torus of fifteen fields a row."""
    rows = ["".join(str(x // 65536 % 3 // 2) for x in drawn(15 * n)[15 * i : 15 * i + 15]) for i in range(n)]
    given = expected.cons(map(int, rows))
    return f"{m}\n{10**14}\n{expected.show(given)}\n", expected.show(expected.life(m, 10**14, given)[0]) + "\n"


def letters():
    """A code for 26 symbols, the n-th one as frequent as 1 in n."""
    heap = sorted((1 / n, n, ("Symbol", n)) for n in range(1, 27))
    while len(heap) > 1:
        (a, i, left), (b, _, right) = heap[:2]
        heap = sorted([*heap[2:], (a + b, i, ("Fork", left, right))])
    return heap[0][2]


def huffman(n, m):
    code, items, seed = letters(), [0] * n, SEED
    words = expected.words_of(code)
    for _ in range(m):
        bits, symbols, word = [], [], ""
        for _ in items:
            seed = following(seed)
            bits.append("01"[seed // 65536 % 2])
        for bit in reversed(bits):
            word += bit
            if word in words:
                symbols.append(words[word])
                word = ""
        items = symbols[::-1] + [0] * (n - len(symbols))
    return f"{m}\n{SEED}\n{expected.show(code)}\n" + chain("Cons", "Nil", [0] * n), chain("Cons", "Nil", items)


class Workload:
    """n is the size, m how often; `few` is how often where instructions are counted."""

    def __init__(self, number, case, n, m, few, what, step, words=None, gallery=True):
        self.number, self.case, self.n, self.m, self.few = number, case, n, m, few
        self.what, self.step, self.words, self.gallery = what, step, words, gallery
        self.name = case.__name__

    def entry(self):
        """The words behind the code file that `machine` is given."""
        return ["build", "gen"] if self is REDBLACK else [self.words.split()[-1]]

    def variants(self):
        return ("full", "base")

    def size(self, variant, scale):
        """`base` is all but the kernel: text in and out, or for redblack the program's start."""
        if variant == "small":
            return (5, 1 if self is REDBLACK else 3)
        if self is REDBLACK:
            return (1, 1) if variant == "base" else (self.n, scale if variant == "full" else 1)
        return self.n, {"base": 0, "full": self.m * scale, "few": self.few}[variant]

    def steps(self, m):
        return self.n * m if self.name != "splay" else m


REDBLACK = Workload(2, redblack, 100_000, 1, 1, "100,000 drawn keys are inserted into a red-black tree", "insert",
                    "gen {seed} {n}", False)
WORKLOADS = {w.name: w for w in (
    Workload(1, reverse, 100_000, 100, 4, "a list of 100,000 numbers is reversed 100 times", "cell",
             "exec reverse.fp times", False),
    REDBLACK,
    Workload(3, treemap, 2**17 - 1, 50, 2, "each number of a tree of 131,071 nodes grows by 1, 50 times", "node",
             "exec treemap.fp times", False),
    Workload(4, mergesort, 50_000, 10, 1, "50,000 numbers are changed and sorted, 10 times", "item",
             "exec mergesort.fp rounds"),
    Workload(5, splay, 8191, 50_000, 2000, "50,000 drawn keys are looked for in a splay tree of 8,191 nodes", "search",
             "exec splay.fp rounds"),
    Workload(6, pairing, 20_000, 5, 1, "20,000 numbers are pushed onto a pairing heap and popped, 5 times", "item",
             "exec pairing.fp rounds"),
    Workload(7, life, 16, 2000, 50, "2,000 turns of the game of life on 16 rows of 15 fields", "row",
             "exec life.fp live"),
    Workload(8, huffman, 50_000, 20, 1, "50,000 drawn bits are decoded by a code of 26 symbols, 20 times", "bit",
             "exec huffman.fp rounds"),
)}


# ---- peers ----
def have(*tools):
    return all(shutil.which(t) for t in tools)


def sh(*cmd, **kw):
    r = subprocess.run([str(c) for c in cmd], capture_output=True, text=True, cwd=HERE, **kw)
    if r.returncode:
        raise RuntimeError(f"{cmd}: {r.stderr or r.stdout}")


class Peer:
    """name, needed tools, Debian package, what it is, how it is built and started; how often the kernel is run where
    one run is too short; whether its instructions are counted"""

    def __init__(self, name, tools, package, what, build, cmd, env=None, scale=None, count=False):
        self.name, self.tools, self.package, self.what = name, tools, package, what
        self.build, self.cmd, self.env = build, cmd, env or {}
        self.scale, self.count = scale or {}, count

    def there(self):
        return have(*self.tools)


def build_c(_):
    for w in WORKLOADS.values():
        sh("gcc", "-O2", f"-DW={w.number}", "c/peer.c", "-o", BUILD / f"peer-{w.name}")


def build_machine(program):
    """The interpreter, and the code files that it runs: those that the program stores."""
    build_fp2(program)
    if not os.access(program, os.X_OK):
        raise RuntimeError("its code files are stored by fp2, which isn't there")
    sh("gcc", "-O2", "-fno-gcse", "c/machine.c", "-o", BUILD / "machine")
    (BUILD / "fp2/redblack.fp").write_text(subprocess.run([program, "library", "rbtree"], capture_output=True,
                                                          text=True).stdout)
    for name in WORKLOADS:
        sh(program, "compile", BUILD / f"fp2/{name}.fp", BUILD / f"fp2/{name}.fpc")


def build_wasm(w, key, input_file):
    text = f'-DTEXT="{os.path.relpath(input_file, HERE)}"'
    sh("clang", "--target=wasm32", "-O2", "-fno-builtin", "-nostdlib", f"-DW={w.number}", text, "-Wl,--no-entry",
       "c/peer.c", "-o", BUILD / f"{w.name}.{key}.wasm")


def build_ocaml(_):
    (BUILD / "ocaml").mkdir(exist_ok=True)
    shutil.copy(HERE / "ocaml/peer.ml", BUILD / "ocaml/peer.ml")
    if have("ocamlopt"):
        sh("ocamlopt", "-O3", "-o", BUILD / "peer.opt", BUILD / "ocaml/peer.ml")
    sh("ocamlc", "-o", BUILD / "peer.byte", BUILD / "ocaml/peer.ml")


def build_guile(_):
    sh("guile", "--no-auto-compile", "-c",
       '(use-modules (system base compile)) (compile-file "guile/peer.scm"'
       f' #:output-file "{BUILD}/guile.go" #:optimization-level 3)')


def build_chez(_):
    sh("chezscheme", "-q", input=f'(optimize-level 2) (compile-program "chez/peer.ss" "{BUILD}/chez.so")')


def build_fp2(_):
    """The gallery's programs, each followed by its rounds; and two programs of this folder."""
    (BUILD / "fp2").mkdir(exist_ok=True)
    for w in WORKLOADS.values():
        parts = [TOP / "examples" / f"{w.name}.fp"] if w.gallery else []
        rounds = HERE / "fp2" / f"{w.name}.fp"
        parts += [rounds] if rounds.is_file() else []
        (BUILD / "fp2" / f"{w.name}.fp").write_text("".join(p.read_text() for p in parts))


GUILE = ["guile", "--no-auto-compile", "-c", f'(load-compiled "{BUILD}/guile.go")']
PYTHON = sys.executable or "python3"
NONE = lambda _: None
PEERS = [
    Peer("fp2", [], "", "this program", build_fp2, None, count=True),
    Peer("c", ["gcc"], "gcc", "native, in place, fixed store", build_c, lambda w: [f"{BUILD}/peer-{w}"],
         scale={"reverse": 30, "redblack": 20, "treemap": 20, "mergesort": 4, "splay": 4, "life": 50, "huffman": 4},
         count=True),
    Peer("machine", ["gcc"], "gcc", "least interpreter of fp2's code files, in C", build_machine,
         lambda w: [f"{BUILD}/machine", f"{BUILD}/fp2/{w}.fpc", *WORKLOADS[w].entry()],
         scale={"reverse": 2, "redblack": 4, "life": 4}, count=True),
    Peer("ocamlopt", ["ocamlopt"], "ocaml-nox", "native, functional, collector", build_ocaml,
         lambda w: [f"{BUILD}/peer.opt", w], scale={"redblack": 4, "life": 4}, count=True),
    Peer("ocamlrun", ["ocamlc", "ocamlrun"], "ocaml-nox", "bytecode, functional, collector", build_ocaml,
         lambda w: ["ocamlrun", f"{BUILD}/peer.byte", w], count=True),
    Peer("lua5.4", ["lua5.4"], "lua5.4", "bytecode; in place, redblack functional", NONE,
         lambda w: ["lua5.4", "lua/peer.lua", w], count=True),
    Peer("luajit-off", ["luajit"], "luajit", "as lua5.4, LuaJIT's interpreter", NONE,
         lambda w: ["luajit", "-joff", "lua/peer.lua", w]),
    Peer("luajit", ["luajit"], "luajit", "as lua5.4, compiled while it runs", NONE,
         lambda w: ["luajit", "lua/peer.lua", w]),
    Peer("guile-vm", ["guile"], "guile-3.0", "bytecode, functional, collector", build_guile,
         lambda w: GUILE, env={"GUILE_JIT_THRESHOLD": "-1"}),
    Peer("guile", ["guile"], "guile-3.0", "as guile-vm, compiled while it runs", build_guile, lambda w: GUILE),
    Peer("chez", ["chezscheme"], "chezscheme", "native, functional, collector", build_chez,
         lambda w: ["chezscheme", "--program", f"{BUILD}/chez.so"],
         scale={"reverse": 4, "redblack": 4, "treemap": 2, "life": 4}),
    Peer("mruby", ["mruby"], "mruby", "bytecode; in place, redblack functional", NONE,
         lambda w: ["mruby", "mruby/peer.rb", w], count=True),
    Peer("gforth", ["gforth-fast"], "gforth", "threaded code, in place, fixed store", NONE,
         lambda w: ["gforth-fast", "-m", "96M", "gforth/peer.fs"],
         scale={"reverse": 3, "redblack": 4, "treemap": 2}),
    Peer("wasm-interp", ["wasm-interp", "clang", "wasm-ld"], "wabt clang lld",
         "wabt's interpreter on the C peer", NONE, None),
    Peer("python3", [PYTHON], "python3", "bytecode; in place, redblack functional", NONE,
         lambda w: [PYTHON, "python/peer.py", w], count=True),
]


def fnv(b):
    h = 0xCBF29CE484222325
    for c in b:
        h = ((h ^ c) * 0x100000001B3) & (2**64 - 1)
    return h


def input_file(w, variant, scale):
    return BUILD / f"{w.name}.{variant}{scale}.in"


def made_case(job):
    """Writes the input of a workload's variant, and gives the output by other means."""
    name, variant, scale = job
    w = WORKLOADS[name]
    given, output = w.case(*w.size(variant, scale))
    input_file(w, variant, scale).write_text(given)
    return output.encode()


# ---- one run ----
class Bench:
    def __init__(self, program):
        self.program = program
        self.wanted = {}

    def prepare(self, jobs):
        """Makes the inputs and outputs of these peers, workloads, variants and scales, by all processors."""
        keys = sorted({(w.name, variant, scale) for _, w, variant, scale in jobs} - self.wanted.keys())
        with concurrent.futures.ProcessPoolExecutor(building.processors()) as pool:
            self.wanted.update(zip(keys, pool.map(made_case, keys)))
        for peer, w, variant, scale in jobs:
            if peer.name == "wasm-interp":
                build_wasm(w, f"{variant}{scale}", input_file(w, variant, scale))

    def command(self, peer, w, variant, scale):
        """(words, folder, environment, input)"""
        f, key = input_file(w, variant, scale), f"{variant}{scale}"
        if peer.name == "fp2":
            words = w.words.format(seed=SEED, n=w.size(variant, scale)[0]).split()
            return [self.program, *words], BUILD / "fp2", {}, os.devnull if w is REDBLACK else f
        if peer.name == "wasm-interp":
            return ["wasm-interp", f"{BUILD}/{w.name}.{key}.wasm", "--run-all-exports"], HERE, {}, os.devnull
        return peer.cmd(w.name), HERE, {**peer.env, "PEER": w.name}, f

    def right(self, peer, w, variant, scale, out):
        want = self.wanted[w.name, variant, scale]
        if peer.name == "wasm-interp":
            want = b"start() => i64:%d\n" % fnv(want)
        return out == want

    def run(self, peer, w, variant, scale=1, prefix=()):
        cmd, folder, env, given = self.command(peer, w, variant, scale)
        out = BUILD / f"out-{threading.get_ident()}"
        p = subprocess.run([str(BUILD / "meter"), str(given), str(out), *prefix, *cmd], cwd=folder,
                           env={**os.environ, **env}, capture_output=True, text=True)
        status, user, sys_, rss, wall = map(int, p.stdout.split())
        if status or not self.right(peer, w, variant, scale, out.read_bytes()):
            raise RuntimeError(f"{peer.name} {w.name} {variant}: status {status}, "
                               f"{'wrong output' if not status else p.stderr[-300:]}")
        return {"user": user / 1e6, "cpu": (user + sys_) / 1e6, "wall": wall / 1e6, "rss_kb": rss, "err": p.stderr}

    def instructions(self, peer, w, variant):
        r = self.run(peer, w, variant, prefix=["valgrind", "--tool=cachegrind", "--cache-sim=no",
                                               "--cachegrind-out-file=/dev/null"])
        line = next(l for l in r["err"].splitlines() if "refs:" in l)
        return int(line.split(":")[1].strip().replace(",", ""))


# ---- what is written ----
def num(x):
    if x is None:
        return ""
    return f"{x:,.0f}" if abs(x) >= 100 else f"{x:.1f}" if abs(x) >= 10 else f"{x:.2f}"


def versions(packages):
    r = subprocess.run(["dpkg-query", "-W", "-f", "${Package} ${Version}\n", *packages], capture_output=True, text=True)
    return dict(l.split() for l in r.stdout.splitlines() if len(l.split()) == 2)


def machine():
    model = platform.processor() or platform.machine()
    try:
        lines = Path("/proc/cpuinfo").read_text().splitlines()
        model = next((l.split(":")[1].strip() for l in lines if l.startswith("model name")), model)
    except OSError:
        pass
    memory = os.sysconf("SC_PAGE_SIZE") * os.sysconf("SC_PHYS_PAGES") / 2**30
    return f"{model}, {os.cpu_count()} processors, {memory:.0f} GiB, {platform.system()} {platform.release()}"


def heading(out):
    packages = ", ".join(f"{k} {v}" for k, v in sorted(out["packages"].items()))
    return [f"Date: {out['date']}. Machine: {out['machine']}.",
            f"Program: sha256 {out['sha256'][:16]}. Versions: {packages}.",
            f"Times are medians of {out['reps']} runs in an order shuffled each time, {out['metric']}, less those of"
            " text alone; in parentheses the least and the most."]


def ordered(res):
    return sorted(res, key=lambda n: res[n]["kernel_s"])


def markdown(out):
    lines = ["# Results", "", "Written by `bench/run.py`; README.md says what is measured, and how.", "",
             "![fp2 and other languages, as ratios to C in place](results.svg)", ""]
    lines += [x for line in heading(out) for x in (line, "")]
    for name, res in out["workloads"].items():
        w = WORKLOADS[name]
        lines += [f"## {name}: {w.what}", "",
                  f"| | ms | a {w.step}, ns | to C | peak, MiB | to C | instructions a {w.step} | to C |",
                  "|---|--:|--:|--:|--:|--:|--:|--:|"]
        for n in ordered(res):
            r = res[n]
            spread = f"{num(r['kernel_s'] * 1e3)} ({num(r['least_s'] * 1e3)} .. {num(r['most_s'] * 1e3)})"
            lines.append("| " + " | ".join([
                n, spread, num(r["step_ns"]), num(r.get("time_to_c")), num(r["rss_kb"] / 1024), num(r.get("peak_to_c")),
                num(r.get("instructions")), num(r.get("instructions_to_c"))]) + " |")
        lines.append("")
    if out["absent"]:
        lines += ["Not measured: " + "; ".join(out["absent"]) + ".", ""]
    return "\n".join(lines)


def escape(text):
    return text.replace("&", "&amp;").replace("<", "&lt;").replace(">", "&gt;")


class Picture:
    """One panel for each workload: bars for time, circles for peak memory, diamonds for instructions, all to C."""

    WIDE, ROW, NAME, GAP = 560, 17, 96, 34

    def __init__(self, out):
        self.out, self.parts = out, []
        ratios = [r[k] for res in out["workloads"].values() for r in res.values()
                  for _, k in RATIOS if r.get(k)]
        self.low, self.high = min([0.5, *ratios]), max([10, *ratios]) * 1.3

    def x(self, ratio):
        part = math.log(max(ratio, self.low) / self.low) / math.log(self.high / self.low)
        return self.NAME + (self.WIDE - self.NAME - 20) * part

    def line(self, x, top, bottom, color):
        self.parts.append(f'<path d="M{x:.1f} {top:.1f}V{bottom:.1f}" stroke="{color}"/>')

    def bar(self, x, y, width, height, color):
        self.parts.append(f'<rect x="{x:.1f}" y="{y:.1f}" width="{max(width, 1):.1f}" height="{height}" '
                          f'fill="{color}"/>')

    def text(self, x, y, text, size=11, anchor="start", weight="normal", fill="#222"):
        self.parts.append(f'<text x="{x:.1f}" y="{y:.1f}" font-size="{size}" text-anchor="{anchor}" '
                          f'font-weight="{weight}" fill="{fill}">{escape(text)}</text>')

    def mark(self, kind, x, y):
        if kind == "peak_to_c":
            self.parts.append(f'<circle cx="{x:.1f}" cy="{y:.1f}" r="3.6" fill="#fff" stroke="#b3541e"'
                              ' stroke-width="1.6"/>')
        else:
            self.parts.append(f'<path d="M{x:.1f} {y - 4.5:.1f}l4.5 4.5l-4.5 4.5l-4.5 -4.5z" fill="#333"/>')

    def panel(self, name, left, top):
        res = self.out["workloads"][name]
        names = ordered(res)
        self.text(left, top, f"{name}: {WORKLOADS[name].what}", 12, weight="bold")
        bottom = top + 10 + self.ROW * len(names)
        power = 1
        while power <= self.high:
            x = left + self.x(power)
            self.line(x, top + 8, bottom, "#888" if power == 1 else "#ddd")
            self.text(x, bottom + 12, f"{power}", 10, "middle", fill="#666")
            power *= 10
        for i, n in enumerate(names):
            r, y = res[n], top + 10 + self.ROW * i
            own = n == "fp2"
            self.text(left + self.NAME - 8, y + 12, n, 11, "end", "bold" if own else "normal")
            if r.get("time_to_c"):
                a, b = sorted((self.x(1), self.x(r["time_to_c"])))
                self.bar(left + a, y + 3, b - a, self.ROW - 6, "#2f6db3" if own else "#a9c4e0")
            for kind in ("peak_to_c", "instructions_to_c"):
                if r.get(kind):
                    self.mark(kind, left + self.x(r[kind]), y + self.ROW / 2)
        return bottom + 12 + self.GAP

    def draw(self):
        lines = [part for line in heading(self.out) for part in textwrap.wrap(line, 180)]
        tops = 2 * [67 + 15 * len(lines)]
        for name in self.out["workloads"]:
            side = tops.index(min(tops))
            tops[side] = self.panel(name, 16 + side * self.WIDE, tops[side])
        height, width = max(tops), 2 * self.WIDE + 16
        body, self.parts = self.parts, []
        title = "fp2 and other languages, as ratios to C in place (logarithmic, less is better)"
        self.text(16, 26, title, 16, weight="bold")
        for i, line in enumerate(lines):
            self.text(16, 46 + 15 * i, line, 10, fill="#555")
        self.bar(width - 330, 17, 14, 10, "#a9c4e0")
        self.text(width - 310, 26, "time")
        self.mark("peak_to_c", width - 250, 22)
        self.text(width - 240, 26, "peak memory")
        self.mark("instructions_to_c", width - 140, 22)
        self.text(width - 130, 26, "instructions")
        return "\n".join([f'<svg xmlns="http://www.w3.org/2000/svg" width="{width}" height="{height:.0f}" '
                          f'viewBox="0 0 {width} {height:.0f}" font-family="sans-serif">',
                          f'<rect width="{width}" height="{height:.0f}" fill="#fff"/>',
                          *self.parts, *body, "</svg>", ""])


def write(out, folder):
    text = markdown(out)
    folder.mkdir(parents=True, exist_ok=True)
    (folder / "RESULTS.md").write_text(text)
    (folder / "results.svg").write_text(Picture(out).draw())
    print(text)
    print(f"written: {folder / 'RESULTS.md'}, {folder / 'results.svg'}")
    if folder == HERE:
        link()


def link():
    """Lets README.md show the picture, where it doesn't yet."""
    readme = TOP / "README.md"
    text = readme.read_text()
    if "bench/results.svg" not in text:
        readme.write_text(text.replace(BEFORE, SHOWN + BEFORE, 1))
        print(f"written: {readme}")


# ---- the whole ----
def words():
    a = argparse.ArgumentParser()
    a.add_argument("--program", help="the program that is measured: the proved one, unless given")
    a.add_argument("--reps", type=int, default=9, help="the most repetitions")
    a.add_argument("--minutes", type=float, default=6, help="no repetition begins that would end later than this")
    a.add_argument("--only", help="peers, by commas (c is always there)")
    a.add_argument("--workloads", default=",".join(WORKLOADS))
    a.add_argument("--metric", choices=["wall", "user", "cpu"], default="wall", help="cpu is user and system time")
    a.add_argument("--instructions", action="store_true", help="only count instructions, and keep the counts")
    a.add_argument("--no-instructions", action="store_true", help="count no instructions")
    a.add_argument("--check", action="store_true", help="only compare outputs")
    a.add_argument("--to", type=Path, help="the folder that is written to: that of this script, unless a part is run")
    a.add_argument("--show", help="tables and picture again, from such a file")
    o = a.parse_args()
    o.names = o.workloads.split(",")
    for name in o.names:
        if name not in WORKLOADS:
            a.error(f"no workload {name}")
    if not o.show and not have("gcc"):
        a.error("gcc is needed: it is the measure and builds the meter")
    return o


def built(o):
    """The peers that are there, and what keeps the others."""
    only = set(o.only.split(",")) | {"c"} if o.only else None
    peers, absent = [], []
    for p in PEERS:
        if only and p.name not in only:
            continue
        if p.name == "fp2" and not os.access(o.program, os.X_OK):
            absent.append(f"fp2: {o.program} isn't there, ./fp2 builds it")
        elif not p.there():
            absent.append(f"{p.name} (apt-get install {p.package})")
        else:
            try:
                p.build(o.program)
                peers.append(p)
            except RuntimeError as e:
                absent.append(f"{p.name}: {e}")
    return peers, absent


def answered(b, peer, w):
    """The peak of the plain full run of a peer, which answers before it is measured; or why it has none."""
    try:
        return [b.run(peer, w, v)["rss_kb"] for v in ("small", "base", "full")][-1]
    except (RuntimeError, ValueError) as e:
        return str(e)


def answers(b, peers, names, check):
    """Every peer answers every workload, by all processors: the peaks, and who was wrong."""
    pairs = [(p, WORKLOADS[name]) for name in names for p in peers]
    jobs = [(p, w, v, 1) for p, w in pairs for v in ("small", "base", "full")]
    b.prepare(jobs if check else jobs + [(p, w, "full", p.scale.get(w.name, 1)) for p, w in pairs])
    rss, bad = {}, []
    with concurrent.futures.ThreadPoolExecutor(building.processors()) as pool:
        for (p, w), found in zip(pairs, pool.map(lambda pair: answered(b, *pair), pairs)):
            if isinstance(found, str):
                bad.append(f"{p.name} {w.name}")
                print(f"left out: {found}", file=sys.stderr)
            else:
                rss[p.name, w.name] = found
    print(f"compared: {len(rss)} of {len(pairs)}", file=sys.stderr)
    return rss, bad


def measured(b, peers, rss, o):
    """The numbers of each run, and how often all were repeated: while a further repetition fits into the minutes."""
    raw, start, reps = {}, time.time(), 0
    jobs = [(p, w, v) for p in peers for w in WORKLOADS.values() for v in w.variants() if (p.name, w.name) in rss]
    while reps < o.reps and (time.time() - start) * (reps + 1) <= o.minutes * 60 * max(reps, 1):
        random.Random(reps).shuffle(jobs)
        for p, w, v in jobs:
            r = b.run(p, w, v, p.scale.get(w.name, 1) if v == "full" else 1)
            r.pop("err")
            raw.setdefault((p.name, w.name, v), []).append(r)
        reps += 1
        print(f"repetition {reps}, {time.time() - start:.0f} s", file=sys.stderr)
    return raw, reps


def state(b, peer):
    """A hash of what counts of a peer's instructions depend on: versions, the bench, the examples, for some the program."""
    found = hashlib.sha256(json.dumps([machine(), versions(peer.package.split()), sys.version]).encode())
    own = [Path(b.program)] if peer.name in ("fp2", "machine") else []
    for path in [*own, *sorted(HERE.rglob("*")), *sorted((TOP / "examples").glob("*.fp"))]:
        if path.is_file() and path.suffix not in (".md", ".svg", ".pyc"):
            found.update(path.read_bytes())
    return found.hexdigest()


def counted(b, peers, names):
    """Instructions a step by valgrind, by all processors; counts.json keeps those that were counted before."""
    kept = BUILD / "counts.json"
    states = {p.name: state(b, p) for p in peers if p.count}
    found = json.loads(kept.read_text()) if kept.is_file() else {}
    found = {key: it for key, it in found.items() if states.get(key.split()[0]) in (None, it["state"])}
    pairs = [(p, WORKLOADS[name]) for p in peers for name in names if p.count and f"{p.name} {name}" not in found]
    b.prepare([(p, w, v, 1) for p, w in pairs for v in ("few", "base")])

    def count(pair):
        p, w = pair
        try:
            many, few = (b.instructions(p, w, v) for v in ("few", "base"))
            return (many - few) / w.steps(w.few)
        except (RuntimeError, StopIteration) as e:
            print(f"not counted: {p.name} {w.name}: {e}", file=sys.stderr)
            return None

    with concurrent.futures.ThreadPoolExecutor(building.processors()) as pool:
        for (p, w), number in zip(pairs, pool.map(count, pairs)):
            if number is not None:
                found[f"{p.name} {w.name}"] = {"state": states[p.name], "count": number}
    kept.write_text(json.dumps(found, indent=1) + "\n")
    print(f"counted: {len(pairs)} now, {len(found)} kept", file=sys.stderr)
    return {key: it["count"] for key, it in found.items()}


def results(peers, names, rss, raw, counts, metric):
    out = {}
    for name in names:
        w, res = WORKLOADS[name], {}
        for p in peers:
            if (p.name, name) not in rss:
                continue
            full, base = ([r[metric] for r in raw[p.name, name, v]] for v in ("full", "base"))
            kernel = [(f - t) / p.scale.get(name, 1) for f, t in zip(full, base)]
            k = statistics.median(kernel)
            res[p.name] = {"kernel_s": k, "least_s": min(kernel), "most_s": max(kernel), "rss_kb": rss[p.name, name],
                           "step_ns": k / w.steps(w.m) * 1e9, "raw": {v: raw[p.name, name, v] for v in w.variants()}}
            if f"{p.name} {name}" in counts:
                res[p.name]["instructions"] = counts[f"{p.name} {name}"]
        c = res.get("c", {})
        for r in res.values():
            for key, ratio in RATIOS:
                if r.get(key, 0) > 0 and c.get(key, 0) > 0:
                    r[ratio] = r[key] / c[key]
        out[name] = res
    return out


def main():
    o = words()
    if o.show:
        write(json.loads(Path(o.show).read_text()), o.to or HERE)
        return
    BUILD.mkdir(parents=True, exist_ok=True)
    sh("gcc", "-O2", "-static", "c/meter.c", "-o", BUILD / "meter")
    o.program = o.program or building.program_to_test()
    if o.program is None:
        sys.exit("bench: there is no proved program of these sources: rt ci or tools/prove makes it")
    o.program = os.path.abspath(o.program)
    peers, absent = built(o)
    b = Bench(o.program)
    if o.instructions:
        counted(b, peers, o.names)
        return
    rss, bad = answers(b, peers, o.names, o.check)
    if not o.check:
        raw, reps = measured(b, peers, rss, o)
        counts = {} if o.no_instructions or not have("valgrind") else counted(b, peers, o.names)
        packages = versions(sorted({q for p in peers for q in p.package.split()}))
        if any(p.name == "python3" for p in peers):
            packages["python3"] = platform.python_version()  # the one that runs this
        own = any(p.name == "fp2" for p in peers)
        sha = hashlib.sha256(Path(b.program).read_bytes()).hexdigest() if own else "none"
        out = {"date": time.strftime("%Y-%m-%d", time.gmtime()), "machine": machine(), "metric": o.metric,
               "reps": reps, "sha256": sha, "absent": absent, "packages": packages,
               "workloads": results(peers, o.names, rss, raw, counts, o.metric)}
        (BUILD / "last.json").write_text(json.dumps(out, indent=1) + "\n")
        write(out, o.to or (BUILD if o.only or set(o.names) != set(WORKLOADS) else HERE))
    for line in absent:
        print(f"absent: {line}")
    print(f"bench: {len(rss)} compared, {len(bad)} wrong" + "".join(f"; {x}" for x in bad))
    sys.exit(1 if bad or not rss else 0)


if __name__ == "__main__":
    main()

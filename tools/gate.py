#!/usr/bin/env python3
"""Runs the kit's own rt with two of its functions memoised: `tools/gate.py ci` for `rt ci`.

It is for a kit that visits every path through crates.txt (rattle-kit-13b). Such a kit computes which crates are below a
crate, and the hash of a crate's files, once for each path down to that crate. There are hundreds of thousands of them,
and this takes hours. Both functions depend only on files that do not change while rt runs, and neither decides a
verdict: the program, its refusals and its last line are rt's. On a kit that memoises them itself nothing changes.
"""
import importlib.machinery
import importlib.util
import os
import shutil
import sys

sys.dont_write_bytecode = True
if shutil.which("rt") is None:
    sys.exit("gate.py: there is no rt on the path")
path = os.path.realpath(shutil.which("rt"))
loader = importlib.machinery.SourceFileLoader("rt_main", path)
rt = importlib.util.module_from_spec(importlib.util.spec_from_loader("rt_main", loader))
loader.exec_module(rt)
Crate = getattr(getattr(rt, "rtlib", None), "Crate", None)


def memoise(name):
    """Memoises a method of a crate that takes no arguments."""
    method = getattr(Crate, name)

    def call(crate):
        kept = crate.__dict__.setdefault("_remembered", {})
        if name not in kept:
            kept[name] = method(crate)
        return list(kept[name]) if isinstance(kept[name], list) else kept[name]

    setattr(Crate, name, call)


if Crate is not None:
    # (only rt ci never stores the hash that it computes before and after a proof; some kits memoise it themselves)
    with_stamp = sys.argv[1:] == ["ci"] and not hasattr(rt, "stamp_once")
    for name in ("below", "stamp") if with_stamp else ("below",):
        if callable(getattr(Crate, name, None)):
            memoise(name)
sys.exit(rt.main(sys.argv[1:]))

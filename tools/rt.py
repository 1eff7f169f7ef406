#!/usr/bin/env python3
"""tools/rt.py WORD..: the kit's `rt`, which works out the sum of each crate's sources once a run.

The kit's own works out the sums of all crates below anew for each crate that it asks for, so a check of a high crate
takes a minute or two to see that nothing has changed. It is no judge: `rt ci` is."""
import importlib.machinery
import importlib.util
import os
import shutil
import sys

command = os.path.realpath(shutil.which("rt") or sys.exit("rt isn't on the path"))
loader = importlib.machinery.SourceFileLoader("kit", command)
kit = importlib.util.module_from_spec(importlib.util.spec_from_loader("kit", loader))
loader.exec_module(kit)

made = kit.rtlib.Crate.stamp
sums = {}


def stamp(crate):
    if crate.folder not in sums:
        sums[crate.folder] = made(crate)
    return sums[crate.folder]


kit.rtlib.Crate.stamp = stamp
sys.exit(kit.main(sys.argv[1:]))

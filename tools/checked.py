#!/usr/bin/env python3
"""Runs a crate's tests, or its program, without a proof, and stops at a bad index, an overflow or a failed unwrap.

Usage: tools/checked.py, in the crate's folder. It is `rt try` and `rt try --test` but for this: the code is optimised, since some tests are long, and
the names aren't looked through for what a check refuses. A program has the files of data/ beside it, and must end in 0 and print what the file
stdout has. The last line is 'N passed, N failed'.
"""
import os
import re
import subprocess
import sys
import tempfile

import native

# The most seconds of a run.
LIMIT = 900


def optimising():
    """A clang that optimises."""
    return f'words=()\nfor it; do [[ $it != -O0 ]] || it=-O1; words+=("$it"); done\nexec {native.TOOLS}/bin/clang "${{words[@]}}"\n'


def run(crate, *flags, given=()):
    with tempfile.TemporaryDirectory() as folder:
        native.lay_tools(folder, optimising())
        words = [*native.try_words(folder, LIMIT), *given, *native.sources_of(crate, *flags)]
        how = {"stdin": subprocess.DEVNULL, "capture_output": True, "text": True, "env": {**os.environ, "TMPDIR": folder}}
        return subprocess.run(words, check=False, **how)


def try_tests(crate):
    ended = run(crate, "--test")
    print(ended.stdout, ended.stderr)
    counts = re.search(r"^test result: .* (\d+) passed; (\d+) failed", ended.stdout, re.M)
    return [int(it) for it in counts.groups()] if counts else sys.exit("no test was run")


def try_program(crate):
    data = [f"{at}/{name}" for at, _, names in os.walk("data") for name in names]
    ended = run(crate, given=[word for file in data for word in ("--data", f"{file.removeprefix('data/')}={file}")])
    with open("stdout", encoding="utf-8") as file:
        due = file.read()
    is_well = ended.stdout == due and re.search(r"^run=ended status=0 ", ended.stderr, re.M) is not None
    if not is_well:
        print(f"prints\n{ended.stdout}in place of\n{due}{ended.stderr}")
    return int(is_well), int(not is_well)


def main():
    if len(sys.argv) > 1:
        sys.exit(__doc__)
    crate = native.crate_here()
    passed, failed = try_program(crate) if crate.is_program else try_tests(crate)
    print(f"{passed} passed, {failed} failed")
    sys.exit(failed > 0)


main()

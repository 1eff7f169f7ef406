#!/usr/bin/env python3
"""Runs what the pages show, and compares it with what they say that it prints.

Usage: tools/pages.py [PAGE..] (README.md, docs/*.md and man/qpzone.1). The last line is 'N passed, N failed'.

An indented block, or of the manual a literal one, that begins with "$ " is commands with what each prints, where a line ".." stands for any lines. A
command that begins a row of a table has to end in 0, and one that compares zones in 1. One page's commands run in one shell, in a folder with the files of examples, where `qpzone`
and `./qpzone` are the script. A page with a tool that isn't installed isn't run, which is said. Tables of docs/ANSWERS.md are questions with their
answers. What docs/SERVER.md says that small_server prints is compared with that one's file.
"""
import glob
import os
import re
import shutil
import subprocess
import sys
import tempfile

TOP = os.path.dirname(os.path.dirname(os.path.realpath(__file__)))
TOOLS = "named-compilezone named-checkzone ldns-read-zone ldns-signzone nsd-checkzone".split()
CODE = re.compile(r"`([^`]+)`")


def ending(command):
    """A command that is run for its status alone, and the status that it has to end in."""
    return f"{command} >said; echo $?", ["1" if " diff " in command else "0"]


def read(name):
    with open(f"{TOP}/{name}", encoding="utf-8") as file:
        return file.read()


def blocks_of(name):
    """The blocks of text that stand as they are: lists of lines."""
    lines = read(name).splitlines()
    literal, blocks, block = name.endswith(".1"), [], []
    within = False
    for line in lines + [""]:
        if literal and line.startswith((".Bd -literal", ".Ed")):
            within = line.startswith(".Bd")
            here = None
        elif literal:
            here = line if within else None
        else:
            here = line[4:] if line.startswith("    ") else None
        if here is not None:
            block.append(here)
        elif block:
            blocks.append(block)
            block = []
    return blocks


def commands_of(name):
    """The commands that a page shows, each with the lines that it prints."""
    commands = []
    for block in blocks_of(name):
        if block[0].startswith("$ "):
            for line in block:
                if line.startswith("$ "):
                    commands.append((line[2:], []))
                else:
                    commands[-1][1].append(line)
    commands += [ending(command) for command in re.findall(r"^\| `(\./qpzone [^`]*)` \|", read(name), re.M)]
    return commands


def lay_folder(folder):
    """A folder with the examples, in which the script stands."""
    shutil.copytree(f"{TOP}/examples", f"{folder}/examples")
    for file in os.listdir(f"{folder}/examples"):
        os.symlink(f"examples/{file}", f"{folder}/{file}")
    os.symlink(f"{TOP}/qpzone", f"{folder}/qpzone")
    os.mkdir(f"{folder}/bin")
    os.symlink(f"{TOP}/qpzone", f"{folder}/bin/qpzone")


def outputs(commands):
    """What each command prints, on either stream, in one shell."""
    with tempfile.TemporaryDirectory() as folder, tempfile.TemporaryDirectory() as kept:
        lay_folder(folder)
        script = "".join(f"{{ {command}\n}} >{kept}/{at} 2>&1\n" for at, (command, _) in enumerate(commands))
        paths = f"{folder}/bin:{os.environ['PATH']}:/usr/sbin"
        subprocess.run(["bash", "-c", script], cwd=folder, stdin=subprocess.DEVNULL, env={**os.environ, "PATH": paths, "LC_ALL": "C"}, check=False)
        for at in range(len(commands)):
            with open(f"{kept}/{at}", encoding="utf-8", errors="replace") as file:
                yield file.read()


def is_said(said, due):
    pattern = "".join(r"(?:.*\n)*" if line == ".." else re.escape(line) + r"\n" for line in due)
    return re.fullmatch(pattern, said) is not None


def check_commands(name):
    text = read(name)
    missing = [tool for tool in TOOLS if tool in text and not shutil.which(tool, path=os.environ["PATH"] + ":/usr/sbin")]
    commands = commands_of(name)
    if missing:
        print(f"{name}: {len(commands)} commands not run, since {', '.join(missing)} isn't installed")
        return
    for (command, due), said in zip(commands, outputs(commands)):
        yield is_said(said, due), f"{name}: {command}\nprints\n{said}in place of\n" + "\n".join(due)


def asks(zone, question):
    """The report of one question, to a zone of these lines."""
    job = "".join(f"{line}\n" for line in [*zone, "%%", "worker", question])
    return run("run", job)


def run(command, text):
    ended = subprocess.run([f"{TOP}/qpzone", command, "--origin", "example."], input=text, capture_output=True, text=True, check=False)
    return ended.stdout.splitlines()


def rows_of(name, heading):
    """The cells of the table behind a heading."""
    part = read(name).split(heading, 1)[1]
    rows = re.search(r"\n\|[-|]+\|\n((?:\|.*\n)+)", part)[1].splitlines()
    return [[cell.strip() for cell in re.split(r"(?<!\\)\|", row)[1:-1]] for row in rows]


def check_answers():
    name = "docs/ANSWERS.md"
    zone = next(block for block in blocks_of(name) if block[0] == "$TTL 300")
    for heading, word in (("The examples are of this zone", "get "), ("## Names", "")):
        for question, answer, *_ in rows_of(name, heading):
            asked = word + CODE.findall(question)[0]
            said = asks(zone, asked)
            yield answers(said, CODE.findall(answer)), f"{name}: {asked} gives {said}"
    for case, shown, here, *_ in rows_of(name, "answer otherwise"):
        *lines, asked = CODE.findall(shown)
        said = asks(zone + lines, "get " + asked)
        yield answers(said, CODE.findall(here)), f"{name}: {case}: get {asked} gives {said}"


def answers(said, due):
    """Whether a report begins with what is due, and has the rest of it in order."""
    first = re.sub(r"^(1\.1 v0|zone refused line \d+) ", "", said[0])
    return first == due[0] and all(line in said for line in due[1:])


def check_server():
    due = read("crates/small_server/stdout").splitlines()
    yield due in blocks_of("docs/SERVER.md"), "docs/SERVER.md: what small_server prints is another text"


def check_usage():
    usage = subprocess.run([f"{TOP}/qpzone", "--help"], capture_output=True, text=True, check=False).stdout
    commands = [ending(line.strip()) for line in usage.splitlines() if line.startswith("           qpzone ")]
    for (command, due), said in zip(commands, outputs(commands)):
        yield is_said(said, due), f"qpzone --help: {command}\n{said}"
    told = re.search(r"^\.Os qpzone (.*)$", read("man/qpzone.1"), re.M)
    version = subprocess.run([f"{TOP}/qpzone", "--version"], capture_output=True, text=True, check=False).stdout
    yield bool(told) and version.startswith(f"qpzone {told[1]}, "), "man/qpzone.1 tells another version than qpzone --version"


def main():
    os.chdir(TOP)
    subprocess.run([f"{TOP}/qpzone", "--where"], stdout=subprocess.DEVNULL, check=True)
    pages = sys.argv[1:] or ["README.md", *sorted(glob.glob("docs/*.md")), "man/qpzone.1"]
    checks = [check_commands(page) for page in pages]
    checks += [] if sys.argv[1:] else [check_answers(), check_server(), check_usage()]
    passed = failed = 0
    for it in checks:
        for is_well, said in it:
            passed += is_well
            failed += not is_well
            if not is_well:
                print(said, file=sys.stderr, flush=True)
    print(f"{passed} passed, {failed} failed")
    sys.exit(failed > 0)


main()

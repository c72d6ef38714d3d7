#!/usr/bin/env python3
"""Runs the commands that the pages for users show, and prints each one whose output isn't what its page shows.

    python3 conformance/shown.py PROGRAM            README.md, docs/GUIDE.md, docs/FAULTS.md, docs/RULES.md, docs/einv.1,
                                                    examples/README.md
    python3 conformance/shown.py PROGRAM PAGE ..    these pages

In a block that is fenced or indented by four spaces, a line `$ COMMAND` is a command, which goes on in the next line
where it ends in a backslash. The lines behind it, up to the next command or the end of the block, are what it prints on
standard output and standard error together. Blocks without a command aren't looked at. Of the manual page, docs/einv.1,
the examples are run, and one differs where its status is above 1 or it tells something on standard error.

Each page has a folder of its own with copies of examples/, rules/ and docs/, in which `./einv` is PROGRAM. Its commands run
there by bash, in order, so a command may use a file that an earlier one of the page has written, and nothing is written
in the repository. Ends with 1 where a page differs or shows no command, or where one isn't there.
"""
import difflib
import os
import pathlib
import shutil
import subprocess
import sys
import tempfile

HOME = pathlib.Path(__file__).resolve().parent.parent
PAGES = "README.md", "docs/GUIDE.md", "docs/FAULTS.md", "docs/RULES.md", "docs/einv.1", "examples/README.md"
FOLDERS = "examples", "rules", "docs"
SECONDS = 60


def blocks(text):
    """The blocks of a page: of each the number of its first line, from 1, and its lines without the indentation."""
    found, fenced, before = [], False, ""
    for number, line in enumerate(text.split("\n"), 1):
        if line.startswith("```"):
            fenced = not fenced
            if fenced:
                found.append((number + 1, []))
        elif fenced:
            found[-1][1].append(line)
        elif line.startswith("    "):
            if not before.startswith("    "):
                found.append((number, []))
            found[-1][1].append(line[4:])
        elif not line and before.startswith("    "):
            # A blank line inside an indented block, or behind it.
            found[-1][1].append(line)
            continue
        before = line
    return found


def commands(block):
    """The commands of a block: of each its line, itself, and the lines that it prints."""
    number, lines = block
    found, goes_on = [], False
    for place, line in enumerate(lines, number):
        if goes_on:
            found[-1][1] += "\n" + line
        elif line.startswith("$ "):
            found.append([place, line[2:], []])
        elif found:
            found[-1][2].append(line)
        goes_on = bool(found) and not found[-1][2] and found[-1][1].endswith("\\")
    for one in found:
        while one[2] and not one[2][-1]:
            one[2].pop()
    return found


def printed(command, folder):
    """The lines that a command prints."""
    words = ["bash", "-c", command]
    pipes = {"stdin": subprocess.DEVNULL, "stdout": subprocess.PIPE, "stderr": subprocess.STDOUT}
    try:
        done = subprocess.run(words, cwd=folder, env=os.environ | {"LC_ALL": "C"}, timeout=SECONDS, **pipes)
    except subprocess.TimeoutExpired:
        return [f"no end in {SECONDS} seconds"]
    return done.stdout.decode(errors="backslashreplace").removesuffix("\n").split("\n") if done.stdout else []


def examples(text):
    """The examples of a manual page: of each the number of its first line and the command."""
    found, block, inside = [], None, False
    for number, line in enumerate(text.split("\n"), 1):
        if line.startswith(".Sh "):
            inside = line == ".Sh EXAMPLES"
        elif inside and line.startswith(".Bd "):
            block = []
        elif inside and line == ".Ed":
            found.append((number - len(block), "\n".join(block)))
            block = None
        elif block is not None:
            block.append(line.replace("\\e", "\\"))
    return found


def try_manual(page, folder):
    """How many examples a manual page has, and how many of them fail; prints these."""
    shown, wrong = examples(page.read_text(encoding="utf-8")), 0
    env = os.environ | {"LC_ALL": "C", "PATH": "%s:%s" % (folder, os.environ["PATH"])}
    for number, command in shown:
        done = subprocess.run(["bash", "-c", command], cwd=folder, env=env, timeout=SECONDS, capture_output=True, stdin=subprocess.DEVNULL)
        if done.returncode > 1 or done.stderr:
            wrong += 1
            print(f"FAILS {page}:{number}: {command}\n  status {done.returncode}: {done.stderr.decode(errors='backslashreplace')}")
    return len(shown), wrong


def try_page(page, program, folder):
    """How many commands a page shows, and how many of them print something else; prints these."""
    for name in FOLDERS:
        shutil.copytree(HOME / name, folder / name)
    (folder / "einv").symlink_to(program)
    if page.suffix == ".1":
        return try_manual(page, folder)
    shown = [one for block in blocks(page.read_text(encoding="utf-8")) for one in commands(block)]
    wrong = 0
    for number, command, wanted in shown:
        got = printed(command, folder)
        if got != wanted:
            wrong += 1
            print(f"DIFFERS {page}:{number}: $ {command}")
            print("\n".join("  " + line for line in difflib.ndiff(wanted, got) if not line.startswith("?")))
    return len(shown), wrong


def main():
    if len(sys.argv) < 2 or sys.argv[1].startswith("-"):
        sys.exit(__doc__)
    program = pathlib.Path(sys.argv[1]).resolve()
    if not program.is_file():
        sys.exit("there is no program %s" % program)
    pages = [pathlib.Path(page) for page in sys.argv[2:]] or [HOME / page for page in PAGES]
    fine = True
    for page in pages:
        with tempfile.TemporaryDirectory() as folder:
            shown, wrong = try_page(page, program, pathlib.Path(folder)) if page.is_file() else (0, 0)
        print(f"{page.relative_to(HOME) if page.is_relative_to(HOME) else page}: {shown} commands, {wrong} differ")
        fine &= bool(shown) and not wrong
    sys.exit(0 if fine else 1)


main()

#!/usr/bin/env python3
"""Tries that a value can't outlive the arena that its texts are lent from: a program in which it does isn't compiled, and the
same program is where the arena lives longer.

    python3 conformance/borrows.py

Both are compiled by `rt try` in a folder of their own, over the crates that stand below. Ends with 1 where either goes otherwise.
"""
import pathlib
import shutil
import subprocess
import sys
import tempfile

HOME = pathlib.Path(__file__).resolve().parent.parent
TOP = "xpath_items"
REFUSED = "`bump` does not live long enough"
PROGRAM = """//! A value whose text is lent from an arena.
#![tactic(auto)]

use bumpalo::Bump;
use std::alloc::{AllocError, Global};
use std::rt::HostRuntime;
use xpath_items::{Item, Seq, Str};

fn length(alloc: Global) -> Result<usize, AllocError> {
%s
    Ok(kept.len())
}

fn main(rt: HostRuntime) {
    let _ = length(rt.alloc());
}
"""
LENT = '%slet text = bump.try_alloc_str("a text")?;\n%skept.push(Item::String(Str::lent(text)))?;\n'
LIVES_ON = "    let bump = Bump::new(alloc);\n    let mut kept = Seq::new(alloc);\n" + LENT % (" " * 4, " " * 4)
OUTLIVES = "    let mut kept = Seq::new(alloc);\n    {\n        let bump = Bump::new(alloc);\n" + LENT % (" " * 8, " " * 8) + "    }\n"


def read_crates():
    """What each crate of crates.txt stands on."""
    lines = (line.split("#")[0].strip() for line in (HOME / "crates.txt").read_text(encoding="utf-8").splitlines())
    return {line.split(":")[0].split()[0]: line.split(":")[1].split() for line in lines if line}


def lay(folder):
    """The crates below, and one more for the program."""
    below, waiting = read_crates(), [TOP]
    wanted = set()
    while waiting:
        name = waiting.pop()
        if name in below and name not in wanted:
            wanted.add(name)
            waiting += below[name]
    for name in wanted:
        shutil.copytree(HOME / "crates" / name, folder / "crates" / name, ignore=shutil.ignore_patterns("out", "must-fail"))
    shutil.copy(HOME / "HANDLES", folder / "HANDLES")
    lines = ["%s: %s" % (name, " ".join(below[name])) for name in wanted] + ["lent: %s bumpalo" % TOP]
    (folder / "crates.txt").write_text("\n".join(lines) + "\n", encoding="utf-8")
    (folder / "crates" / "lent" / "src").mkdir(parents=True)
    (folder / ".git").mkdir()


def tried(folder, body):
    crate = folder / "crates" / "lent"
    (crate / "src" / "main.rt").write_text(PROGRAM % body.rstrip("\n"), encoding="utf-8")
    done = subprocess.run(["rt", "try"], cwd=crate, stdin=subprocess.DEVNULL, capture_output=True, text=True)
    return done.returncode, done.stdout + done.stderr


def main():
    with tempfile.TemporaryDirectory() as name:
        folder = pathlib.Path(name)
        lay(folder)
        good, said = tried(folder, LIVES_ON)
        if good != 0:
            sys.exit("a value inside its arena's life isn't compiled:\n" + said)
        bad, told = tried(folder, OUTLIVES)
    if bad == 0 or REFUSED not in told:
        sys.exit("a value that outlives its arena isn't refused for that (status %d):\n%s" % (bad, told))
    print("a value that outlives the arena of its texts isn't compiled")


main()

#!/usr/bin/env python3
"""Runs a built einv over the cases beside this file, each in a folder of its own, and prints each difference.

    python3 conformance/run.py PROGRAM [FILE.json ..]

README.md says how a case is written. Ends with 1 where a case differs or none ran.
"""
import json
import os
import pathlib
import subprocess
import sys
import tempfile

HERE = pathlib.Path(__file__).resolve().parent
SECONDS = 60


def changed(text, changes):
    """The text with one thing after another changed wherever it stands."""
    for old, new in changes.items():
        if old.encode() not in text:
            sys.exit(f"{old!r} stands nowhere in what is to be changed")
        text = text.replace(old.encode(), new.encode())
    return text


def content(value):
    """The bytes that a value of a case stands for."""
    if isinstance(value, str):
        return value.encode()
    if isinstance(value, list):
        return b"".join(content(line) + b"\n" for line in value)
    if "hex" in value:
        return bytes.fromhex(value["hex"])
    if "example" in value:
        return changed((HERE.parent / "examples" / value["example"]).read_bytes(), value.get("with", {}))
    if "parts" in value:
        return b"".join(content(part) for part in value["parts"])
    if value.get("numbered"):
        return b"".join(content(value["text"].replace("#", str(time))) for time in range(value["times"]))
    return content(value["text"]) * value["times"]


def pipe(case, end):
    """Where one of the outputs of a case goes."""
    if end + "_to" in case:
        return open(case[end + "_to"], "wb")
    if case.get(end + "_is") == "unread":
        read, write = os.pipe()
        os.close(read)
        return open(write, "wb")
    return subprocess.PIPE


def run(program, case, folder):
    """The status and what was written to standard output and standard error."""
    for name in case.get("folders", []):
        (folder / name).mkdir(parents=True)
    for name, value in case.get("files", {}).items():
        (folder / name).write_bytes(content(value))
    words = [content(word) for word in case["words"]]
    pipes = {end: pipe(case, end) for end in ("stdout", "stderr")}
    before = (lambda: os.close(1)) if case.get("stdout_is") == "closed" else None
    try:
        done = subprocess.run([program, *words], cwd=folder, input=content(case.get("stdin", "")), timeout=SECONDS,
                              preexec_fn=before, **pipes)
        return done.returncode, done.stdout or b"", done.stderr or b""
    except subprocess.TimeoutExpired:
        return f"no end in {SECONDS} seconds", b"", b""
    finally:
        for opened in pipes.values():
            if opened != subprocess.PIPE:
                opened.close()


def shown(value):
    text = repr(value)
    return text if len(text) < 300 else f"{text[:300]} .. ({len(value)} bytes)"


def main():
    if len(sys.argv) < 2:
        sys.exit(__doc__)
    program = str(pathlib.Path(sys.argv[1]).resolve())
    paths = [pathlib.Path(path) for path in sys.argv[2:]] or sorted(HERE.glob("*.json"))
    passed = failed = 0
    for path in paths:
        for case in json.loads(path.read_text(encoding="utf-8")):
            targets = [case[key] for key in ("stdout_to", "stderr_to") if key in case]
            if not all(pathlib.Path(target).exists() for target in targets):
                print(f"skipped {path.name}: {case['case']}")
                continue
            want = case.get("status", 0), content(case.get("stdout", "")), content(case.get("stderr", ""))
            with tempfile.TemporaryDirectory() as folder:
                got = run(program, case, pathlib.Path(folder))
            if got == want:
                passed += 1
                continue
            failed += 1
            print(f"DIFFERS {path.name}: {case['case']}\n  words {case['words']}")
            for what, wanted, had in zip(("status", "stdout", "stderr"), want, got):
                if wanted != had:
                    print(f"  {what}: wanted {shown(wanted)}\n  {what}: got    {shown(had)}")
    print(f"{passed} passed, {failed} failed")
    sys.exit(1 if failed or not passed else 0)


main()

#!/usr/bin/env python3
"""Validates the invoices of a folder on the workers of a Dask cluster, and writes two tables.

    python3 examples/many.py FOLDER OUT [SCHEDULER]

FOLDER is searched for files that end in .xml. OUT/documents.csv gets a row for each document, sorted by its name, with the
status of `validate` and the counts of its last line; OUT/findings.csv one for each fault and finding. SCHEDULER is the address
of a cluster whose workers see FOLDER and have einv on their path, or at $EINV; without it four processes of this machine work.
A document whose worker ends is given to another one. Where Dask isn't installed, a line says so and the status is 0.
"""
import csv
import json
import os
import pathlib
import subprocess
import sys

try:
    from dask.distributed import Client, LocalCluster, as_completed
except ImportError:
    print("many: Dask isn't installed here (Debian: python3-distributed)")
    sys.exit(0)

EINV = os.environ.get("EINV", "einv")
COUNTS = "faults", "passed_over", "unread", "misplaced", "failed", "reported", "errors", "minor"
FINDING = "kind", "code", "id", "term", "line", "column", "message"
BATCH = 50


def validated(path):
    """A document's row, and those of its faults and findings."""
    ran = subprocess.run([EINV, "validate", "--json", path], capture_output=True, check=False)
    if ran.returncode > 1:
        return {"file": path, "status": ran.returncode, "refusal": ran.stderr.decode().strip()}, []
    answer = json.loads(ran.stdout)
    found = [{"file": path, **one} for one in answer["faults"] + answer["findings"]]
    return {"file": path, "status": ran.returncode, **answer["counts"]}, found


def validated_all(paths):
    """The same of some documents: one task, so that the scheduler isn't asked for each."""
    return [validated(path) for path in paths]


def show_progress(done, count):
    filled = 40 * done // count
    print(f"\r[{'#' * filled:<40}] {done} of {count}", end="\n" if done == count else "", file=sys.stderr, flush=True)


def gathered(client, paths):
    """The answers of all documents, each once, as their tasks end."""
    batches = [paths[at:at + BATCH] for at in range(0, len(paths), BATCH)]
    tasks = client.map(validated_all, batches, pure=False, retries=3)
    done = 0
    for _, answers in as_completed(tasks, with_results=True):
        done += len(answers)
        show_progress(done, len(paths))
        yield from answers


def write_table(path, columns, rows):
    with open(path, "w", newline="", encoding="utf-8") as out:
        table = csv.DictWriter(out, columns, restval="", extrasaction="ignore")
        table.writeheader()
        table.writerows(rows)


def main():
    folder, out = pathlib.Path(sys.argv[1]), pathlib.Path(sys.argv[2])
    paths = sorted(str(path) for path in folder.rglob("*.xml"))
    if not paths:
        sys.exit(f"many: there is no document in {folder}")
    address = sys.argv[3] if len(sys.argv) > 3 else LocalCluster(n_workers=4, threads_per_worker=1, dashboard_address=None)
    with Client(address) as client:
        answers = sorted(gathered(client, paths), key=lambda answer: answer[0]["file"])
    out.mkdir(parents=True, exist_ok=True)
    write_table(out / "documents.csv", ["file", "status", *COUNTS, "refusal"], [row for row, _ in answers])
    write_table(out / "findings.csv", ["file", *FINDING], [one for _, found in answers for one in found])
    wrong = sum(row["status"] != 0 for row, _ in answers)
    print(f"{len(answers)} documents, {wrong} not accepted")


if __name__ == "__main__":
    main()

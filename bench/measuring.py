"""What a run of a command takes: processor time and memory, in turns with others, and instructions."""
import re
import shutil
import statistics
import subprocess
import sys
import tempfile


# A run is begun by a small process: what a program holds at most counts what its parent held when it was begun.
BEGIN = """import os, sys
pid = os.fork()
if pid == 0:
    os.execvp(sys.argv[2], sys.argv[2:])
used = os.wait4(pid, 0)[2]
with open(sys.argv[1], "w") as told:
    told.write("%r %r" % (used.ru_utime + used.ru_stime, used.ru_maxrss / 1024))
"""


def once(words):
    """The seconds of a processor of one run, in user and system mode together, the most memory that it held, in MB, at least some 5, and
    what it says on standard error. The output goes nowhere."""
    with tempfile.TemporaryDirectory() as folder:
        begun = [sys.executable, "-S", "-c", BEGIN, f"{folder}/told", *words]
        said = subprocess.run(begun, stdin=subprocess.DEVNULL, stdout=subprocess.DEVNULL, stderr=subprocess.PIPE, check=True).stderr
        with open(f"{folder}/told") as told:
            seconds, held = (float(figure) for figure in told.read().split())
    return seconds, held, said.decode(errors="replace").strip()


def in_turns(commands, runs):
    """Of each command the least seconds and the most memory over so many runs, and what it said at last. The commands take turns, so
    that other work on the machine tells on all alike."""
    taken = [[] for _ in commands]
    for _ in range(runs):
        for words, times in zip(commands, taken):
            times.append(once(words))
    return [(min(seconds for seconds, _, _ in times), max(held for _, held, _ in times), times[-1][2]) for times in taken]


def beside(first, others, runs):
    """The least seconds of the first command and of each of the others, and of each of these the times that it takes of the first: the
    median over so many rounds, the lower and the upper quartile. Each is run between two runs of the first and compared with their
    mean, since a machine that others share is fast for some seconds and slow for some others."""
    alone, taken, ratios = [once(first)[0]], [[] for _ in others], [[] for _ in others]
    for _ in range(runs):
        for words, times, found in zip(others, taken, ratios):
            times.append(once(words)[0])
            alone.append(once(first)[0])
            found.append(2 * times[-1] / (alone[-2] + alone[-1]))
    shown = [(statistics.median(found), sorted(found)[runs // 4], sorted(found)[3 * runs // 4]) for found in ratios]
    return min(alone), [(min(times), *three) for times, three in zip(taken, shown)]


def instructions(words):
    """The instructions of one run, by valgrind's callgrind, or None where that isn't installed."""
    if shutil.which("valgrind") is None:
        return None
    with tempfile.TemporaryDirectory() as folder:
        counted = ["valgrind", "--tool=callgrind", f"--callgrind-out-file={folder}/counts", *words]
        said = subprocess.run(counted, stdin=subprocess.DEVNULL, stdout=subprocess.DEVNULL, stderr=subprocess.PIPE, check=False).stderr
        found = re.search(r"Collected : (\d+)", said.decode(errors="replace"))
        return int(found[1]) if found else None

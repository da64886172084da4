#!/usr/bin/env python3
"""Measures `PROGRAM replay` on generated inputs, alone or beside another engine, and prints a table in Markdown.

    python3 bench/bench.py PROGRAM [--beside ENGINE] [--tests 1000,10000,50000] [--kind passing|mixed|grouped|stopped]
                                   [--runs N | --seconds S]

Each engine first runs once untimed, and its status and its output are looked at: where an ENGINE is given, the two
are compared. Then the engines run in turn, with their output to nowhere. The seconds are user and system time
together, the least of the runs; the memory is the greatest resident size of any run. Linux alone.
"""
import argparse
import ctypes
import hashlib
import os
import platform
import signal
import subprocess
import sys
import tempfile
import time

sys.dont_write_bytecode = True  # so that no folder of Python's is left beside the script
import gen

PR_SET_CHILD_SUBREAPER = 36


class Run:
    """What one process took: seconds of user and system time, and its greatest resident size in bytes."""

    def __init__(self, seconds, memory):
        self.seconds, self.memory = seconds, memory


class Least:
    """The least seconds and the greatest memory of several runs."""

    def __init__(self):
        self.seconds, self.memory, self.runs = None, 0, 0

    def add(self, run):
        self.seconds = run.seconds if self.seconds is None else min(self.seconds, run.seconds)
        self.memory = max(self.memory, run.memory)
        self.runs += 1


def adopt_orphans():
    """Makes this process the parent of what a child of it leaves behind."""
    if ctypes.CDLL(None).prctl(PR_SET_CHILD_SUBREAPER, 1, 0, 0, 0) != 0:
        sys.exit("bench.py: this system does not hand over what a child leaves behind")


def use_of(process):
    """Waits for a process, and answers what it used."""
    try:
        return os.wait4(process, 0)[2]
    except KeyboardInterrupt:
        os.kill(process, signal.SIGKILL)
        raise


# Starts the words in a process of its own, which waits for the end of the shell's standard input.
START = 'exec 3<&0; { read go <&3; exec "$@" < "$0" 3<&-; } > /dev/null 2> /dev/null & echo $!'


def run_once(words, path):
    """Runs a program. A shell starts it and ends before it, so that the memory that is counted begins with that of the
    shell, and not with that of Python."""
    waits, go = os.pipe()
    shell = subprocess.run(["sh", "-c", START, path, *words], stdin=waits, stdout=subprocess.PIPE, check=True)
    os.close(waits)
    os.close(go)
    use = use_of(int(shell.stdout))
    return Run(use.ru_utime + use.ru_stime, use.ru_maxrss * 1024)


def answer_of(engine, path):
    """The status of a run, and a checksum of its output."""
    seen = hashlib.sha256()
    with open(path, "rb") as source:
        child = subprocess.Popen([engine, "replay"], stdin=source, stdout=subprocess.PIPE)
    for piece in iter(lambda: child.stdout.read(1 << 16), b""):
        seen.update(piece)
    child.stdout.close()
    return child.wait(), seen.hexdigest()


def look_at_answers(engines, path):
    answers = [answer_of(engine, path) for engine in engines]
    for engine, (status, _) in zip(engines, answers):
        if status not in (0, 100):
            sys.exit(f"bench.py: {engine} ends with status {status}, so that there is nothing to measure")
    if len(set(answers)) > 1:
        sys.exit("bench.py: the two engines write other lines or end with other statuses, and can't be compared")


def measure(engines, path, runs, seconds):
    """Runs the engines in turn: `runs` times each, or until `seconds` have passed."""
    least = [Least() for _ in engines]
    begin = time.monotonic()
    while least[0].runs == 0 or (least[0].runs < runs if runs else time.monotonic() - begin < seconds):
        for engine, kept in zip(engines, least):
            kept.add(run_once([engine, "replay"], path))
    return least


def write_to(path, tests, kind):
    with open(path, "w", encoding="ascii") as out:
        turns, size = gen.write_input(tests, kind, out)
    if size > gen.GREATEST_INPUT:
        sys.exit(f"bench.py: the input of {tests:,} tests has {size:,} bytes, more than the program reads")
    return turns, size


def cells(kept, turns):
    return [f"{kept.seconds:.3f}", f"{kept.seconds / turns * 1e6:.2f}", f"{kept.memory / 1e6:.1f}"]


def row(values):
    print("| " + " | ".join(values) + " |", flush=True)


def print_head(beside):
    one = ["s", "us a turn", "memory MB"]
    head = ["tests", "turns", "input MB"] + [f"program: {it}" for it in one]
    if beside:
        head += [f"beside: {it}" for it in one] + ["time, program to beside"]
    row([*head, "runs"])
    row(["---"] * (len(head) + 1))


def print_row(tests, turns, size, least):
    values = [f"{tests:,}", f"{turns:,}", f"{size / 1e6:.2f}"]
    for kept in least:
        values += cells(kept, turns)
    if len(least) == 2:
        values.append(f"{least[0].seconds / least[1].seconds:.1f}")
    row([*values, str(least[0].runs)])


def machine():
    model = "an unknown processor"
    with open("/proc/cpuinfo", encoding="utf-8") as lines:
        for line in lines:
            if line.startswith("model name"):
                model = line.partition(":")[2].strip()
                break
    memory = os.sysconf("SC_PAGE_SIZE") * os.sysconf("SC_PHYS_PAGES") / 1e9
    return f"{model}, {os.cpu_count()} processors, {memory:.0f} GB of memory, {platform.system()} {platform.release()}"


def print_floor():
    """What the script shows of a program that does nothing: no less can be seen of any other."""
    kept = Least()
    for _ in range(15):
        kept.add(run_once(["true"], os.devnull))
    print(f"A program that does nothing shows {kept.seconds:.4f} s and {kept.memory / 1e6:.1f} MB here.\n", flush=True)


def words_given():
    words = argparse.ArgumentParser(description=__doc__, formatter_class=argparse.RawDescriptionHelpFormatter)
    words.add_argument("program")
    words.add_argument("--beside", metavar="ENGINE")
    words.add_argument("--tests", default="1000,10000,50000", type=lambda text: [int(it) for it in text.split(",")])
    words.add_argument("--kind", choices=gen.KINDS, default="passing")
    words.add_argument("--runs", type=int, default=0)
    words.add_argument("--seconds", type=float, default=10)
    return words.parse_args()


def main():
    given = words_given()
    adopt_orphans()
    engines = [os.path.abspath(it) for it in (given.program, given.beside) if it]
    print(f"Machine: {machine()}. Tests: {given.kind}.")
    print_floor()
    print_head(given.beside)
    with tempfile.TemporaryDirectory() as folder:
        path = f"{folder}/input"
        rates = []
        for tests in given.tests:
            turns, size = write_to(path, tests, given.kind)
            look_at_answers(engines, path)
            least = measure(engines, path, given.runs, given.seconds)
            print_row(tests, turns, size, least)
            rates.append(least[0].seconds / turns)
    print(f"\nThe program's time a turn, the greatest of these rows over the least: {max(rates) / min(rates):.2f}")


if __name__ == "__main__":
    main()

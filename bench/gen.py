#!/usr/bin/env python3
"""Writes an input of `nextest_run replay` to standard output: a run of many tests, one after another or all at once.

    python3 bench/gen.py TESTS [--kind passing|mixed|grouped|stopped]

passing: each test starts, exits with code 0 and passes, in six turns.
mixed:   of each twelve tests eight pass, one is skipped, one can't be started, one exits with a code other than 0, and
         one is ended by a signal or, in every second dozen, can't be waited for.
grouped: as passing, with a group for every four tests, to which four tests far from each other belong.
stopped: all tests start at once, the first fails, and each other takes its request to end and is ended by it.

One number of tests and one kind give one input, byte for byte. Nothing is kept in memory but one line of turns.
"""
import argparse
import json
import sys

GREATEST_INPUT = 16_777_216
RUN_ID = "5e0c2b6a-7d41-4f0e-9b1a-2c3d4e5f6071"
KINDS = ("passing", "mixed", "grouped", "stopped")


def line_of(value):
    return json.dumps(value, separators=(",", ":"))


def turn(name, **keys):
    return line_of({"turn": name, **keys})


def fate_of(place, kind):
    """What comes of the test at a place, as `turns_of` tells it."""
    if kind != "mixed":
        return "passes"
    others = {3: "skipped", 5: "not started", 8: "fails", 11: "killed" if place // 12 % 2 == 0 else "lost"}
    return others.get(place % 12, "passes")


def test_of(place, fate):
    case = f"case_{place:05}"
    test = {"binary": f"suite-{place % 10}", "name": f"area::{case}", "command": ["bin/suite", case]}
    if fate == "skipped":
        test["skip"] = "not in this run"
    return test


def ended(place, **how):
    yield turn("stream-end", unit=place, stream="combined")
    yield turn("exit", unit=place, **how)
    yield turn("decide", unit=place, word=0)
    yield turn("deliver")


def turns_at_once(tests):
    for name in ("admit", "deliver"):
        for _ in range(tests):
            yield turn(name)
    for place in range(tests):
        yield turn("started", unit=place, pid=1000 + place)
    yield from ended(0, code=101)
    for place in range(1, tests):
        yield turn("take", unit=place)
    for place in range(1, tests):
        yield from ended(place, signal=15)


def turns_of(place, fate):
    yield turn("admit")
    yield turn("deliver")
    if fate == "skipped":
        return
    if fate == "not started":
        yield turn("start-failed", unit=place, text="no such file or directory")
    else:
        yield turn("started", unit=place, pid=1000 + place)
        if fate == "lost":
            yield turn("wait-failed", unit=place, text="no child process")
        elif fate == "killed":
            yield turn("exit", unit=place, signal=9)
        else:
            yield turn("exit", unit=place, code=101 if fate == "fails" else 0)
    yield turn("decide", unit=place, word=0)
    yield turn("deliver")


def settings_of(tests, kind):
    if kind == "grouped":
        groups = ({"name": f"group-{place}", "limit": 2} for place in range(group_count(tests)))
        return f'"capture":"none","groups":[{",".join(map(line_of, groups))}]'
    if kind == "stopped":
        return f'"capture":"combined","max_fail":{{"count":1,"mode":"immediate"}},"threads":{tests}'
    return '"capture":"none"'


def group_count(tests):
    return (tests + 3) // 4


def pieces(tests, kind):
    """The input in pieces: the plan line, and then the turns, a line each."""
    yield '{%s,"run_id":%s,"tests":[' % (settings_of(tests, kind), line_of(RUN_ID))
    for place in range(tests):
        test = test_of(place, fate_of(place, kind))
        if kind == "grouped":
            test["group"] = f"group-{place % group_count(tests)}"
        yield ("," if place else "") + line_of(test)
    yield "]}\n"
    yield turn("begin") + "\n"
    if kind == "stopped":
        yield from (one + "\n" for one in turns_at_once(tests))
    else:
        for place in range(tests):
            yield from (one + "\n" for one in turns_of(place, fate_of(place, kind)))
    yield turn("end") + "\n"


def write_input(tests, kind, out):
    """Writes the input, and answers how many turns and how many bytes it has."""
    turns, size = -1, 0
    for piece in pieces(tests, kind):
        turns += piece.endswith("\n")
        size += len(piece)
        out.write(piece)
    return turns, size


def main():
    words = argparse.ArgumentParser(description=__doc__, formatter_class=argparse.RawDescriptionHelpFormatter)
    words.add_argument("tests", type=int)
    words.add_argument("--kind", choices=KINDS, default="passing")
    given = words.parse_args()
    _, size = write_input(given.tests, given.kind, sys.stdout)
    if size > GREATEST_INPUT:
        sys.exit(f"gen.py: this input has {size:,} bytes, more than the {GREATEST_INPUT:,} that the program reads")


if __name__ == "__main__":
    main()

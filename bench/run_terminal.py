#!/usr/bin/env python3
"""Runs tools/run on pseudo-terminals, and looks at what a person sees. A test by hand, not of the gate.

    bench/run_terminal.py [PROGRAM] [--only WORD] [--megabytes 20]

Without a word it takes the program of NEXTEST_RUN. Each row is a function `row_..`. What the terminal shows at each
moment is kept, as a terminal that knows line feeds, returns, clearing a line and going up one. At the end a test that
writes many bytes fails, beside `cat` of as many. It writes a line for each row, and ends with 1 if one failed.
"""
import argparse
import fcntl
import json
import os
import pty
import re
import resource
import select
import signal
import struct
import subprocess
import sys
import tempfile
import termios
import time
from pathlib import Path

ROOT = Path(__file__).resolve().parent.parent
RUN_ID = "00000000-0000-4000-8000-000000000001"
MOVE = re.compile(r"\x1b\[2K|\x1b\[1A|\x1b\[[0-9;]*m|\r|\n|[^\x1b\r\n]+|\x1b")


def sh(name, script, **more):
    return {"binary": "b", "name": name, "command": ["sh", "-c", script], **more}


def plan(*tests, **more):
    return {"run_id": RUN_ID, "tests": list(tests), "threads": 4, **more}


class Screen:
    """A terminal that is high enough."""

    def __init__(self):
        self.lines, self.at, self.raw, self.bars = [""], 0, "", 0

    def take(self, text):
        self.raw += text
        for part in MOVE.findall(text):
            if part == "\n":
                self.at += 1
                if self.at == len(self.lines):
                    self.lines.append("")
            elif part == "\x1b[1A":
                self.at -= 1
            elif part == "\x1b[2K":
                self.lines[self.at] = ""
            elif part[0] not in "\r\x1b":
                self.lines[self.at] += part
            if "Running [" in part:
                self.bars += 1

    def text(self):
        return "\n".join(line for line in self.lines if line)


def run(program, given, words=(), env=(), keys=(), closed=False, apart=False, columns=100):
    """The status, the screen and the standard output, if it is apart, of a run whose keys come at their seconds."""
    ours, theirs = pty.openpty()
    fcntl.ioctl(theirs, termios.TIOCSWINSZ, struct.pack("HHHH", 50, columns, 0, 0))
    with tempfile.TemporaryFile() as said, tempfile.TemporaryFile() as out:
        said.write(json.dumps(given).encode() + b"\n")
        said.seek(0)

        def begin():
            os.setsid()
            fcntl.ioctl(theirs, termios.TIOCSCTTY, 0)
            if closed:
                os.close(2)

        process = subprocess.Popen([ROOT / "tools" / "run", *words], stdin=said, stdout=out if apart else theirs,
                                   stderr=theirs, preexec_fn=begin, pass_fds=(theirs,),
                                   env={**os.environ, "NEXTEST_RUN": program, "TERM": "xterm", **dict(env)})
        os.close(theirs)
        screen, began, keys = Screen(), time.monotonic(), list(keys)
        while True:
            if keys and time.monotonic() - began > keys[0][0]:
                os.write(ours, keys.pop(0)[1])
            if select.select([ours], [], [], 0.02)[0]:
                try:
                    got = os.read(ours, 65536)
                except OSError:
                    break
                if not got:
                    break
                screen.take(got.decode("utf-8", "replace"))
            elif process.poll() is not None:
                break
            if time.monotonic() - began > 60:
                process.kill()
        status = process.wait()
        os.close(ours)
        out.seek(0)
        return status, screen, out.read()


def has(screen, *wanted):
    for text in wanted:
        if text not in screen.text():
            raise AssertionError(f"no {text!r} in:\n{screen.text()}")


def check(holds, why, screen=None):
    if not holds:
        raise AssertionError(why + ("" if screen is None else f"\n{screen.raw!r}"))


TWO = plan(sh("says", "echo hi"), sh("fails", "echo no; exit 3"), sh("waits", "sleep 1"))


def row_of_colours(program):
    status, screen, _ = run(program, TWO)
    check(status == 100, f"status {status}")
    has(screen, "Starting 3 tests", "PASS", "FAIL", "b fails", "    no", "Summary", "2 passed, 1 failed")
    check("\x1b[31;1m" in screen.raw and "\x1b[32;1m" in screen.raw, "no colours", screen)
    check('{"' not in screen.raw, "lines for programs on the terminal", screen)


def row_of_a_bar(program):
    status, screen, _ = run(program, TWO)
    check(screen.bars >= 5, f"{screen.bars} bars", screen)
    check("1 running" in screen.raw and "b waits" in screen.raw, "the bar names no test", screen)
    check("Running [" not in screen.text(), "the bar is left", screen)


def row_of_no_colours(program):
    status, screen, _ = run(program, TWO, env={"NO_COLOR": "1"})
    check(not re.search(r"\x1b\[[0-9;]*m", screen.raw), "colours", screen)
    check(screen.bars >= 5, "no bar", screen)


def row_of_no_bar(program):
    status, screen, _ = run(program, TWO, words=["--show-progress", "none"])
    check(screen.bars == 0 and "\x1b[2K" not in screen.raw, "a bar", screen)
    has(screen, "Summary")


def row_of_lines_apart(program):
    status, screen, out = run(program, TWO, apart=True)
    events = [json.loads(line) for line in out.splitlines()]
    ticks = sum(event.get("event") == "tick" for event in events)
    check(5 <= ticks <= 30, f"{ticks} ticks")
    check(events[-1] == {"outcome": "failed", "step": "test"}, f"ends with {events[-1]}")
    has(screen, "Summary")


def row_of_an_interrupt(program):
    status, screen, _ = run(program, plan(sh("hangs", "sleep 77")), keys=[(1.0, b"\x03")])
    check(status == 100, f"status {status}")
    has(screen, "Cancelling", "SIGINT", "b hangs", "Summary")
    check("Running [" not in screen.text(), "the bar is left", screen)
    check(not subprocess.run(["pgrep", "-f", "^sleep 77$"], capture_output=True).stdout, "a child is left")


def row_of_a_stop(program):
    given = plan(sh("waits", "sleep 1"))
    before = time.monotonic()
    pid = os.fork()
    if pid == 0:
        time.sleep(1.6)
        for line in subprocess.run(["pgrep", "-f", "tools/run"], capture_output=True, text=True).stdout.split():
            os.kill(int(line), signal.SIGCONT)
        os._exit(0)
    status, screen, _ = run(program, given, keys=[(0.4, b"\x1a")])
    os.waitpid(pid, 0)
    check(status == 0, f"status {status}\n{screen.raw!r}")
    has(screen, "Pausing", "Continuing", "1 passed")
    check(time.monotonic() - before < 20, "it took long")


def row_of_a_closed_standard_error(program):
    status, screen, out = run(program, TWO, closed=True, apart=True)
    check(status == 100, f"status {status}")
    check(json.loads(out.splitlines()[-1]) == {"outcome": "failed", "step": "test"}, "the lines are cut")


def row_of_escaped_names(program):
    status, screen, _ = run(program, plan(sh("a\x1b[31mb\nPASS", "sleep 0.4; exit 1")))
    check("\x1b[31mb" not in screen.raw and "\\u{1b}[31mb" in screen.raw, "a name acts", screen)


def row_of_a_reader_that_waits(program):
    """Who stops reading the report stops the run, which goes on once it is read again."""
    with tempfile.TemporaryDirectory() as folder:
        given = plan(*[sh(f"t{i}", "head -c 20000 /dev/zero | tr '\\0' x; exit 1") for i in range(40)])
        (Path(folder) / "plan").write_text(json.dumps(given) + "\n")
        ran = subprocess.run(f"{ROOT}/tools/run < plan 2>&1 >/dev/null | (sleep 2; tail -n 2)", shell=True, cwd=folder,
                             env={**os.environ, "NEXTEST_RUN": program}, capture_output=True, text=True, timeout=60)
        check("b t" in ran.stdout, f"ends with {ran.stdout!r}")


def many_bytes(program, megabytes):
    """What a failing test of many bytes takes, beside `cat` of as many."""
    with tempfile.TemporaryDirectory() as folder:
        many = Path(folder) / "many"
        many.write_bytes((b"x" * 79 + b"\n") * (megabytes * 1_000_000 // 80))
        given = plan(sh("writes", f"cat {many}; exit 1"))
        times = []
        for command in (f"cat {many}", f"{program} run >/dev/null"):
            before, began = resource.getrusage(resource.RUSAGE_CHILDREN), time.monotonic()
            with open(Path(folder) / "out", "wb") as out:
                subprocess.run(command, shell=True, input=json.dumps(given).encode() + b"\n", stderr=out, stdout=out)
            after = resource.getrusage(resource.RUSAGE_CHILDREN)
            spent = after.ru_utime + after.ru_stime - before.ru_utime - before.ru_stime
            times.append((time.monotonic() - began, spent))
        size = (Path(folder) / "out").stat().st_size
        print(f"{megabytes} MB: cat {times[0][0]:.2f} s, {times[0][1]:.2f} s of processor; run {times[1][0]:.2f} s, "
              f"{times[1][1]:.2f} s; {size} bytes of report; at most {after.ru_maxrss / 1000:.0f} MB of memory")


def main():
    parser = argparse.ArgumentParser(description=__doc__.splitlines()[0])
    parser.add_argument("program", nargs="?", default=os.environ.get("NEXTEST_RUN"))
    parser.add_argument("--only", default="")
    parser.add_argument("--megabytes", type=int, default=20)
    words = parser.parse_args()
    program, failed = os.path.abspath(words.program), 0
    for name, row in sorted(globals().items()):
        if name.startswith("row_") and words.only in name:
            try:
                row(program)
                print(f"{name}: ok")
            except AssertionError as why:
                failed += 1
                print(f"{name}: {why}")
    if words.megabytes:
        many_bytes(program, words.megabytes)
    sys.exit(1 if failed else 0)


main()

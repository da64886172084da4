#!/usr/bin/env python3
"""Runs `PROGRAM run` on plans of real children, and looks at what becomes of them. A test by hand, not of the gate.

    bench/run_children.py [PROGRAM] [--only WORD] [--random 200] [--tests 1000] [--threads 8] [--runs 5] [--patience 1]

Without a word it takes the program of NEXTEST_RUN. Each row is a function `row_..`: what its name says is looked at,
and that it ends within its seconds, times the patience, with no process left. At the end random plans get signals at
random times, and 1,000 commands run beside `xargs -P`. It writes a line for each row, and ends with 1 if one failed.
"""
import argparse
import json
import os
import random
import re
import signal
import statistics
import subprocess
import sys
import tempfile
import threading
import time
import uuid

RUN_ID = "00000000-0000-4000-8000-000000000001"
MARK = "NEXTEST_RUN_CHILDREN"
MS = 1_000_000


def sh(script, name="t", **more):
    return {"binary": "b", "name": name, "command": ["sh", "-c", script], **more}


def plan(*tests, **more):
    return {"run_id": RUN_ID, "tests": list(tests), "threads": 4, **more}


def slow(period, grace, after=1):
    return {"period": period * MS, "terminate_after": after, "grace": grace * MS}


def left(mark):
    """The processes that have this mark in their environment, and haven't ended."""
    found = []
    for pid in filter(str.isdigit, os.listdir("/proc")):
        try:
            with open(f"/proc/{pid}/environ", "rb") as environ, open(f"/proc/{pid}/stat") as stat:
                if mark.encode() in environ.read() and stat.read().rsplit(")", 1)[1].split()[0] not in "ZX":
                    found.append(int(pid))
        except OSError:
            pass
    return found


class Run:
    """A run of a plan line, whose lines are read as they come."""

    def __init__(self, program, said):
        self.mark = f"{MARK}={uuid.uuid4()}"
        name, value = self.mark.split("=")
        self.began = time.monotonic()
        self.process = subprocess.Popen([program, "run"], stdin=subprocess.PIPE, stdout=subprocess.PIPE,
                                        stderr=subprocess.PIPE, text=True, start_new_session=True,
                                        env={**os.environ, name: value})
        self.lines, self.errors = [], ""
        self.reader = threading.Thread(target=self.read)
        self.listener = threading.Thread(target=self.listen)
        self.reader.start()
        self.listener.start()
        self.write((said if isinstance(said, str) else json.dumps(said)) + "\n")

    def read(self):
        for line in self.process.stdout:
            self.lines.append(json.loads(line))

    def listen(self):
        self.errors = self.process.stderr.read()

    def write(self, text):
        try:
            self.process.stdin.write(text)
            self.process.stdin.flush()
        except OSError:
            pass

    def signal(self, name):
        self.write(json.dumps({"turn": "signal", "name": name}) + "\n")

    def key(self, code):
        self.write(json.dumps({"turn": "key", "code": code, "modified": False, "press": True}) + "\n")

    def events(self, kind):
        return [line for line in self.lines if line.get("event") == kind]

    def awaits(self, kind, count=1, seconds=10):
        end = time.monotonic() + seconds
        while len(self.events(kind)) < count and time.monotonic() < end:
            time.sleep(0.005)

    def ends(self, seconds=20):
        """The status; None where the run doesn't end. Its time is noted."""
        try:
            status = self.process.wait(seconds)
        except subprocess.TimeoutExpired:
            status = None
            self.process.kill()
            self.process.wait()
        self.seconds = time.monotonic() - self.began
        self.write_end()
        self.reader.join()
        self.listener.join()
        return status

    def write_end(self):
        try:
            self.process.stdin.close()
        except OSError:
            pass

    def result(self, name="t"):
        for event in self.events("test-finished"):
            if event["test"][1] == name:
                return event["statuses"][-1]
        return {}

    def output(self, stream="stdout", name="t"):
        return bytes.fromhex(self.result(name).get(stream, ""))

    def signals(self):
        return [line["signal"] for line in self.lines if line.get("ask") == "signal"]

    def remains(self, seconds=2):
        """What is left of it after a while."""
        end = time.monotonic() + seconds
        while left(self.mark) and time.monotonic() < end:
            time.sleep(0.02)
        return left(self.mark)

    def clean(self):
        for pid in left(self.mark):
            try:
                os.kill(pid, signal.SIGKILL)
            except OSError:
                pass


class Faults(list):
    def expect(self, what, found, wanted):
        if found != wanted:
            self.append(f"{what}: {found!r}, and not {wanted!r}")


def ended(at, said, status, most, faults, leaves=False):
    """A run that nobody disturbs."""
    run = Run(at.program, said)
    close(at, run, status, most, faults, leaves)
    return run


def close(at, run, status, most, faults, leaves=False):
    faults.expect("status", run.ends(), status)
    faults.expect(f"less than {most * at.patience} s", run.seconds < most * at.patience, True)
    if not leaves:
        faults.expect("left", run.remains(), [])
    run.clean()


def row_passes(at, faults):
    run = ended(at, plan(sh("cat; echo out; echo err >&2")), 0, 1, faults)
    faults.expect("streams", [run.output(), run.output("stderr")], [b"out\n", b"err\n"])
    faults.expect("summaries on standard error", run.errors.count("Summary"), 1)


def row_combined(at, faults):
    run = ended(at, plan(sh("echo a; echo b >&2; echo c"), capture="combined"), 0, 1, faults)
    faults.expect("output", run.output("combined"), b"a\nb\nc\n")


def row_hangs(at, faults):
    run = ended(at, plan(sh("sleep 100", slow=slow(200, 300))), 100, 1, faults)
    faults.expect("result", [run.result().get("result"), run.signals()], ["timeout-fail", ["term"]])


def row_is_stubborn(at, faults):
    run = ended(at, plan(sh("trap '' TERM; (sleep 100) & wait; wait", slow=slow(200, 300))), 100, 1.2, faults)
    faults.expect("result", [run.result().get("result"), run.signals()], ["timeout-fail", ["term", "kill"]])


def row_has_no_grace(at, faults):
    run = ended(at, plan(sh("trap '' TERM; echo a; sleep .1; sleep 100", slow=slow(200, 0))), 100, 1, faults)
    found = [run.result().get("result"), run.signals(), run.output()]
    faults.expect("result", found, ["timeout-fail", ["kill"], b"a\n"])


def row_leak_passes(at, faults):
    run = ended(at, plan(sh("sleep 5 & echo hi", leak={"period": 200 * MS})), 0, 1, faults, leaves=True)
    faults.expect("result", [run.result().get("result"), run.output()], ["leak-pass", b"hi\n"])


def row_leak_fails(at, faults):
    leak = {"period": 100 * MS, "result": "fail"}
    run = ended(at, plan(sh("sleep 5 & echo hi", leak=leak)), 100, 1, faults, leaves=True)
    faults.expect("result", run.result().get("result"), "leak-fail")


def row_late_output_is_no_leak(at, faults):
    run = ended(at, plan(sh("(sleep .2; echo late) & echo now", leak={"period": 3000 * MS})), 0, 1.5, faults)
    faults.expect("result", [run.result().get("result"), run.output()], ["pass", b"now\nlate\n"])


def row_grandchild_dies_with_its_group(at, faults):
    run = ended(at, plan(sh("sleep 100 & sleep 100 & wait", slow=slow(100, 300))), 100, 1, faults)
    faults.expect("result", run.result().get("result"), "timeout-fail")


def row_is_long(at, faults):
    run = ended(at, plan(sh("head -c 10000000 /dev/zero; head -c 10000000 /dev/zero >&2")), 0, 10, faults)
    faults.expect("lengths", [len(run.output()), len(run.output("stderr"))], [10_000_000, 10_000_000])


def row_interrupt_twice(at, faults):
    run = Run(at.program, plan(sh("trap '' INT; echo up; sleep 100", "a"), sh("trap '' INT; sleep 100", "b")))
    run.awaits("test-started", 2)
    time.sleep(0.3)
    run.signal("int")
    run.awaits("run-begin-cancel")
    run.signal("int")
    close(at, run, 100, 2, faults)
    faults.expect("results", [run.result(name).get("result") for name in "ab"], ["fail signal 9"] * 2)
    faults.expect("signals", sorted(run.signals()), ["interrupt", "interrupt", "kill", "kill"])


def row_interrupt_once(at, faults):
    run = Run(at.program, plan(sh("echo up; sleep 100"), sh("echo other", "u"), threads=1))
    run.awaits("test-started")
    time.sleep(0.3)
    run.signal("int")
    close(at, run, 100, 2, faults)
    faults.expect("result", [run.result().get("result"), run.result("u")], ["fail signal 2", {}])


def row_third_signal(at, faults):
    run = Run(at.program, plan(sh("sleep 100", slow=slow(60000, 60000))))
    run.awaits("test-started")
    time.sleep(0.2)
    run.write('{"turn":"signal","name":"int"}\n' * 3)
    status = run.ends()
    faults.expect(f"status {status} is 7 or 100", status in (7, 100), True)
    faults.expect("left", run.remains(), [])
    run.clean()


def is_stopped(pid):
    try:
        with open(f"/proc/{pid}/stat") as stat:
            return stat.read().rsplit(")", 1)[1].split()[0] == "T"
    except OSError:
        return False


def row_stop_and_continue(at, faults):
    run = Run(at.program, plan(sh("for i in 1 2 3 4 5 6 7 8; do sleep .1; done", slow=slow(3000, 100))))
    run.awaits("test-started")
    time.sleep(0.2)
    run.signal("tstp")
    end = time.monotonic() + 5
    while not is_stopped(run.process.pid) and time.monotonic() < end:
        time.sleep(0.01)
    faults.expect("the program stops", is_stopped(run.process.pid), True)
    stopped = [pid for pid in left(run.mark) if is_stopped(pid)]
    faults.expect("its test is stopped too", len(stopped) > 1, True)
    time.sleep(1.5)
    os.kill(run.process.pid, signal.SIGCONT)
    run.signal("cont")
    close(at, run, 0, 5, faults)
    finished = run.events("run-finished")
    elapsed = finished[0]["elapsed"] / 1e9 if finished else 0
    faults.expect(f"the stop is not counted: {elapsed:.2f} s", 0.6 < elapsed < 1.4 * at.patience, True)


def row_information(at, faults):
    run = Run(at.program, plan(sh("sleep .6")))
    run.awaits("test-started")
    for name in ("usr1", "t", "enter"):
        run.signal(name) if name == "usr1" else run.key(name)
        time.sleep(0.1)
    close(at, run, 0, 2, faults)
    faults.expect("answers", [len(run.events("info-started")), len(run.events("input-enter"))], [2, 1])


def row_global_time_out(at, faults):
    run = ended(at, plan(sh("sleep 100"), global_timeout=300 * MS), 100, 1.5, faults)
    faults.expect("signals", run.signals(), ["term"])


def row_failure_ends_all(at, faults):
    tests = [sh("sleep 100", "a"), sh("sleep .2; exit 1", "b")]
    run = ended(at, plan(*tests, max_fail={"count": 1, "mode": "immediate"}), 100, 2, faults)
    faults.expect("results", [run.result(name).get("result") for name in "ab"], ["fail signal 15", "fail code 1"])


def row_program_is_killed(at, faults):
    tests = [sh("trap '' TERM HUP INT; (trap '' TERM HUP INT; sleep 100) & wait; wait", f"t{n}") for n in range(4)]
    run = Run(at.program, plan(*tests))
    run.awaits("test-started", 4)
    time.sleep(0.3)
    faults.expect("they run", len(left(run.mark)) > 8, True)
    run.process.kill()
    run.process.wait()
    faults.expect("left", run.remains(), [])
    run.clean()
    run.ends()


def row_environment_file(at, faults):
    with tempfile.TemporaryDirectory() as folder:
        path = f"{folder}/env"
        script = {"id": "s", "command": ["sh", "-c", 'echo "GIVEN=a b" >>"$NEXTEST_ENV"'], "env_path": path}
        run = ended(at, plan(sh('echo "$GIVEN"', scripts=[0]), scripts=[script]), 0, 2, faults)
        faults.expect("output", run.output(), b"a b\n")


def row_script_hangs(at, faults):
    script = {"id": "s", "command": ["sleep", "100"], "slow": slow(200, 300)}
    run = ended(at, plan(sh("true"), scripts=[script]), 105, 2, faults)
    faults.expect("signals", run.signals(), ["term"])


def row_no_program(at, faults):
    run = ended(at, plan({**sh(""), "command": ["./no-such-program"]}), 100, 1, faults)
    faults.expect("result", run.result().get("result"), "exec-fail")


def row_is_tried_again(at, faults):
    with tempfile.TemporaryDirectory() as folder:
        script = f"echo x >>{folder}/n; [ $(wc -l <{folder}/n) = 3 ]"
        run = ended(at, plan(sh(script, retries={"backoff": "fixed", "count": 2, "delay": 0})), 0, 2, faults)
        faults.expect("attempts", run.result().get("attempt"), 3)


def row_first_lines(at, faults):
    """A plan line of 14 MB, one of more than 2^24 bytes, none, and lines that are dropped."""
    long = json.dumps(plan(sh("true"), args=["x" * 14_000_000]))
    ended(at, long, 0, 2, faults)
    ended(at, '"' + "x" * 16_777_217, 12, 2, faults)
    ended(at, "", 3, 1, faults)
    run = Run(at.program, plan(sh("sleep .3")))
    run.write("no line\n")
    close(at, run, 0, 1, faults)
    faults.expect("standard error", run.errors.count("dropped"), 1)


def row_input_ends(at, faults):
    run = Run(at.program, plan(sh("sleep .3; echo x")))
    run.write_end()
    close(at, run, 0, 1, faults)
    faults.expect("output", run.output(), b"x\n")


SCRIPTS = ("true", "false", "echo x", "sleep .05", "sleep .2", "sleep 100", "sleep 3 & echo x", "exec sleep 100",
           "trap '' TERM INT HUP; sleep 100", "trap 'exit 3' TERM; sleep 3 & wait", "head -c 300000 /dev/zero",
           "(sleep .1; echo late) & echo now", "kill -9 $$")


def disturb(run, chance):
    """Random signals and keys until the run ends; a program that stops goes on. No third signal ends the run."""
    ends = 0
    for _ in range(chance.randrange(8)):
        time.sleep(chance.random() * 0.15)
        name = chance.choice(["int", "term", "hup", "tstp", "usr1", "cont", "t", "enter"])
        ends += name in ("int", "term", "hup")
        if ends < 3:
            run.key(name) if name in ("t", "enter") else run.signal(name)
    end = time.monotonic() + 20
    while run.process.poll() is None and time.monotonic() < end:
        if is_stopped(run.process.pid):
            time.sleep(chance.random() * 0.1)
            os.kill(run.process.pid, signal.SIGCONT)
            run.signal("cont")
        time.sleep(0.02)


def words_of(pid):
    try:
        with open(f"/proc/{pid}/cmdline") as words:
            return words.read().replace("\0", " ").strip()
    except OSError:
        return ""


def random_test(chance, name):
    limit = slow(chance.choice([50, 150, 300]), chance.choice([0, 50, 150]))
    leak = {"period": chance.choice([20, 200]) * MS, "result": chance.choice(["pass", "fail"])}
    return sh(chance.choice(SCRIPTS), name, slow=limit, leak=leak)


def row_random(at, faults):
    worst = 0
    for number in range(at.random):
        chance = random.Random(number)
        tests = [random_test(chance, f"t{n}") for n in range(chance.randrange(1, 25))]
        capture = chance.choice(["split", "combined", "none"])
        run = Run(at.program, plan(*tests, threads=chance.randrange(1, 9), capture=capture))
        disturb(run, chance)
        status = run.ends(20)
        worst = max(worst, run.seconds)
        if status not in (0, 100):
            faults.append(f"random run {number}: status {status}, {run.errors!r}")
        # A stop that comes as a test ends stops what it leaves behind, and no continue follows.
        for pid in filter(is_stopped, left(run.mark)):
            os.kill(pid, signal.SIGCONT)
        # Sleeps of three seconds outlive their tests.
        if run.remains(3 + 2 * at.patience):
            faults.append(f"random run {number}: left {[words_of(pid) for pid in left(run.mark)]}")
        run.clean()
    print(f"  {at.random} random runs, the longest {worst:.2f} s")


def row_many(at, faults):
    tests = [{"binary": "b", "name": f"t{n}", "command": ["false" if n % 3 == 0 else "true"]} for n in range(at.tests)]
    ours, theirs = [], []
    for _ in range(at.runs):
        run = ended(at, plan(*tests, threads=at.threads), 100, 60, faults)
        ours.append(run.seconds)
        results = {event["test"][1]: event["statuses"][-1]["result"] for event in run.events("test-finished")}
        wrong = [n for n in range(at.tests) if results.get(f"t{n}") != ("fail code 1" if n % 3 == 0 else "pass")]
        faults.expect("wrong results", wrong[:3], [])
        names = "".join(test["command"][0] + "\n" for test in tests)
        began = time.monotonic()
        subprocess.run(["xargs", "-P", str(at.threads), "-n", "1", "env"], input=names, text=True, check=False,
                       stdout=subprocess.DEVNULL, stderr=subprocess.DEVNULL)
        theirs.append(time.monotonic() - began)
    for name, times in (("run", ours), ("xargs -P", theirs)):
        print(f"  {at.tests} commands over {at.threads} threads, {name}: least {min(times):.3f} s, "
              f"middle {statistics.median(times):.3f} s")


def main():
    words = argparse.ArgumentParser(description=__doc__, formatter_class=argparse.RawDescriptionHelpFormatter)
    words.add_argument("program", nargs="?", default=os.environ.get("NEXTEST_RUN", "nextest_run"))
    words.add_argument("--only", default="")
    words.add_argument("--random", type=int, default=200)
    words.add_argument("--tests", type=int, default=1000)
    words.add_argument("--threads", type=int, default=8)
    words.add_argument("--runs", type=int, default=5)
    words.add_argument("--patience", type=float, default=1)
    at = words.parse_args()
    failed = 0
    for name, row in list(globals().items()):
        if not name.startswith("row_") or not re.search(at.only, name):
            continue
        faults = Faults()
        row(at, faults)
        failed += bool(faults)
        print("FAIL" if faults else "ok", name[4:].replace("_", " "), flush=True)
        print(*(f"    {fault}\n" for fault in faults), sep="", end="", flush=True)
    sys.exit(1 if failed else 0)


main()

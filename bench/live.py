#!/usr/bin/env python3
"""Measures `PROGRAM live` on many short commands beside `xargs -P`, and looks at each result.

    bench/live.py PROGRAM [--tests 1000] [--threads 8] [--runs 20]

Every third command is `false`, the others `true`. Each run must end with status 100, one finish for each test, and each
result that of its command. The seconds are by the clock: the least and the middle of the runs.
"""
import argparse
import json
import shutil
import statistics
import subprocess
import sys
import time

RUN_ID = "00000000-0000-4000-8000-000000000001"


def plan(tests, threads):
    true, false = shutil.which("true"), shutil.which("false")
    return json.dumps({"run_id": RUN_ID, "threads": threads, "tests": [
        {"binary": "b", "name": f"t{i}", "command": [false if i % 3 == 0 else true]} for i in range(tests)]}) + "\n"


def looked_at(out, tests):
    results = {}
    for line in out.splitlines():
        event = json.loads(line)
        if event.get("event") == "test-finished":
            name = event["test"][1]
            if name in results:
                return f"{name} finished twice"
            results[name] = event["statuses"][-1]["result"]
    for i in range(tests):
        wanted = "fail code 1" if i % 3 == 0 else "pass"
        if results.get(f"t{i}") != wanted:
            return f"t{i}: {results.get(f't{i}')} for {wanted}"
    return None


def main():
    a = argparse.ArgumentParser()
    a.add_argument("program")
    a.add_argument("--tests", type=int, default=1000)
    a.add_argument("--threads", type=int, default=8)
    a.add_argument("--runs", type=int, default=20)
    a = a.parse_args()
    text = plan(a.tests, a.threads)
    names = "".join(("false" if i % 3 == 0 else "true") + "\n" for i in range(a.tests))
    ours, theirs = [], []
    for _ in range(a.runs):
        at = time.monotonic()
        p = subprocess.run([a.program, "live"], input=text, capture_output=True, text=True, timeout=120)
        ours.append(time.monotonic() - at)
        fault = looked_at(p.stdout, a.tests) if p.returncode == 100 else f"status {p.returncode}"
        if fault:
            sys.exit(f"run {len(ours)}: {fault}")
        at = time.monotonic()
        subprocess.run(["xargs", "-P", str(a.threads), "-n", "1", "env"], input=names, text=True,
                       stdout=subprocess.DEVNULL, stderr=subprocess.DEVNULL)
        theirs.append(time.monotonic() - at)
    print(f"{a.runs} runs of {a.tests} commands over {a.threads} threads, each result right")
    for name, times in (("live", ours), ("xargs -P", theirs)):
        print(f"{name}: least {min(times):.3f} s, middle {statistics.median(times):.3f} s")


if __name__ == "__main__":
    main()

#!/usr/bin/env python3
"""Times `tw check` and `tw rescue` beside `tw task count` on the same tasks: bench/checking.py [--tw PATH] [--sizes 1000,10000] [--runs 9]

For each number of tasks it imports them, and adds ten one by one after that. Each line gives the medians of the wall time in milliseconds, of as many runs of
each, one after another, and how many times longer a check takes than a count. A rescue is of the same journal without its last byte.
"""

import argparse
import os
import statistics
import subprocess
import tempfile
import time


def timed(words, surroundings, stdin="", status=0):
    before = time.monotonic()
    done = subprocess.run(words, input=stdin, env=surroundings, capture_output=True, text=True)
    after = time.monotonic()
    if done.returncode != status:
        raise SystemExit(f"{' '.join(words)} ends with {done.returncode}: {done.stderr}")
    return (after - before) * 1000


def measure(tw, number, runs):
    with tempfile.TemporaryDirectory() as folder:
        journal = os.path.join(folder, "replica.journal")
        damaged = os.path.join(folder, "damaged")
        surroundings = {"HOME": folder, "TASKDATA": folder, "TIMEWARRIORDB": folder, "TZ": ""}
        lines = ",\n".join(f'{{"description":"Task {n} of {number}","entry":"20260101T000000Z","status":"pending"}}' for n in range(number))
        timed([tw, "task", "import"], surroundings, f"[{lines}]\n")
        for n in range(10):
            timed([tw, "task", "add", f"Last {n}"], surroundings)
        with open(journal, "rb") as whole, open(damaged, "wb") as cut:
            cut.write(whole.read()[:-1])
        counts, checks, rescues = [], [], []
        for _ in range(runs):
            counts.append(timed([tw, "task", "count"], surroundings))
            checks.append(timed([tw, "check", journal], surroundings))
            rescues.append(timed([tw, "rescue", damaged], surroundings))
            os.remove(damaged + ".rescued")
    return [statistics.median(times) for times in (counts, checks, rescues)]


parser = argparse.ArgumentParser(description="Times tw check and tw rescue beside tw task count.")
parser.add_argument("--tw", default=os.path.join(os.path.dirname(__file__), "../crates/tw/out/tw"))
parser.add_argument("--sizes", default="1000,10000")
parser.add_argument("--runs", type=int, default=9)
arguments = parser.parse_args()
print(f"{'tasks':>8}{'count':>10}{'check':>10}{'rescue':>10}{'check/count':>13}")
for number in map(int, arguments.sizes.split(",")):
    count, check, rescue = measure(os.path.realpath(arguments.tw), number, arguments.runs)
    print(f"{number:8}{count:10.1f}{check:10.1f}{rescue:10.1f}{check / count:13.2f}")

#!/usr/bin/env python3
"""Times `tw audit` beside the sync that pulls the same versions: bench/audit.py [--tw PATH] [--sizes 100,1000] [--runs 5]

For each number of versions it fills a history, each version with one task of five properties, and a machine pulls all of it. The server of an audit ends
after as many connections as there are versions, so that the run fails if an audit takes another number. Each line gives the exchanges of an audit and the
medians of the wall time in milliseconds.
"""

import argparse
import http.client
import json
import os
import socket
import statistics
import subprocess
import tempfile
import time

CLIENT = "1a2b3c4d-0001-4002-8003-000000000009"
NIL = "00000000-0000-0000-0000-000000000000"


def serve(tw, history, *connections):
    with socket.socket() as listener:
        listener.bind(("127.0.0.1", 0))
        port = listener.getsockname()[1]
    process = subprocess.Popen([tw, "server", str(port), history, *connections])
    listening = f"0100007F:{port:04X} 00000000:0000 0A"
    while True:
        with open("/proc/net/tcp", encoding="ascii") as sockets:
            if listening in sockets.read():
                return process, port
        time.sleep(0.01)


def segment(number):
    uuid = f"00000000-0000-4000-8000-{number:012x}"
    values = {"description": f"Task {number}", "entry": "1700000000", "modified": "1700000000", "project": "Home", "status": "pending"}
    updates = [{"Update": {"property": name, "timestamp": "2023-11-14T22:13:20Z", "uuid": uuid, "value": value}} for name, value in values.items()]
    return json.dumps({"operations": [{"Create": {"uuid": uuid}}, *updates]}, separators=(",", ":")).encode()


def fill(port, versions):
    latest = NIL
    for number in range(1, versions + 1):
        link = http.client.HTTPConnection("127.0.0.1", port, timeout=60)
        headers = {"X-Client-Id": CLIENT, "Content-Type": "application/vnd.taskchampion.history-segment"}
        link.request("POST", f"/v1/client/add-version/{latest}", segment(number), headers)
        answer = link.getresponse()
        answer.read()
        latest = answer.getheader("X-Version-Id")
        link.close()


def timed(tw, folder, port, *words):
    settings = os.path.join(folder, "taskrc")
    with open(settings, "w", encoding="utf-8") as file:
        file.write(f"sync.server.url=http://127.0.0.1:{port}\nsync.server.client_id={CLIENT}\n")
    surroundings = {"HOME": folder, "TASKDATA": folder, "TASKRC": settings, "TZ": ""}
    before = time.monotonic()
    done = subprocess.run([tw, *words], env=surroundings, capture_output=True, text=True)
    after = time.monotonic()
    if done.returncode != 0:
        raise SystemExit(f"{' '.join(words)} ends with {done.returncode}: {done.stdout}{done.stderr}")
    return (after - before) * 1000


def measure(tw, versions, runs):
    with tempfile.TemporaryDirectory() as folder:
        history = os.path.join(folder, "history")
        process, port = serve(tw, history)
        fill(port, versions)
        pulled = timed(tw, folder, port, "task", "sync")
        process.kill()
        process.wait()
        audits = []
        for _ in range(runs):
            process, port = serve(tw, history, str(versions))
            audits.append(timed(tw, folder, port, "audit"))
            if process.wait(10) != 0:
                raise SystemExit("an audit takes another number of exchanges than there are versions")
    return pulled, statistics.median(audits)


parser = argparse.ArgumentParser(description="Times tw audit beside a sync that pulls the same versions.")
parser.add_argument("--tw", default=os.path.join(os.path.dirname(__file__), "../crates/tw/out/tw"))
parser.add_argument("--sizes", default="100,1000")
parser.add_argument("--runs", type=int, default=5)
arguments = parser.parse_args()
print(f"{'versions':>8}{'exchanges':>11}{'audit':>10}{'first sync':>12}")
for number in map(int, arguments.sizes.split(",")):
    first, audit = measure(os.path.realpath(arguments.tw), number, arguments.runs)
    print(f"{number:8}{number:11}{audit:10.1f}{first:12.1f}")

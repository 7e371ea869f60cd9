#!/usr/bin/env python3
"""Times how `tw server` opens its file, and how a new machine takes the tasks of one over.

    bench/serving.py [--tw PATH] [--versions 100000] [--sizes 1024,65536] [--tasks 10000] [--runs 5]

For each size it writes a file of so many versions of one client with segments of that size, in the format that docs/FORMATS.md gives: once
without a block, and once with a block after each 256 versions. An opening of the first adds one block, which is taken off again. Each line
gives the median of the milliseconds until the first answer, how often the opening read, how many megabytes, the peak of memory in megabytes, and
how many bytes of it are there for each version. The segments are holes of the file, which some file systems take minutes to remove: TMPDIR may be a
folder in memory. Without /proc only the time is told.
Then a new machine syncs with a server of so many tasks, each of which was made by a version of its own: from nil, and from the snapshot of all.
"""

import argparse
import json
import os
import socket
import statistics
import struct
import subprocess
import sys
import tempfile
import time

from run import hyphenated, properties, tasks
from sync import CLIENT, Machine, free_port, processor, serve

NAMED = 256
REQUEST = f"GET /v1/client/snapshot HTTP/1.1\r\nX-Client-Id: {CLIENT}\r\n\r\n".encode()
BEGINNING = b"\x02" + struct.pack(">I", 8) + b"TWSERV01" + struct.pack(">QQ", 29, 0)


def identifier(number):
    """The id of the version with this number, from 1 on; that of 0 is nil."""
    return number.to_bytes(16, "big")


def record(body):
    return b"\x01" + struct.pack(">I", len(body)) + body


def client():
    return bytes.fromhex(CLIENT.replace("-", ""))


def names(number):
    return client() + identifier(number) + identifier(number - 1)


def write_file(path, versions, size, blocked):
    """A server's file of so many versions, whose segments are holes."""
    with open(path, "wb") as file:
        file.write(BEGINNING)
        for number in range(1, versions + 1):
            body = b"\x01" + names(number)
            file.write(b"\x01" + struct.pack(">I", len(body) + size) + body)
            file.seek(size, os.SEEK_CUR)
            if blocked and number % NAMED == 0:
                file.write(record(b"\x02" + b"".join(names(n) for n in range(number - NAMED + 1, number + 1))))
        file.truncate()


def told(seconds):
    return time.strftime("%Y-%m-%dT%H:%M:%SZ", time.gmtime(seconds))


def segment(uuid, second, values):
    """The segment that makes a task, as docs/FORMATS.md has it."""
    made = [{"Create": {"uuid": uuid}}]
    for name, value in values:
        made.append({"Update": {"uuid": uuid, "property": name, "value": value, "timestamp": told(second)}})
    return json.dumps({"operations": made}, separators=(",", ":")).encode()


def write_tasks(path, number):
    """A server's file of so many versions, each of which makes a task, and the record of the snapshot after them."""
    snapshot = {}
    with open(path, "wb") as file:
        file.write(BEGINNING)
        for place, (word, second, description) in enumerate(tasks(number), 1):
            uuid, values = hyphenated(word), properties(second, description)
            snapshot[uuid] = dict(values)
            file.write(record(b"\x01" + names(place) + segment(uuid, second, values)))
    text = json.dumps(snapshot, sort_keys=True, separators=(",", ":")).encode()
    return record(b"\x03" + client() + identifier(number) + text)


def read_so_far(process):
    """How many calls read, and how many megabytes."""
    try:
        with open(f"/proc/{process.pid}/io", encoding="ascii") as file:
            told = dict(line.split(": ") for line in file.read().splitlines())
        return int(told["syscr"]), int(told["rchar"]) / 1_000_000
    except (OSError, KeyError):
        return None, None


def peak(process):
    """The peak of resident memory in megabytes."""
    try:
        with open(f"/proc/{process.pid}/status", encoding="ascii") as file:
            told = dict(line.split(":", 1) for line in file.read().splitlines())
        return int(told["VmHWM"].split()[0]) / 1000
    except (OSError, KeyError):
        return None


def answered(port):
    """Whether a server at this port answers a request."""
    with socket.socket() as caller:
        caller.settimeout(120)
        if caller.connect_ex(("127.0.0.1", port)) != 0:
            return False
        caller.sendall(REQUEST)
        caller.shutdown(socket.SHUT_WR)
        return caller.recv(100).startswith(b"HTTP/1.1 404")


def opening(tw, path):
    """Milliseconds until a server of this file answers, the calls that read, the megabytes, and the peak of memory."""
    port = free_port()
    begin = time.perf_counter()
    server = subprocess.Popen([tw, "server", str(port), path], stdout=subprocess.DEVNULL)
    try:
        while not answered(port):
            if server.poll() is not None:
                sys.exit("the server does not answer")
            time.sleep(0.001)
        taken = (time.perf_counter() - begin) * 1000
        return taken, *read_so_far(server), peak(server)
    finally:
        server.terminate()
        server.wait()


def openings(options):
    """A line for each form of a file."""
    print(f"{'segment':>8} {'blocks':>7} {'ms':>9} {'reads':>9} {'MB':>9} {'memory':>9} {'a version':>10}")
    with tempfile.TemporaryDirectory(prefix="tw-bench-") as folder:
        path = os.path.join(folder, "history")
        write_file(path, 0, 0, False)
        least = opening(options.tw, path)[3]
        for size in map(int, options.sizes.split(",")):
            for blocked in (False, True):
                write_file(path, options.versions, size, blocked)
                whole = os.path.getsize(path)
                runs = []
                for _ in range(options.runs):
                    runs.append(opening(options.tw, path))
                    os.truncate(path, whole)
                line = f"{size:>8} {'yes' if blocked else 'no':>7} {statistics.median(run[0] for run in runs):>9.1f}"
                _, reads, read, memory = runs[0]
                if reads is not None and memory is not None:
                    line += f" {reads:>9} {read:>9.1f} {memory:>9.1f} {(memory - least) * 1_000_000 / options.versions:>10.0f}"
                print(line, flush=True)


def beginning(tw, folder, path, turn):
    """Milliseconds of the first sync of a new machine with a server of this file, by the clock and of the machine's processor."""
    port = free_port()
    server = serve(tw, path, port)
    try:
        machine = Machine(tw, folder, turn, port)
        os.makedirs(machine.folder)
        before = processor()
        wall, _ = machine.run("sync")
        return wall, processor() - before
    finally:
        server.terminate()
        server.wait()


def beginnings(options):
    """How long a new machine takes from nil and from the snapshot, and how many times longer from nil."""
    with tempfile.TemporaryDirectory(prefix="tw-bench-") as folder:
        path = os.path.join(folder, "history")
        snapshot = write_tasks(path, options.tasks)
        nil = [beginning(options.tw, folder, path, f"nil-{turn}") for turn in range(options.runs)]
        with open(path, "ab") as file:
            file.write(snapshot)
        begun = [beginning(options.tw, folder, path, f"snapshot-{turn}") for turn in range(options.runs)]
    print(f"{'a new machine':<13} {'from nil':>12} {'from a snapshot':>16}")
    for place, name in enumerate(("wall time", "processor")):
        first, second = (statistics.median(run[place] for run in runs) for runs in (nil, begun))
        print(f"{name:<13} {first:>9.1f} ms {second:>13.1f} ms {first / second:>6.1f} x")


def main():
    built = os.path.join(os.path.dirname(os.path.abspath(__file__)), "..", "crates", "tw", "out", "tw")
    parser = argparse.ArgumentParser(description="Times how tw server opens its file, and how a new machine begins.")
    parser.add_argument("--tw", default=built, help="the program tw")
    parser.add_argument("--versions", type=int, default=100_000, help="versions of an opening")
    parser.add_argument("--sizes", default="1024,65536", help="bytes of their segments")
    parser.add_argument("--tasks", type=int, default=10_000, help="tasks that a new machine takes over")
    parser.add_argument("--runs", type=int, default=5, help="runs of each")
    options = parser.parse_args()
    if not os.access(options.tw, os.X_OK):
        sys.exit(f"there is no program {options.tw}: build it by tools/build")
    openings(options)
    beginnings(options)


if __name__ == "__main__":
    main()

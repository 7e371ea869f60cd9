#!/usr/bin/env python3
"""Times syncs of `tw`: how long a first sync takes that pushes all tasks, one that pulls them, and one of a single change.

    bench/sync.py [--tw PATH] [--sizes 1000,1800,10000,18000,50000] [--runs 5]

For each number of tasks it starts `tw server` over a new file. A machine holds the tasks in one commit, five operations each, and pushes them,
which takes versions of at most 1,048,576 bytes; a second machine pulls them. In `pull-beside` a third one pulls them that has 10,000 operations
pending on other tasks, which it pushes then; `push-beside` is the push of these alone. Then the first machine changes one task and syncs, and
`count` beside it tells what opening the replica takes.
Each line gives the median of the wall time in milliseconds, how many times that of ten times fewer tasks it is, if these were measured before,
and the peak of resident memory in megabytes. That of `push-all` gives besides what the machine wrote to its files, and by what the server's file grew,
each as a multiple of the bytes of the segments: a push writes nothing for an operation on the machine, and each operation once on the server.
Memory is measured by GNU time (Debian's package time), and left out if that is not there. What a machine writes is left out without /proc.
"""

import argparse
import os
import resource
import socket
import statistics
import subprocess
import sys
import tempfile
import time

from run import GNU_TIME, commit, operations, properties, write_journal

CLIENT = "1a2b3c4d-0001-4002-8003-00000000000f"
ANOTHER = "1a2b3c4d-0001-4002-8003-00000000000e"
# The tasks of five pending operations each beside which others are pulled.
BESIDE = 2000


def free_port():
    with socket.socket() as listener:
        listener.bind(("127.0.0.1", 0))
        return listener.getsockname()[1]


def serve(tw, path, port):
    """A server over a file, once it listens."""
    server = subprocess.Popen([tw, "server", str(port), path], stdout=subprocess.DEVNULL)
    for _ in range(200):
        with socket.socket() as caller:
            if caller.connect_ex(("127.0.0.1", port)) == 0:
                return server
        time.sleep(0.05)
    server.terminate()
    return sys.exit("the server does not listen")


def segment_bytes(path):
    """The bytes of all segments in a server's file with slots."""
    with open(path, "rb") as file:
        data = file.read()
    place, found = 29, 0
    while place < len(data) and data[place] == 1:
        length = int.from_bytes(data[place + 1 : place + 5], "big")
        if data[place + 5] == 1:
            found += length - 49
        place += 5 + length
    return found


def processor():
    """The processor time of what was run and has ended, in milliseconds."""
    used = resource.getrusage(resource.RUSAGE_CHILDREN)
    return (used.ru_utime + used.ru_stime) * 1000


def written(process):
    """The bytes that an ended process wrote to files, or none. What it sent is not in it."""
    try:
        with open(f"/proc/{process.pid}/io", encoding="ascii") as file:
            told = dict(line.split(": ") for line in file.read().splitlines())
        return int(told["wchar"])
    except (OSError, KeyError):
        return None


class Machine:
    """A machine with a store of its own, and the settings of the server."""

    def __init__(self, tw, folder, name, port, client=CLIENT):
        self.tw = tw
        self.folder = os.path.join(folder, name)
        self.settings = os.path.join(folder, name + ".taskrc")
        self.reported = ""
        self.written = None
        with open(self.settings, "w", encoding="utf-8") as file:
            file.write(f"sync.server.url=http://localhost:{port}\nsync.server.client_id={client}\n")

    def run(self, *words, status=0):
        """The wall time of a line in milliseconds, and the peak memory in megabytes or none. What it reports and how much it wrote is kept."""
        report = self.settings + ".peak"
        wrapper = [GNU_TIME, "-f", "%M", "-o", report] if os.access(GNU_TIME, os.X_OK) else []
        environment = {"PATH": os.environ.get("PATH", ""), "HOME": self.folder, "TASKDATA": self.folder, "TASKRC": self.settings, "TZ": ""}
        begin = time.perf_counter()
        with subprocess.Popen([*wrapper, self.tw, "task", *words], env=environment, stdout=subprocess.DEVNULL, stderr=subprocess.PIPE) as ended:
            self.reported = ended.stderr.read().decode(errors="replace")
            os.waitid(os.P_PID, ended.pid, os.WEXITED | os.WNOWAIT)
            wall = (time.perf_counter() - begin) * 1000
            self.written = written(ended)
        if ended.returncode != status:
            sys.exit(f"{' '.join(words)} ended with {ended.returncode}: {self.reported}")
        if not wrapper:
            return wall, None
        with open(report, encoding="utf-8") as file:
            return wall, int(file.read().split()[-1]) / 1024


def with_tasks(machine, number):
    """A machine that made so many tasks by one command."""
    write_journal(machine.folder, number, number, commit, operations, True, properties)
    return machine


def times_segments(first, history):
    """What a machine wrote and by what the server's file grew, as multiples of the bytes of the segments."""
    sent = segment_bytes(history)
    grown = (os.path.getsize(history) - 29) / sent
    by_machine = f"{first.written / sent:.2f} x written here, " if first.written is not None else ""
    return f"{sent / 1_000_000:.1f} MB sent, {by_machine}{grown:.2f} x on the server"


def measure(tw, number):
    """The lines of one turn over new stores, and what the first one wrote."""
    with tempfile.TemporaryDirectory(prefix="tw-bench-") as folder:
        port = free_port()
        history = os.path.join(folder, "history")
        server = serve(tw, history, port)
        try:
            first = with_tasks(Machine(tw, folder, "first", port), number)
            second = Machine(tw, folder, "second", port)
            os.makedirs(second.folder)
            found = {"push-all": first.run("sync")}
            told = times_segments(first, history)
            found["pull-all"] = second.run("sync")
            found["pull-beside"] = with_tasks(Machine(tw, folder, "third", port), BESIDE).run("sync")
            found["push-beside"] = with_tasks(Machine(tw, folder, "fourth", port, ANOTHER), BESIDE).run("sync")
            first.run("sync")
            first.run("1", "modify", "project:p1")
            found["count"] = first.run("count")
            found["push-one"] = first.run("sync")
            return found, told
        finally:
            server.terminate()
            server.wait()


def main():
    built = os.path.join(os.path.dirname(os.path.abspath(__file__)), "..", "crates", "tw", "out", "tw")
    parser = argparse.ArgumentParser(description="Times syncs of tw.")
    parser.add_argument("--tw", default=built, help="the program tw")
    parser.add_argument("--sizes", default="1000,1800,10000,18000,50000", help="numbers of tasks")
    parser.add_argument("--runs", type=int, default=5, help="runs of each sync")
    arguments = parser.parse_args()
    if not os.access(arguments.tw, os.X_OK):
        sys.exit(f"there is no program {arguments.tw}: build it by tools/build")
    print(" tasks line        |   wall time | ten times fewer |    memory")
    walls = {}
    for number in [int(size) for size in arguments.sizes.split(",")]:
        turns = [measure(arguments.tw, number) for _ in range(arguments.runs)]
        for line in turns[0][0]:
            wall = walls[number, line] = statistics.median(turn[0][line][0] for turn in turns)
            fewer = walls.get((number // 10, line)) if number % 10 == 0 else None
            peak = turns[0][0][line][1]
            cells = [f"{number:>6} {line:<11}", f"{wall:>8.1f} ms", f"{wall / fewer:>13.1f} x" if fewer else " " * 15]
            cells += [f"{peak:>6.1f} MB" if peak else "", turns[0][1] if line == "push-all" else ""]
            print(" | ".join(cells).rstrip(" |"), flush=True)


if __name__ == "__main__":
    main()

#!/usr/bin/env python3
"""Shows how a sync of `tw` ends if a server sends more than it may, or as much as it may.

    bench/large.py [--tw PATH]

The first line is a sync of 17 versions of 16,000,000 bytes, which are spaces and then no operation: it has to end with status 5 and report the sum
of the bytes. The others are those of a new machine to which a server sends a snapshot of 16 MB: one of objects in objects, of which no tasks can be
read; one of as many tasks without properties as have room; and one of a task with a million properties.
Each line has the wall time and the processor time in milliseconds, and the peak of resident memory in megabytes if GNU time is there. A snapshot has
to take less than a second of the processor, and less than 1,000 MB.
"""

import argparse
import http.server
import os
import sys
import tempfile
import threading

from sync import Machine, processor

VERSIONS = 17
SEGMENT = b'{"operations":[]}'.rjust(16_000_000)
LIMIT = 16_777_216
FIRST = "00000000-0000-4000-8000-000000000001"


def deep():
    levels = (LIMIT - 2) // 6
    return b'{"a":' * levels + b'""' + b"}" * levels


def wide():
    tasks = (LIMIT - 1) // 42
    return b"{" + b",".join(b'"00000000-0000-4000-8000-%012x":{}' % number for number in range(tasks)) + b"}"


def keys():
    return b'{"%s":{' % FIRST.encode() + b",".join(b'"%010d":""' % number for number in range(1_000_000)) + b"}}"


class Sender(http.server.BaseHTTPRequestHandler):
    """Sends this snapshot, if there is one, and after it no version. Else each version whose number comes next."""

    snapshot = None

    def answer(self, status, body, *names):
        self.send_response(status)
        self.send_header("Content-Length", str(len(body)))
        for name, value in names:
            self.send_header(name, value)
        self.end_headers()
        self.wfile.write(body)

    def do_GET(self):
        parent = self.path.rsplit("/", 1)[1]
        if parent == "snapshot" and self.snapshot:
            self.answer(200, self.snapshot, ("X-Version-Id", FIRST))
        elif parent == "snapshot" or self.snapshot:
            self.answer(404, b"")
        else:
            child = f"00000000-0000-4000-8000-{int(parent[-12:]) + 1:012}"
            self.answer(200, SEGMENT, ("X-Version-Id", child), ("X-Parent-Version-Id", parent))

    def log_message(self, *_words):
        """Reports no request."""


def sync(tw, snapshot, status):
    """The wall time, the processor time and the peak of memory of a new machine's sync, and what it reports."""
    sender = type("SnapshotSender", (Sender,), {"snapshot": snapshot})
    with tempfile.TemporaryDirectory(prefix="tw-bench-") as folder, http.server.HTTPServer(("127.0.0.1", 0), sender) as server:
        threading.Thread(target=server.serve_forever, daemon=True).start()
        machine = Machine(tw, folder, "machine", server.server_port)
        before = processor()
        wall, peak = machine.run("sync", status=status)
        used = processor() - before
        server.shutdown()
    return wall, used, peak, machine.reported


def show(name, wall, used, peak):
    print(f"{name:<16} | {wall:>8.1f} ms | {used:>8.1f} ms | " + (f"{peak:>6.1f} MB" if peak else ""), flush=True)


def main():
    built = os.path.join(os.path.dirname(os.path.abspath(__file__)), "..", "crates", "tw", "out", "tw")
    parser = argparse.ArgumentParser(description="Times syncs of tw that a server sends too much.")
    parser.add_argument("--tw", default=built, help="the program tw")
    tw = parser.parse_args().tw
    print("a sync           |   wall time |   processor |    memory")
    *taken, reported = sync(tw, None, 5)
    if reported != f"task: {VERSIONS * len(SEGMENT)} bytes pulled are too many\n":
        sys.exit(f"the sync reported {reported}")
    show("sync too large", *taken)
    for name, make in ("snapshot deep", deep), ("snapshot wide", wide), ("a million keys", keys):
        wall, used, peak, _ = sync(tw, make(), 0)
        show(name, wall, used, peak)
        if used >= 1000 or (peak and peak >= 1000):
            sys.exit(f"{name} takes too much")


if __name__ == "__main__":
    main()

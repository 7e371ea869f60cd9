#!/usr/bin/env python3
"""Times `tw timew` beside Timewarrior's `timew` on the same month files, and compares their peak memory.

    bench/timew.py [--tw PATH] [--timew PATH] [--sizes 1000,10000,50000] [--runs 9] [--changes 0] [--days 0] [--newest-first] [--commands start,track]

For each number of intervals it writes month files as both programs have them, in UTC: half an hour of each hour from 2015 on, the
last one some hours ago. With `--changes` so many tracks are made and taken back again before anything is measured, which leaves a
journal as long use does. With `--days` the journal has twenty records a day for so many days before the first interval, as ten intervals
a day leave that were begun and ended; their month files are not there. With `--newest-first` each month file has its lines in the other
order, as a hand may leave them: of twice the intervals a command then takes about twice as long, and no more.
The runs of the two programs alternate. A `start` is taken back by a `cancel`, a `stop` ends an interval
that began ten minutes before, `track` places an interval where there is none yet, `tag` and `move` change the first interval, and
`delete` names every interval by its id and is taken back by an `undo`; what goes before and after is not measured.
`gaps`, `days`, `weeks` and `totals` are of `tw` alone: compare them with its `summary`, which is about all intervals, too.
Each line gives the median of the wall time in milliseconds, the peak of resident memory of one more run in megabytes, and how many
times less `tw` takes of each. Without `timew` on the machine (Debian's package timewarrior), it measures `tw` alone.
"""

import os
import struct
import time

import run

HOUR = 3600
OF_ALL = ["summary", "gaps", "days", "weeks", "totals"]
COMMANDS = ["start", "stop", "track", "tag", "move", "delete", "export", *OF_ALL]
# What Timewarrior has no command for: its charts of days and weeks have other words, and totals are a script.
OWN = ["gaps", "days", "weeks", "totals"]


def stamp(second):
    return time.strftime("%Y%m%dT%H%M%SZ", time.gmtime(second))


def first_second(number):
    """The start of the first interval, so that the last one is some hours ago."""
    return (int(time.time()) // HOUR - number - 6) * HOUR


def write_months(folder, number, newest_first):
    os.makedirs(folder)
    months = {}
    for i in range(number):
        start = first_second(number) + i * HOUR
        line = f"inc {stamp(start)} - {stamp(start + HOUR // 2)} # code project{i % 10}"
        months.setdefault(time.strftime("%Y-%m", time.gmtime(start)), []).append(line)
    for month, lines in months.items():
        run.write_lines(folder, f"{month}.data", lines[::-1] if newest_first else lines)


def field(text):
    return struct.pack(">I", len(text)) + text


def write_journal(path, first, days):
    """A journal of the format that docs/FORMATS.md gives: each record has a month file as it was and as it became."""
    with open(path, "wb") as out:
        out.write(b"\2\0\0\0\x08TIMEWJ01" + struct.pack(">QQ", 29, 0))
        months = {}
        for start in range(first - days * 24 * HOUR, first, 24 * HOUR // 10):
            name = time.strftime("%Y-%m.data", time.gmtime(start)).encode()
            before = months.get(name, b"")
            begun = before + f"inc {stamp(start)} # code\n".encode()
            ended = before + f"inc {stamp(start)} - {stamp(start + HOUR)} # code\n".encode()
            for old, new in [(before, begun), (begun, ended)]:
                body = b"\1\0\0\0\1" + field(name) + field(old) + field(new)
                out.write(b"\1" + field(body))
            months[name] = ended


class Hours(run.Program):
    """A program over month files of its own."""

    def __init__(self, argv, environment, first, number):
        super().__init__(argv, environment, None)
        self.first = first
        self.number = number

    def place(self):
        """The words of an interval where there is none yet: ten minutes in the free half of an hour."""
        self.turn += 1
        start = self.first + self.turn // 2 * HOUR + HOUR // 2 + self.turn % 2 * 900
        return ["track", stamp(start), "-", stamp(start + 600), "call"]

    def measure(self, command, wrapper=()):
        if command == "start":
            taken = self.run(["start", "call"], wrapper)
            self.run(["cancel"])
            return taken
        if command == "stop":
            self.run(["start", stamp(time.time() - 600), "call"])
            taken = self.run(["stop"], wrapper)
            self.run(["delete", "@1"])
            return taken
        if command == "track":
            taken = self.run(self.place(), wrapper)
            self.number += 1
            return taken
        if command == "tag":
            self.turn += 1
            return self.run(["tag", f"@{self.number}", f"tag{self.turn}"], wrapper)
        if command == "move":
            self.turn += 1
            return self.run(["move", f"@{self.number}", stamp(self.first + self.turn)], wrapper)
        if command == "delete":
            taken = self.run(["delete", *(f"@{id}" for id in range(1, self.number + 1))], wrapper)
            self.run(["undo"])
            return taken
        return self.run([command, ":all"] if command in OF_ALL else [command], wrapper)


def programs(arguments, folder, number):
    base = {"PATH": os.environ.get("PATH", ""), "HOME": folder, "LANG": "C.UTF-8"}
    first = first_second(number)
    found = []
    for name, argv, zone in [("tw", [arguments.tw, "timew"], ""), ("timew", [arguments.rival], "UTC")]:
        if argv[0]:
            store = os.path.join(folder, name)
            write_months(os.path.join(store, "data"), number, arguments.newest_first)
            run.write_lines(store, "timewarrior.cfg", [])
            if name == "tw" and arguments.days:
                write_journal(os.path.join(store, "undo.journal"), first, arguments.days)
            found.append(Hours(argv, dict(base, TIMEWARRIORDB=store, TZ=zone), first, number))
    for program in found:
        for _ in range(arguments.changes // 2):
            program.run(["track", stamp(first - HOUR), "-", stamp(first - HOUR + 60), "call"])
            program.run(["undo"])
    return found


def main():
    parser = run.options("Times tw beside Timewarrior.", "timew", "hours", COMMANDS)
    parser.add_argument("--changes", type=int, default=0, help="changes that were made before")
    parser.add_argument("--days", type=int, default=0, help="days of twenty changes in the journal")
    parser.add_argument("--newest-first", action="store_true", help="month files whose lines have the newest first")
    run.start(parser, "timew", "hours", programs, OWN)


if __name__ == "__main__":
    main()

#!/usr/bin/env python3
"""Times `tw task` beside Taskwarrior's `task` on the same tasks, and compares their peak memory.

    bench/run.py [--tw PATH] [--task PATH] [--sizes 1000,10000,50000] [--runs 9] [--per-record 1] [--synced] [--state] [--templates] [--commands add,count]

For each number of tasks it builds a store for each program, as that many `add`s leave it: a journal,
in the format that docs/FORMATS.md gives, with `--per-record` tasks in each record, and Taskwarrior's
`pending.data`, `undo.data` and `backlog.data`. With `--synced` the tasks came from a server, and there
is nothing to undo: a journal of one sync, and Taskwarrior's `pending.data` alone. With `--state` the journal has slots and a thousand
records, in whose place a first command put the one that spells their state. With `--templates` each task is a template that is due daily
since five years, of which nothing is to be made: `--templates --commands list --sizes 100,1000` tells what asking them costs.
The runs of the two programs alternate, and each changes something that is not changed yet: `modify` sets
another project, `annotate` adds another note, `done` ends another task, `modify-all` changes every task, `modify-words` by words and dates,
and `import` reads as many tasks from a file into an empty store. Some commands are of `tw` alone, each over a new store: in `depends` a task
for which another one waits gets dependencies on one of 250 tasks of a chain, in `depends-ten` on one of 25; in `depends-each` one of 250 tasks
of the chain gets two dependencies, in `depends-each-ten` one of 25; in `done-instances` one of 100 tasks is an instance of one template and
ends, in `done-instances-ten` one of 10; in `duplicate` one of 10 tasks is copied, in `duplicate-ten` each; in `count-tag`, `count-status` and
`count-project` one of 50 tasks has the tag, the status or the project, and `count-all` counts all tasks of that store; in `next-chain` each
task of a chain waits for the one before it.
Each line gives the median of the wall time in milliseconds, the peak of resident memory of one more run in
megabytes, and how many times less `tw` takes of each.
Memory is measured by GNU time (Debian's package time), and left out if that is not there.
Without `task` on the machine (Debian's package taskwarrior), it measures `tw` alone.
"""

import argparse
import json
import os
import random
import shutil
import statistics
import struct
import subprocess
import sys
import tempfile
import time

FIRST_SECOND = 1_700_000_000
DAY = 86_400
INSTANCES = 1826
COMMANDS = {
    "add": ["add", "Buy", "milk"],
    "undo": ["undo"],
    "modify": ["1", "modify", "project:p{turn}"],
    "annotate": ["1", "annotate", "note", "{turn}"],
    "done": ["{next}", "done"],
    "modify-all": ["status:pending", "modify", "project:p{turn}"],
    "count": ["count"],
    "count-text": ["description.has:7", "count"],
    "count-number": ["7", "status:pending", "count"],
    "count-blocking": ["+BLOCKING", "count"],
    "export": ["export"],
    "import": ["import", "-"],
    "list": ["list"],
    "list-one": ["1", "list"],
    "next": ["next"],
    # The last, since the texts that it leaves are found by no other one.
    "modify-words": ["status:pending", "modify", "Words", "{turn}", "+again", "due:2031-01-31", "scheduled:2031-01-30", "until:eoy"],
}
GNU_TIME = "/usr/bin/time"


def tasks(number):
    """The uuid, the second and the description of each task. Equal for equal numbers."""
    draw = random.Random(number)
    for i in range(number):
        word = bytearray(draw.randbytes(16))
        word[6] = word[6] & 0x0F | 0x40
        word[8] = word[8] & 0x3F | 0x80
        yield bytes(word), FIRST_SECOND + i, f"Task {i} of {number}"


def text(value):
    data = value.encode()
    return struct.pack(">I", len(data)) + data


def update(uuid, name, value, second):
    return b"\x03" + uuid + text(name) + b"\x00\x01" + text(value) + struct.pack(">QI", second, 0)


def properties(second, description):
    return [("description", description), ("entry", str(second)), ("modified", str(second)), ("status", "pending")]


def template_properties(second, description):
    """A template whose last instance but one was due within this day, as a report leaves it."""
    due = int(time.time()) - (INSTANCES - 1) * DAY + DAY // 2
    return [
        ("description", description),
        ("due", str(due)),
        ("entry", str(second)),
        ("mask", "-" * INSTANCES),
        ("modified", str(second)),
        ("recur", "daily"),
        ("status", "recurring"),
    ]


def operations(uuid, second, values):
    return [b"\x01" + uuid] + [update(uuid, name, value, second) for name, value in values]


def synced_operations(uuid, second, values):
    return [b"\x01" + uuid] + [
        b"\x03" + uuid + text(name) + b"\x01" + text(value) + struct.pack(">QI", second, 0)
        for name, value in values
    ]


def record(body):
    return b"\x01" + struct.pack(">I", len(body)) + body


def sync(group):
    return b"\x03" + bytes(range(16)) + struct.pack(">I", len(group)) + b"".join(group)


def commit(group):
    return b"\x01\x00" + struct.pack(">I", len(group) + 1) + b"\x04" + b"".join(group)


def write_journal(folder, number, per_record, body, operations, with_slots, properties):
    """The store of `tw`: the magic, and records of `per_record` tasks each, with slots before them or not."""
    os.makedirs(folder)
    group = []
    with open(os.path.join(folder, "replica.journal"), "wb") as file:
        magic = record(b"TWREPL02")
        file.write(b"\x02" + magic[1:] + struct.pack(">QQ", 29, 0) if with_slots else magic)
        for place, (uuid, second, description) in enumerate(tasks(number), 1):
            group += operations(uuid, second, properties(second, description))
            if place % per_record == 0 or place == number:
                file.write(record(body(group)))
                group = []


def hyphenated(uuid):
    digits = uuid.hex()
    return "-".join([digits[:8], digits[8:12], digits[12:16], digits[16:20], digits[20:]])


def composed(uuid, values):
    """A task as Taskwarrior's data files have it."""
    told = " ".join(f'{name}:"{value}"' for name, value in values)
    return f'[{told} uuid:"{hyphenated(uuid)}"]'


def exported(uuid, second, description):
    """A task as Taskwarrior's backlog has it."""
    moment = time.strftime("%Y%m%dT%H%M%SZ", time.gmtime(second))
    return json.dumps(
        {"description": description, "entry": moment, "modified": moment, "status": "pending", "uuid": hyphenated(uuid)},
        separators=(",", ":"),
    )


def write_lines(folder, name, lines):
    with open(os.path.join(folder, name), "w", encoding="utf-8") as file:
        file.writelines(line + "\n" for line in lines)


def write_data(folder, number, with_history, properties):
    """The store of Taskwarrior 2, and what its `add`s keep for `undo` and `sync`."""
    os.makedirs(folder)
    every = [(task, composed(task[0], properties(*task[1:]))) for task in tasks(number)]
    kept = every if with_history else []
    write_lines(folder, "pending.data", (line for _, line in every))
    write_lines(folder, "completed.data", [])
    write_lines(folder, "undo.data", (f"time {task[1]}\nnew {line}\n---" for task, line in kept))
    write_lines(folder, "backlog.data", (exported(*task) for task, _ in kept))


def write_import(path, number):
    """The tasks as an export has them."""
    with open(path, "w", encoding="utf-8") as file:
        file.write("[\n" + ",\n".join(exported(*task) for task in tasks(number)) + "\n]\n")


def chained(number, count):
    """The operations of a chain of tasks, each of which waits for the one before it, and of two more, the second of which waits for the
    first; and the words by which this first one is to wait for so many of the chain."""
    made, made_operations = list(tasks(number)), []
    names = [hyphenated(task[0]) for task in made]
    for place, task in enumerate(made):
        made_operations += operations(task[0], task[1], properties(*task[1:]))
        if place not in (0, number - 2):
            made_operations.append(update(task[0], "dep_" + names[place - 1], "", task[1]))
    return made_operations, [names[-2], "modify", "depends:" + ",".join(names[: -2 : number // count][:count])]


def chained_each(number, count):
    """The same chain, and the words by which so many of its last tasks are to wait for two in its middle."""
    made_operations, _ = chained(number, count)
    middle = [hyphenated(task[0]) for task in tasks(number)][number // 2 :][:2]
    return made_operations, [f"{number - 1 - count}-{number - 2}", "modify", "depends:" + ",".join(middle)]


def recurring(number, count):
    """The operations of tasks of which so many are instances of the first, which is a template; and the words by which they end."""
    (parent, second, description), *others = tasks(number)
    due = str(second)
    template = [("description", description), ("due", due), ("entry", due), ("mask", "-" * count), ("recur", "daily"), ("status", "recurring")]
    made_operations = [b"\x01" + parent] + [update(parent, name, value, second) for name, value in template]
    for place, task in enumerate(others):
        made_operations += operations(task[0], task[1], properties(*task[1:]))
        if place < count:
            made_operations.append(update(task[0], "parent", hyphenated(parent), task[1]))
            made_operations.append(update(task[0], "imask", str(place), task[1]))
    return made_operations, ["parent.any:", "done"]


def copied(number, count):
    """The operations of tasks, and the words by which so many of them are copied."""
    made_operations = []
    for task in tasks(number):
        made_operations += operations(task[0], task[1], properties(*task[1:]))
    return made_operations, [f"1-{count}", "duplicate"]


def listed(words):
    """What makes the operations of tasks of which so many are completed and have a tag and a project, and the words that are given."""

    def make(number, count):
        made_operations = []
        for place, (uuid, second, description) in enumerate(tasks(number)):
            values = properties(second, description)
            if place % (number // count) == 0:
                values = values[:-1] + [("status", "completed"), ("project", "home.garden"), ("tag_shop", "")]
            made_operations += operations(uuid, second, values)
        return made_operations, words

    return make


def chained_next(number, count):
    """The same chain, and the words that show its tasks by their urgency."""
    return chained(number, count)[0], ["next"]


# Commands over a store of their own, which each run finds as it was made: what makes it, and of how many tasks one takes part.
OWN = {
    "depends": (chained, 250),
    "depends-ten": (chained, 25),
    "depends-each": (chained_each, 250),
    "depends-each-ten": (chained_each, 25),
    "done-instances": (recurring, 100),
    "done-instances-ten": (recurring, 10),
    "duplicate": (copied, 10),
    "duplicate-ten": (copied, 1),
    "count-all": (listed(["count"]), 50),
    "count-tag": (listed(["+shop", "count"]), 50),
    "count-status": (listed(["status:completed", "count"]), 50),
    "count-project": (listed(["project:home", "count"]), 50),
    "next-chain": (chained_next, 1),
}


def write_own(folder, command, number):
    """The store of such a command, and its words."""
    make, parts = OWN[command]
    group, words = make(number, max(number // parts, 1))
    os.makedirs(folder)
    with open(os.path.join(folder, "replica.journal"), "wb") as file:
        file.write(record(b"TWREPL02") + record(commit(group)))
    return words


class Program:
    """A program over a store of its own, and an input."""

    def __init__(self, argv, environment, imported, number=0, ends=(0,)):
        self.argv = argv
        self.ends = ends
        self.environment = environment
        self.imported = imported
        self.number = number
        self.turn = 0

    def run(self, words, wrapper=(), store=None):
        """The wall time in milliseconds, over the program's store or another one."""
        environment = dict(self.environment, TASKDATA=store) if store else self.environment
        with open(self.imported if store else os.devnull, "rb") as data:
            begin = time.perf_counter()
            ended = subprocess.run(
                [*wrapper, *self.argv, *words],
                env=environment,
                stdin=data,
                stdout=subprocess.DEVNULL,
                stderr=subprocess.PIPE,
                check=False,
            )
            end = time.perf_counter()
        if ended.returncode not in self.ends:
            told = ended.stderr.decode(errors="replace")
            sys.exit(f"{' '.join(self.argv + words)} ended with {ended.returncode}: {told}")
        return (end - begin) * 1000

    def measure(self, command, wrapper=()):
        """One run of a command. An undo takes back an add that is not measured."""
        if command in OWN:
            with tempfile.TemporaryDirectory(prefix="tw-bench-") as folder:
                store = os.path.join(folder, "tw")
                return self.run(write_own(store, command, self.number), wrapper, store)
        if command == "undo":
            self.run(["add", "to", "be", "undone"])
        self.turn += 1
        words = [word.format(turn=self.turn, next=self.turn + 1) for word in COMMANDS[command]]
        if command == "import":
            with tempfile.TemporaryDirectory(prefix="tw-bench-") as store:
                return self.run(words, wrapper, store)
        return self.run(words, wrapper)

    def peak(self, command, folder):
        """The peak memory of one run in megabytes, if GNU time is there."""
        if not os.access(GNU_TIME, os.X_OK):
            return None
        report = os.path.join(folder, "peak")
        self.measure(command, [GNU_TIME, "-f", "%M", "-o", report])
        with open(report, encoding="utf-8") as file:
            return int(file.read().split()[-1]) / 1024


def programs(arguments, folder, number):
    base = {"PATH": os.environ.get("PATH", ""), "HOME": folder, "LANG": "C.UTF-8", "TZ": ""}
    tw_store = os.path.join(folder, "tw")
    per_record = max(number // 1000, 1) if arguments.state else number if arguments.synced else arguments.per_record
    kind = (sync, synced_operations) if arguments.synced else (commit, operations)
    values = template_properties if arguments.templates else properties
    write_journal(tw_store, number, per_record, *kind, arguments.state, values)
    imported = os.path.join(folder, "import.json")
    write_import(imported, number)
    # A report over templates alone has no task to show, and ends with 1.
    ends = (0, 1) if arguments.templates else (0,)
    found = [Program([arguments.tw, "task"], dict(base, TASKDATA=tw_store), imported, number, ends)]
    if arguments.state:
        found[0].run(["count"])
    if arguments.rival:
        task_store = os.path.join(folder, "task")
        write_data(task_store, number, not arguments.synced, values)
        settings = os.path.join(folder, "taskrc")
        with open(settings, "w", encoding="utf-8") as file:
            file.write("confirmation=no\nbulk=0\nrecurrence.confirmation=no\n")
        found.append(Program([arguments.rival], dict(base, TASKDATA=task_store, TASKRC=settings), imported, number, ends))
    return found


def compare(arguments, number, programs, own):
    """Runs each command of the programs that are made for a number, and shows how long each took."""
    with tempfile.TemporaryDirectory(prefix="tw-bench-") as folder:
        pair = programs(arguments, folder, number)
        for command in arguments.commands:
            running = pair[:1] if command in own else pair
            walls = [[] for _ in running]
            for _ in range(arguments.runs):
                for place, program in enumerate(running):
                    walls[place].append(program.measure(command))
            peaks = [program.peak(command, folder) for program in running]
            show(number, command, [statistics.median(wall) for wall in walls], peaks)


def show(number, command, walls, peaks):
    cells = [f"{number:>6} {command:<18}"]
    for wall, peak in zip(walls, peaks):
        memory = f"{peak:>7.1f} MB" if peak else "          "
        cells.append(f"{wall:>9.1f} ms {memory}")
    if len(walls) == 2:
        memory = f"{peaks[1] / peaks[0]:>6.1f} x" if all(peaks) else ""
        cells.append(f"{walls[1] / walls[0]:>6.1f} x {memory}")
    print(" | ".join(cells), flush=True)


def options(about, rival, counted, commands):
    """The options of a benchmark of `tw` beside a rival, at numbers of what is counted."""
    here = os.path.dirname(os.path.abspath(__file__))
    built = os.path.join(here, "..", "crates", "tw", "out", "tw")
    parser = argparse.ArgumentParser(description=about)
    parser.add_argument("--tw", default=built, help="the program tw")
    parser.add_argument(f"--{rival}", default=shutil.which(rival), help=f"the program {rival}", dest="rival")
    parser.add_argument("--sizes", default="1000,10000,50000", help=f"numbers of {counted}")
    parser.add_argument("--runs", type=int, default=9, help="runs of each command")
    parser.add_argument("--commands", default=",".join(commands), help="commands to run")
    return parser


def start(parser, rival, counted, programs, own):
    """Reads the options, and compares the programs at each number; some commands are of `tw` alone."""
    arguments = parser.parse_args()
    arguments.commands = arguments.commands.split(",")
    if not os.access(arguments.tw, os.X_OK):
        sys.exit(f"there is no program {arguments.tw}: build it by tools/build")
    heads = [f"{counted:>6} command           ", "            tw        "]
    if arguments.rival:
        heads += [f"{rival:>15}       ", "  time   memory"]
    print(" | ".join(heads))
    for number in arguments.sizes.split(","):
        compare(arguments, int(number), programs, own)


def main():
    parser = options("Times tw beside Taskwarrior.", "task", "tasks", [*COMMANDS, *OWN])
    parser.add_argument("--per-record", type=int, default=1, help="tasks in a record")
    parser.add_argument("--synced", action="store_true", help="stores after a first sync")
    parser.add_argument("--state", action="store_true", help="a journal that begins with a state")
    parser.add_argument("--templates", action="store_true", help="each task is a template")
    start(parser, "task", "tasks", programs, OWN)


if __name__ == "__main__":
    main()

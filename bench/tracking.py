#!/usr/bin/env python3
"""Times commands of `tw task` that drive hours beside the same commands with the setting off, and compares their peak memory.

    bench/tracking.py [--tw PATH] [--sizes 1000,10000,50000] [--runs 9] [--commands add,annotate,done]

For each number it writes so many tasks, in a journal of as many records, and so many intervals, in month files. The first column is
`tw task rc.timetrack=on`, the second one `tw task` over stores of its own, with the setting off. Over 10,000 of both the first one is to
take at most 5 ms more.
"""

import os

import run
import timew


def programs(arguments, folder, number):
    base = {"PATH": os.environ.get("PATH", ""), "HOME": folder, "LANG": "C.UTF-8", "TZ": ""}
    found = []
    for name, words in [("on", ["rc.timetrack=on"]), ("off", [])]:
        tasks = os.path.join(folder, name)
        hours = os.path.join(folder, f"{name}-hours")
        run.write_journal(tasks, number, 1, run.commit, run.operations, False, run.properties)
        timew.write_months(os.path.join(hours, "data"), number, False)
        environment = dict(base, TASKDATA=tasks, TIMEWARRIORDB=hours)
        found.append(run.Program([arguments.tw, "task", *words], environment, None, number))
    return found


def main():
    parser = run.options("Times tw with the setting timetrack beside tw without it.", "off", "tasks", ["add", "annotate", "done"])
    parser.set_defaults(rival=True)
    run.start(parser, "off", "tasks", programs, [])


if __name__ == "__main__":
    main()

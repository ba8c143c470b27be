#!/usr/bin/env python3
"""Prints the table of docs/GATE.md: the processor seconds of a gate, by crates.

    python3 tests/gate-table.py [--anew] [NAME..]   runs `rt ci` with these words, and watches it
    python3 tests/gate-table.py --pid PID           watches an `rt ci` that runs already, from now on

Twice a second it reads from /proc what each process below `rt ci` has used, and whose it is by its command line. A process that ends
between two reads keeps what it had used at the first. What earlier runs kept on this machine is not done again and not counted:
`--anew` does all of it.
"""
import os
import re
import subprocess
import sys
import time
from collections import defaultdict

TICKS = os.sysconf("SC_CLK_TCK")
KINDS = ("proof", "tests", "wrong bodies", "compiling, running")
# What `rt` itself uses, and the programs that are run.
OTHER = "rt", KINDS[3]
# A crate that takes fewer seconds has no row of its own.
LEAST = 150


def text_of(path):
    try:
        with open(path, "rb") as file:
            return file.read().decode(errors="replace")
    except OSError:
        return ""


def stat_of(pid):
    """The parent of a process, its own seconds, and when it began."""
    fields = text_of(f"/proc/{pid}/stat").rpartition(")")[2].split()
    if len(fields) < 20 or fields[0] == "Z":
        return None
    return int(fields[1]), (int(fields[11]) + int(fields[12])) / TICKS, fields[19]


def below(top):
    """All processes below one, each with its parent, seconds and beginning."""
    stats = {int(name): stat_of(name) for name in os.listdir("/proc") if name.isdigit()}
    found, children = {}, defaultdict(list)
    for pid, stat in stats.items():
        if stat:
            children[stat[0]].append(pid)
    left = [top]
    while left:
        pid = left.pop()
        found.update({it: stats[it] for it in children[pid]})
        left += children[pid]
    return found


def work_of(pid):
    """The crate and the kind of work of a process, by its command line; None where it tells neither."""
    words = text_of(f"/proc/{pid}/cmdline").split("\0")
    name = re.search(r"--crate-name\0([^\0]+)", "\0".join(words))
    if os.path.basename(words[0]) != "rattle" or not name:
        return None
    folder = os.readlink(f"/proc/{pid}/cwd")
    if "--test" in words:
        return name[1], "tests"
    if "/rt-edit" in folder or any("/rt-edits-" in it for it in words):
        return name[1], "wrong bodies"
    return name[1], KINDS[3] if "--crate-checked" in words else "proof"


class Gate:
    """What was seen of the processes below `rt ci`."""

    def __init__(self, top):
        self.top, self.works, self.seconds, self.largest = top, {}, {}, (0, "nothing")

    def work_above(self, pid, found):
        """The work of the nearest process above that tells it: clang compiles for the `rattle` that started it."""
        while pid in found:
            work = self.works.get((pid, found[pid][2]))
            if work:
                return work[0], "tests" if work[1] == "tests" else KINDS[3]
            pid = found[pid][0]
        return OTHER

    def look(self):
        """Reads what all processes have used; False where `rt ci` has ended."""
        if not stat_of(self.top):
            return False
        found = below(self.top)
        for pid, (parent, own, began) in found.items():
            key = pid, began
            try:
                # (a process may still be the one that started it)
                self.works[key] = work_of(pid) or self.works.get(key)
            except OSError:
                continue
            work = self.works[key] or self.work_above(parent, found)
            self.seconds[key] = work, own
            peak = re.search(r"VmHWM:\s+(\d+)", text_of(f"/proc/{pid}/status"))
            self.largest = max(self.largest, (int(peak[1]) if peak else 0, f"{work[0]}, {work[1]}"))
        return True

    def by_crates(self):
        table = defaultdict(lambda: dict.fromkeys(KINDS, 0.0))
        for (crate, kind), own in self.seconds.values():
            table[crate][kind] += own
        return table


def row(name, cells):
    return f"| {name} | " + " | ".join(f"{it:,.0f}" if it >= 0.5 else "" for it in cells) + " |"


def print_table(gate, began):
    table = sorted(gate.by_crates().items(), key=lambda it: -sum(it[1].values()))
    large = [it for it in table if sum(it[1].values()) >= LEAST]
    others = table[len(large) :]
    sums = [sum(it[1][kind] for it in table) for kind in KINDS]
    print("| crate | " + " | ".join(KINDS) + " |\n|---|" + "---|" * len(KINDS))
    for crate, cells in large:
        print(row(f"`{crate}`", cells.values()))
    if others:
        print(row(f"the other {len(others)}", [sum(it[1][kind] for it in others) for kind in KINDS]))
    print(row("all", sums))
    peak, whose = gate.largest
    head = subprocess.run(["git", "describe", "--always", "--dirty"], capture_output=True, text=True).stdout.strip()
    model = re.search(r"model name\s*: (.*)", text_of("/proc/cpuinfo"))
    memory = re.search(r"MemTotal:\s+(\d+)", text_of("/proc/meminfo"))
    print(f"""
In all {sum(sums):,.0f} seconds of a processor, in {(time.time() - began) / 60:,.0f} minutes. The largest process took {peak / 1e6:.1f} GB
({whose}). Commit {head}; {os.cpu_count()} processors ({model[1] if model else 'unknown'}), {int(memory[1]) / 1e6 if memory else 0:,.0f} GB.""")


def main(words):
    started = None
    if words[:1] == ["--pid"] and len(words) == 2:
        top = int(words[1])
    elif "--pid" in words or "--help" in words:
        sys.exit(__doc__)
    else:
        started = subprocess.Popen(["rt", "ci", *words], stdout=sys.stderr)
        top = started.pid
    gate, began = Gate(top), time.time()
    while gate.look():
        time.sleep(0.5)
    print_table(gate, began)
    if started and started.wait():
        sys.exit(f"gate-table: rt ci ended with status {started.returncode}, so this is not the whole gate")


if __name__ == "__main__":
    main(sys.argv[1:])

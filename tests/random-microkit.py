#!/usr/bin/env python3
"""Compiles and explores random Microkit systems by default and with --exact, and compares the reports.

    python3 tests/random-microkit.py MCSLAB [COUNT [SEED]]   so many systems (1,000), from a seed (1)
    python3 tests/random-microkit.py --print [SEED]          one system

Of each system of two to five domains the plan compiles, and both searches give the same kinds of ends, answers of all entries with
their steps, stuck users and verdicts. A search that a budget of 3,000 states or 30 seconds ends is not compared, and counted.
"""
import json
import random
import subprocess
import sys

BUDGET = ["--states", "3000", "--seconds", "30"]


def channels_of(r, domains):
    """Channels between random domains; where the second has the higher priority the first may call it."""
    channels, used = [], {name: 0 for name, _ in domains}
    for _ in range(r.randrange(1, 2 * len(domains))):
        (first, low), (second, high) = sorted(r.sample(domains, 2), key=lambda it: it[1])
        calls = low < high and r.random() < 0.6
        used[first] += 1
        used[second] += 1
        channels.append((first, used[first], second, used[second], calls))
    return channels


def statement(r, ends, calls, is_protected, depth):
    """One statement of a handler, as lines."""
    way = r.random()
    if calls and way < 0.35:
        return [f"ppcall {r.choice(calls)} {r.randrange(3)} {r.choice(['1', '$1', '$label'])}"]
    if ends and way < 0.6:
        return [f"notify {r.choice(ends)}"]
    if ends and way < 0.75:
        return [f"deferred notify {r.choice(ends)}"]
    if depth and way < 0.9:
        test = r.choice(["$label == 1", "$1 == 1", "got", "not done"])
        return [f"if {test} {{", *statement(r, ends, calls, is_protected, 0), "} else {", *statement(r, ends, calls, is_protected, 0), "}"]
    if is_protected:
        return [f"reply {r.randrange(2)} $1"]
    return ["stop"] if way > 0.98 else []


def handler(r, head, ends, calls, is_protected):
    lines = []
    for _ in range(r.randrange(3)):
        lines += statement(r, ends, calls, is_protected, 1)
    return [f"  {head} {{", *[f"    {line}" for line in lines], "  }"]


def domain_of(r, name, priority, core, channels):
    ends = [i for first, i, *_ in channels if first == name] + [j for _, _, second, j, _ in channels if second == name]
    calls = [i for first, i, _, _, is_called in channels if first == name and is_called]
    served = [j for _, _, second, j, is_called in channels if second == name and is_called]
    passive = " passive" if served and r.random() < 0.4 else ""
    lines = [f"pd {name} prio {priority} on core {core}{passive} {{"]
    if r.random() < 0.7:
        lines += handler(r, "init", ends, calls, False)
    for channel in served:
        if r.random() < 0.8:
            lines += handler(r, f"protected {channel}", ends, calls, True)
    for channel in ends:
        if r.random() < 0.4:
            lines += handler(r, f"notified {channel}", ends, calls, False)
    return lines + ["}"]


def system_of(r):
    names = ["disk", "files", "net", "shell", "log"][: r.randrange(2, 6)]
    domains = [(name, r.choice([10, 20, 30, 40])) for name in names]
    channels = channels_of(r, domains)
    lines = []
    for name, priority in domains:
        lines += domain_of(r, name, priority, r.randrange(2), channels)
    for first, i, second, j, is_called in channels:
        lines.append(f"channel {first}.{i} {second}.{j}{' pp' if is_called else ''}")
    return "\n".join(lines + ["#! never = refused *"]) + "\n"


def explored(mcslab, script, *words):
    ran = subprocess.run([mcslab, "explore", "--json", *BUDGET, *words], input=script, capture_output=True, timeout=120)
    if ran.returncode not in (0, 1, 3):
        raise SystemExit(f"status {ran.returncode}: {ran.stderr.decode()}")
    report = json.loads(ran.stdout)
    kinds = sorted((it["kind"], json.dumps(it["users"], sort_keys=True)) for it in report["kinds"])
    answers = [(it["thread"], it["entry"], sorted((a["answer"], a["steps"]) for a in it["answers"])) for it in report["entries"]]
    stuck = [it["users"] for it in report["stuck"]]
    return report["whole"], (report["verdict"], kinds, answers, stuck)


def main(words):
    if words[:1] == ["--print"]:
        sys.stdout.write(system_of(random.Random(int((words + ["1"])[1]))))
        return 0
    if not words:
        print(__doc__)
        return 64
    mcslab, count, seed = words[0], int((words + ["1000"])[1]) if len(words) > 1 else 1000, int(words[2]) if len(words) > 2 else 1
    r, stopped = random.Random(seed), 0
    for number in range(count):
        plan = system_of(r)
        made = subprocess.run([mcslab, "compile"], input=plan.encode(), capture_output=True)
        if made.returncode:
            sys.stdout.write(plan)
            print(f"system {number}: compile: {made.stderr.decode()}")
            return 1
        ours, theirs = explored(mcslab, made.stdout), explored(mcslab, made.stdout, "--exact")
        if not ours[0] or not theirs[0]:
            stopped += 1
        elif ours[1] != theirs[1]:
            sys.stdout.write(plan)
            print(f"system {number}: {ours[1]} by default, {theirs[1]} with --exact")
            return 1
    print(f"{count} systems, {count - stopped} compared, {stopped} stopped by the budget")
    return 0


if __name__ == "__main__":
    sys.exit(main(sys.argv[1:]))

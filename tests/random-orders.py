#!/usr/bin/env python3
"""Explores random scripts of users by default and with --exact, and compares the reports.

    python3 tests/random-orders.py MCSLAB [COUNT [SEED]]   so many scripts (2,000), from a seed (1)
    python3 tests/random-orders.py --programs MCSLAB [COUNT [SEED]]   the same; users are programs
    python3 tests/random-orders.py --rules [--programs] MCSLAB ..     each script has a schedule, and in
                                             every second one an answered entry is not given again
    python3 tests/random-orders.py [--programs] --data [COUNT [SEED]]   prints so many scripts (50),
                                             from a seed (2), as data of mcs_test_examples

Of each script the kinds of ends, the answers of all entries with their steps, the users that are
stuck and the verdicts have to be the same, and both searches whole. The scripts use each of the 27
entries; only one entry of a script makes an object, since exact keys tell apart in which order
objects were made.
"""
import json
import random
import subprocess
import sys

BOOT = """cores 2
cnode 6
endpoint
endpoint
notification
notification
reply
reply
context 0
context 1
context 0
context 1
thread 20 255 c1 58 0 run s1
thread 20 255 c1 58 0 run s2
thread 10 255 c1 58 0 run s3
slot c1 1 e1 rwgp 0
slot c1 2 e2 rwgp 3
slot c1 3 n1 rw 1
slot c1 4 n2 rw 2
slot c1 5 r1
slot c1 6 r2
slot c1 7 t1
slot c1 8 t2
slot c1 9 t3
slot c1 10 s1
slot c1 11 s2
slot c1 12 s3
slot c1 13 s4
"""

ENDPOINTS, NOTIFICATIONS, REPLIES = [1, 2, 20], [3, 4, 20], [5, 6]
THREADS, CONTEXTS, PLACES = [7, 8, 9], [10, 11, 12, 13], [1, 3, 5, 20, 21, 22]


def entries(r):
    """One entry of each of the 27 kinds, with random words."""
    e, n, p = r.choice(ENDPOINTS), r.choice(NOTIFICATIONS), r.choice(REPLIES)
    t, c = r.choice(THREADS), r.choice(CONTEXTS)
    a, b = r.sample(PLACES, 2)
    label = r.randrange(4)
    return [
        f"send {e} {label}", f"nbsend {e} {label}", f"call {e} {label}", f"send {p} {label}",
        f"recv {e} {p}", f"nbrecv {e} {p}", f"wait {n}", f"nbwait {n}",
        f"replyrecv {e} {p} {label}", f"nbsendrecv {e} {r.choice(ENDPOINTS)} {p} {label}",
        f"nbsendwait {e} {n} {label}", f"signal {n}",
        f"setprio {t} {r.choice(THREADS)} {r.choice([5, 10, 20, 30])}",
        f"suspend {t}", f"resume {t}", f"bindntfn {t} {n}", f"unbindntfn {t}",
        f"bind {c} {r.choice(THREADS + NOTIFICATIONS)}", f"unbind {c}", f"cancel {e}",
        f"copy {a} 64 {b} 64 rwgp", f"mint {a} 64 {b} 64 rwg {r.randrange(1, 9)}",
        f"move {a} 64 {b} 64", f"delete {b} 64",
    ]


MAKES = [f"make {kind} {place} 64" for kind in ("endpoint", "notification", "reply", "context") for place in (20, 21)]


KINDS = {"make"} | {entry.split()[0] for entry in entries(random.Random(0))}


def users_of(r):
    """Random entries of three users, and questions."""
    lines, users = [], []
    for thread in (1, 2, 3):
        users += [thread] * r.randrange(1, 4)
    made = r.randrange(len(users)) if r.random() < 0.4 else None
    for at, thread in enumerate(users):
        entry = r.choice(MAKES) if at == made else r.choice(entries(r))
        lines.append(f"user t{thread} {entry}")
    asked = [f"#! answer? t{t} 1 done" for t in (1, 2, 3)]
    asked += ["#! never = refused *", "#! some t3 1 got **", "#! never + void **", "#! before t1 1 t2 1"]
    asked += ["#! never t1 in 0..1 and t2 in 0..=1"]
    return "\n".join(lines + asked) + "\n"


VALUES = ["$badge", "$label", "$1", "0", "1", "3"]
SENDS = {"send": 2, "nbsend": 2, "call": 2, "replyrecv": 3, "nbsendwait": 3, "nbsendrecv": 4}


def condition(r, names):
    """One or two tests of what the last entry was told, and of kept words."""
    values = VALUES + ["$" + name for name in names]
    tests = ["got", "heard", "empty", "done", "refused", "not refused", "not done", "refused 1",
             f"{r.choice(values)} {r.choice(['==', '!=', '<', '>=', 'has'])} {r.choice(values)}",
             f"{r.choice(values)} has bit {r.randrange(3)}"]
    return " and ".join(r.sample(tests, r.choice([1, 1, 2])))


def given(r, names):
    """An entry, in whose message a value may stand for the label, and for a word behind it."""
    words = r.choice(entries(r)).split()
    label = SENDS.get(words[0])
    if label and r.random() < 0.5:
        words[label] = r.choice(["$label", "$badge", "$1"] + ["$" + name for name in names])
    if label and r.random() < 0.3:
        words.append(r.choice(["5", "17"] + ["$" + name for name in names]))
    return " ".join(words)


def block(r, names, depth, count):
    """Statements with so many entries at most; no loop without an end."""
    lines = []
    for _ in range(count):
        way = r.random()
        if depth and way < 0.25:
            lines += [f"if {condition(r, names)} {{", *block(r, names, depth - 1, 1), "} else {",
                      *block(r, names, depth - 1, 1), "}"]
        elif depth and way < 0.4:
            lines += ["repeat 2 {", *block(r, names, 0, 1), "}"]
        elif way < 0.5 and not names:
            names = ["kept"]
            lines += [f"let kept = {r.choice(VALUES)}", given(r, names)]
        elif way < 0.6 and names:
            lines += [f"kept {r.choice(['=', '+=', '-='])} {r.randrange(3)}", given(r, names)]
        else:
            lines.append(given(r, names))
    return lines


def programs_of(r):
    """Random programs of three users, and questions."""
    lines = []
    for thread in (1, 2, 3):
        lines += [f"#! t{thread}: {line}" for line in block(r, [], 1, r.randrange(1, 4))]
    asked = [f"#! answer? t{t} 1 done" for t in (1, 2, 3)]
    asked += ["#! never = refused *", "#! some t3 1 got **", "#! never + void **"]
    asked += ["#! never t1 in 0..1 and t2 in 0..=1"]
    return "\n".join(lines + asked) + "\n"


def rules_of(r):
    """A schedule, and perhaps that what was answered is not given again."""
    schedule = f"#! schedule {r.choice(['serial', 'equal', 'any'])}\n"
    return schedule + r.choice(["", "#! resumed goes on\n"])


def told(program, script, *options):
    done = subprocess.run([program, "explore", "--json", *options], input=script.encode(), capture_output=True)
    if done.returncode not in (0, 1):
        sys.exit(f"status {done.returncode}: {done.stderr.decode()}\n{script}")
    report = json.loads(done.stdout)
    kinds = sorted(json.dumps([kind["kind"], kind["users"]]) for kind in report["kinds"])
    entries = [[e["thread"], e["entry"], e.get("unanswered"), sorted((a["answer"], a["steps"]) for a in e["answers"])]
               for e in report["entries"]]
    questions = [[q["line"], q["verdict"], q.get("steps")] for q in report["questions"]]
    stuck = sorted([len(s["steps"]), user["thread"]] for s in report["stuck"] for user in s["users"])
    return {"whole": report["whole"], "kinds": kinds, "stuck": stuck, "entries": entries, "questions": questions,
            "verdict": report["verdict"]}


def print_data(made, words):
    """Prints the boot, and behind it the users of each script, behind a line `%`."""
    count = int(words[0]) if words else 50
    r = random.Random(int(words[1]) if len(words) > 1 else 2)
    print(BOOT + "".join("%\n" + made(r) for _ in range(count)), end="")


def main():
    made = programs_of if "--programs" in sys.argv else users_of
    rules = rules_of if "--rules" in sys.argv else lambda r: ""
    words = [word for word in sys.argv[1:] if word not in ("--programs", "--rules")]
    if words[0] == "--data":
        return print_data(made, words[1:])
    program = words[0]
    count = int(words[1]) if len(words) > 1 else 2000
    r = random.Random(int(words[2]) if len(words) > 2 else 1)
    used = set()
    for number in range(1, count + 1):
        script = BOOT + made(r) + rules(r)
        entry = [line.split()[2:] for line in script.splitlines() if line[:4] in ("user", "#! t")]
        used |= {" ".join(words[:2]) if words[0] == "make" else words[0]
                 for words in entry if words[0] in KINDS}
        default, exact = told(program, script), told(program, script, "--exact")
        if default != exact or not default["whole"]:
            sys.exit(f"script {number} differs:\n{script}\ndefault {default}\nexact   {exact}")
    print(f"{count} scripts told alike by default and exact, with {len(used)} of 27 entries")


main()

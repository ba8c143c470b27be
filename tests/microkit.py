#!/usr/bin/env python3
"""Tests tools/microkit-plan on the descriptions of tests/microkit: the plan (NAME.plan) or the fault (NAME.told) of each.

    python3 tests/microkit.py [MCSLAB]           also compiles each plan, and tries the cases, with this program
    python3 tests/microkit.py --write [MCSLAB]   writes the expected files anew, and the steps of the cases

The plan of examples/microkit, merged into its description, has to stay as it is. examples/microkit/cases.txt has the rows of the table
of cases in the README beside it: of each small system, which has one order, the steps of the domains that `of` names. cases.told has
the whole run of each, with which `rt ci` compares them.
"""
import os
import subprocess
import sys
import tempfile

TOP = os.path.dirname(os.path.dirname(os.path.abspath(__file__)))
TOOL = os.path.join(TOP, "tools", "microkit-plan")
CASES = os.path.join(TOP, "tests", "microkit")
EXAMPLE = os.path.join(TOP, "crates", "mcs_test_examples", "data", "microkit")


def made(*words):
    ran = subprocess.run([sys.executable, TOOL, *words], capture_output=True, text=True, cwd=CASES)
    return ran.returncode, ran.stdout, ran.stderr


def text_of(path):
    with open(path, encoding="utf-8") as file:
        return file.read()


def check_case(name, writes):
    """Compares what comes of a description; returns a line for each difference."""
    status, plan, told = made(f"{name}.system")
    ending, text, wanted = (".plan", plan, 0) if status == 0 else (".told", told, 2)
    path = os.path.join(CASES, name + ending)
    if writes:
        with open(path, "w", encoding="utf-8") as file:
            file.write(text)
    if status != wanted:
        return [f"{name}: status {status}"]
    if not os.path.exists(path) or text_of(path) != text:
        return [f"{name}: not what {os.path.basename(path)} has"]
    return []


def check_merged():
    plan = os.path.join(EXAMPLE, "files.plan")
    status, text, told = made(os.path.join(EXAMPLE, "files.system"), "--merge", plan)
    return [] if (status, text) == (0, text_of(plan)) else [f"merged: status {status} {told}"]


def check_compiled(mcslab):
    faults = []
    for name in sorted(os.listdir(CASES)):
        if name.endswith(".plan"):
            ran = subprocess.run([mcslab, "compile", os.path.join(CASES, name)], capture_output=True, text=True)
            if ran.returncode:
                faults.append(f"{name}: compile: {ran.stderr.strip()}")
    return faults


# How many words of an entry are addresses of capabilities.
ADDRESSES = {"signal": 1, "wait": 1, "recv": 2, "replyrecv": 2, "nbsendrecv": 3, "nbsendwait": 2, "call": 1, "unbind": 1, "bind": 2}


def told_by(mcslab, *words):
    ran = subprocess.run([mcslab, *words], capture_output=True, text=True)
    if ran.returncode:
        raise SystemExit(f"{' '.join(words)}: {ran.stderr.strip()}")
    return ran.stdout.splitlines()


def steps_of(mcslab, plan, domains):
    """The steps of some domains in the one order of a plan, with names for addresses."""
    with tempfile.TemporaryDirectory() as room:
        path = os.path.join(room, "case.plan")
        with open(path, "w", encoding="utf-8") as file:
            file.write(plan)
        rows = [line.split() for line in told_by(mcslab, "compile", "--map", path)]
        lines = told_by(mcslab, "walk", path)
    called = {(row[0], row[2]): row[1] for row in rows if len(row) > 3}
    threads = {row[0]: row[1] for row in rows if len(row) == 2}
    steps = []
    for line, answer in zip(lines, lines[1:]):
        words = line.split()
        if words and words[0].isdigit() and threads.get(words[1]) in domains:
            thread, count = threads[words[1]], ADDRESSES.get(words[2], 0)
            named = [called.get((thread, word), word) for word in words[3 : 3 + count]]
            steps.append(" ".join([f"{thread}:", words[2], *named, *words[3 + count :], answer]))
    return steps


def check_cases(mcslab, writes):
    path = os.path.join(EXAMPLE, "cases.txt")
    faults, texts = [], []
    for case in text_of(path).split("%%%\n"):
        plan, wanted = case.split("---\n")
        name = plan.split(":")[0][2:]
        domains = plan.splitlines()[1].split(":")[1].split()
        steps = steps_of(mcslab, plan, domains)
        if not writes and steps != wanted.splitlines():
            faults.append("\n".join([f"case {name}: not as kept:", *steps]))
        texts.append(plan + "---\n" + "".join(f"{step}\n" for step in steps))
    if writes:
        with open(path, "w", encoding="utf-8") as file:
            file.write("%%%\n".join(texts))
    return faults, len(texts)


# Questions of a plan, in Microkit's words and in those of programs, and the script's lines.
ASKED = {
    "#! never a in init and s in protected 1": "#! never a in init and s in protected.1",
    "  #!  some s\tinput2 waits": "#! some s input2 waits",
    "#! never s in notified 62 and a in 0..=1": "#! never s in notified.62 and a in 0..=1",
    "#! never a in protected and s in protected.1": "#! never a in protected and s in protected.1",
}


def check_questions(mcslab):
    """The questions of a plan with domains, as its script has them."""
    plan = "pd a prio 1 { }\npd s prio 2 {\n  protected 1 { }\n}\nchannel a.1 s.1 pp\n" + "\n".join(ASKED) + "\n"
    ran = subprocess.run([mcslab, "compile"], input=plan, capture_output=True, text=True)
    lines = ran.stdout.splitlines()[-len(ASKED) :]
    return [] if lines == list(ASKED.values()) else ["\n".join(["questions: not as wanted:", *lines, ran.stderr])]


def check_limit(mcslab):
    """As many domains as a script has CNodes, and one more."""
    faults = []
    for count, status in (64, 0), (65, 2):
        plan = "".join(f"pd d{number} prio 1 {{ }}\n" for number in range(count))
        ran = subprocess.run([mcslab, "compile"], input=plan, capture_output=True, text=True)
        if ran.returncode != status:
            faults.append(f"{count} domains: status {ran.returncode}, not {status}: {ran.stderr.strip()}")
    return faults


def main(words):
    writes, words, count = words[:1] == ["--write"], [word for word in words if word != "--write"], 1
    names = sorted(it[: -len(".system")] for it in os.listdir(CASES) if it.endswith(".system"))
    faults = [line for name in names for line in check_case(name, writes)] + check_merged()
    if words:
        more, cases = check_cases(words[0], writes)
        faults += check_compiled(words[0]) + more + check_questions(words[0]) + check_limit(words[0])
        count += cases + 2
    print("\n".join(faults + [f"{len(names) + count} passed, 0 failed" if not faults else f"{len(faults)} failed"]))
    return 1 if faults else 0


if __name__ == "__main__":
    sys.exit(main(sys.argv[1:]))

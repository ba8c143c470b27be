#!/usr/bin/env python3
"""Draws many runs of scripts of users, and compares what is told of them with all orders and with the runs themselves.

    python3 tests/walks.py MCSLAB [RUNS]     so many runs of each script (200)

Each end, answer and failure that `walk --runs` tells is one that `explore` tells. The run of the seed beside it has that answer, or
ends so; the status is 1 exactly if something fails, and then that of `explore` is 1, too; else it is 3. A report is the same each time.
"""
import glob
import re
import subprocess
import sys

program, runs = sys.argv[1], sys.argv[2] if len(sys.argv) > 2 else "200"
told = {"scripts": 0, "ends": 0, "answers": 0, "questions": 0}


def call(*words):
    """The status and the lines of a call."""
    done = subprocess.run([program, *words], capture_output=True, text=True, check=False)
    return done.returncode, done.stdout.splitlines()


def parts(lines):
    """The ends, each as its heading and lines without slots; the answers of each entry; the questions that fail; the verdict."""
    ends, answers, failed = {}, {}, {}
    for number, line in enumerate(lines):
        if found := re.match(r"end \d+: ([a-z ]+), .* first (?:by --seed (\d+)|after .*)$", line):
            users = []
            for below in lines[number + 1:]:
                if not below.startswith("  "):
                    break
                users.append(re.sub(r" \(slot \d+ of c\d+\)| \(in no slot\)", "", below))
            ends[(found[1], *users)] = found[2]
        elif found := re.match(r"(t\d+)(?: \([^)]*\))? (\d+): .* -> (.*)$", line):
            for answer in found[3].split(" | "):
                seed = re.search(r" \(--seed (\d+)\)$", answer)
                text = re.sub(r" \((--seed \d+|never \w+|no answer so far)\)$", "", " " + answer)
                if text.strip() and not text.strip().startswith("("):
                    answers[(found[1], found[2], text.strip())] = seed and seed[1]
        elif found := re.match(r"question at line (\d+): .*: does not hold", line):
            seed = re.search(r"--seed (\d+)", line)
            failed[found[1]] = seed and seed[1]
    return ends, answers, failed, lines[-1]


def same_objects(path):
    """Whether the objects of a script have the same numbers in all orders."""
    with open(path, encoding="utf-8") as script:
        return " make " not in script.read()


def compare(path):
    """Compares the report on the runs of a script with that on all orders, and with the runs."""
    status, lines = call("walk", "--runs", runs, path)
    assert (status, lines) == call("walk", "--runs", runs, path), f"{path}: not the same each time"
    all_status, all_lines = call("explore", path)
    ends, answers, failed, verdict = parts(lines)
    all_ends, all_answers, all_failed, _ = parts(all_lines)
    assert status == (1 if ": FAILS: " in verdict else 3), f"{path}: status {status}, {verdict}"
    assert verdict.startswith(f"{runs} runs, not whole: "), f"{path}: {verdict}"
    assert status != 1 or all_status == 1, f"{path}: status 1, and all orders have {all_status}"
    if same_objects(path):
        assert set(ends) <= set(all_ends), f"{path}: {set(ends) - set(all_ends)} is no end of all orders"
        assert set(answers) <= set(all_answers), f"{path}: {set(answers) - set(all_answers)} is no answer of all orders"
    assert set(failed) <= set(all_failed), f"{path}: {set(failed) - set(all_failed)} fails in no order"
    for seed in sorted({seed for seed in [*ends.values(), *answers.values(), *failed.values()]}, key=int):
        _, one = call("walk", "--runs", "1", "--seed", seed, path)
        one_ends, one_answers, one_failed, _ = parts(one)
        for kind, alone in ((ends, one_ends), (answers, one_answers), (failed, one_failed)):
            wanted = {name for name, first in kind.items() if first == seed}
            assert wanted <= set(alone), f"{path}: the run of seed {seed} has no {wanted - set(alone)}"
        _, script = call("walk", "--seed", seed, path)
        given = {line[2:] for line in script if line.startswith("= ")} - {"waits"}
        assert given <= {text for _, _, text in one_answers}, f"{path}: the script of seed {seed} has other answers"
        assert script[-1].endswith("no turn is possible here") == bool(one_ends), f"{path}: the end of seed {seed}"
    told["scripts"] += 1
    told["ends"] += len(ends)
    told["answers"] += len(answers)
    told["questions"] += len(failed)


for name in sorted(glob.glob("examples/explore/*.mcs") + glob.glob("examples/programs/*.mcs")):
    if not name.endswith("faults.mcs") and call("walk", name)[0] == 0:
        compare(name)
print("walks: " + ", ".join(f"{count} {kind}" for kind, count in told.items()) + ": each comes in the run that is named, and in some order")

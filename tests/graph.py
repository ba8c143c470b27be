#!/usr/bin/env python3
"""Reads the graphs of scripts of users as other tools do, and finds runs of the machine in them.

    python3 tests/graph.py MCSLAB MCSSIM [RUNS]     so many runs of all scripts together (100)

The first line of a graph counts its states and turns as `explore` does; each state but the first has an edge to it; a state
without edges is one where `explore` sees an end. Each run of `mcssim run` is a path from state 0 by labels. `--dot` has the same edges, and Graphviz draws them, where it is there. A budget leaves status 3.
"""
import glob
import re
import shutil
import subprocess
import sys

lab, sim, runs = sys.argv[1], sys.argv[2], int(sys.argv[3]) if len(sys.argv) > 3 else 100
LARGEST = 20_000


def call(*words, status=0):
    """The lines of a call with this status."""
    done = subprocess.run(words, capture_output=True, text=True, check=False)
    assert status is None or done.returncode == status, f"{words}: status {done.returncode}, {done.stderr}"
    return done.stdout.splitlines()


def counts(path):
    """The states, turns and ends that `explore` counts, and whether it is whole."""
    lines = call(lab, "explore", "--states", str(LARGEST), path, status=None)
    first = lines[0] if lines else ""
    found = re.match(r"(?:stopped.*: )?(\d+) states, (\d+) turns, depth \d+, (\d+) ends(, whole)?", first)
    return (int(found[1]), int(found[2]), int(found[3]), bool(found[4])) if found else None


def read_aut(lines):
    """The number of states, and the edges from each."""
    head = re.fullmatch(r"des \(0,(\d+),(\d+)\)", lines[0])
    edges = [[] for _ in range(int(head[2]))]
    for line in lines[1:]:
        found = re.fullmatch(r'\((\d+),"([ -!#-\[\]-~]*)",(\d+)\)', line)
        assert found, line
        edges[int(found[1])].append((found[2], int(found[3])))
    assert len(lines) - 1 == int(head[1]), "turns"
    return edges


def turns_of(trace):
    """The step and the answer of each line of a book."""
    step, turns = None, []
    for line in trace:
        if re.match(r"\d+ t\d+ ", line):
            step = line
        elif line.startswith("= "):
            turns.append(f"{step} -> {line[2:]}")
    return turns


def follow(edges, trace, path):
    """Checks that the graph has a run."""
    states = {0}
    for turn in turns_of(trace):
        states = {to for state in states for label, to in edges[state] if label.split("; ")[0] == turn}
        assert states, f"{path}: the graph has no {turn}"


def compare_dot(path, edges):
    """Checks that both forms have the same edges, and that Graphviz reads them."""
    lines = call(lab, "graph", "--dot", "--states", str(LARGEST), path)
    drawn = []
    for line in lines[1:-1]:
        found = re.fullmatch(r'  (\d+) -> (\d+) \[label="([^"]*)"\];', line)
        drawn.append((int(found[1]), found[3], int(found[2])))
    assert drawn == [(place, label, to) for place, out in enumerate(edges) for label, to in out], path
    if shutil.which("dot") and len(edges) <= 100:
        done = subprocess.run(["dot", "-Tsvg"], input="\n".join(lines), capture_output=True, text=True, check=True)
        assert done.stdout.count('class="edge"') == len(drawn), path


scripts = []
for path in sorted(glob.glob("examples/explore/*.mcs") + glob.glob("examples/programs/*.mcs")):
    seen = counts(path)
    if seen is None or not seen[3]:
        continue
    states, turns, ends, _ = seen
    edges = read_aut(call(lab, "graph", path))
    assert (len(edges), sum(map(len, edges))) == (states, turns), f"{path}: {len(edges)} states"
    reached = {to for out in edges for _, to in out}
    assert reached | {0} == set(range(states)), f"{path}: states without an edge"
    assert sum(not out for out in edges) == ends, f"{path}: ends"
    if states <= 500:
        compare_dot(path, edges)
    with open(path, encoding="utf-8") as text:
        if "#! resumed goes on" not in text.read():
            scripts.append((path, edges))
    if states > 2:
        short = call(lab, "graph", "--states", "2", path, status=3)
        assert short[0].startswith("des (0,"), short

for number in range(runs):
    path, edges = scripts[number % len(scripts)]
    follow(edges, call(sim, "run", path), path)
print(f"graph: {len(scripts)} scripts, {sum(len(edges) for _, edges in scripts)} states, {runs} runs found, as wanted")

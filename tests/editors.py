#!/usr/bin/env python3
"""Looks at the colours of editors/; nothing has to be built before.

(a) Every word of each .mcs and .plan file of examples/ has a scope of the TextMate grammars, and
    none is invalid.
(b) The fixed words of the TextMate grammars are those of the Vim files, and those of the sources:
    `Key::text` of mcs_text, and what the questions and plans read.

Prints what fails, then how much was seen; exits with 1 where something fails.
"""
import json
import re
import sys
from pathlib import Path

ROOT = Path(__file__).resolve().parent.parent
GRAMMARS = {}
for path in (ROOT / "editors/vscode/syntaxes").glob("*.json"):
    grammar = json.loads(path.read_text())
    GRAMMARS[grammar["scopeName"]] = grammar
KINDS = {".mcs": ("source.mcs", "mcs"), ".plan": ("source.mcs-plan", "mcs-plan")}

# Where the sources have the words that they read, and how these stand there.
SOURCES = {
    "mcs": [
        ("mcs_text/src/key.rt", r'=> b"(?:[=+] )?(\w+)"'),
        ("mcs_lab_check/src/questions.rt", r'is\((?:word|first), b"(\w+)"\)'),
        ("mcs_lab_check/src/seen_answers.rt", r'b" got (\w+)"'),
        ("mcs_explore_questions/src/parser.rt", r'(?:is\(first, |first == )b"([a-z]+\??)"'),
        ("mcs_explore_questions/src/parser.rt", r'expect\(alloc, "(\w+)"\)'),
        ("mcs_explore_questions/src/parser.rt", r'is\(word, b"(\w+)"\)'),
        ("mcs_explore_programs/src/keywords.rt", r'b"(\w+)" => Some\(Keyword'),
        ("mcs_explore_programs/src/conditions.rt", r'(?:take\(|        )b"(\w+)"(?:\)| =>)'),
        ("mcs_explore_programs/src/program.rt", r'expect\("(\w+)"\)'),
    ],
    "mcs-plan": [
        ("mcs_plan_source/src/parser.rt", r'^ +"(\w+)" =>'),
        ("mcs_plan_source/src/parser.rt", r'(?:word == |expect\(alloc, )"(\w+)"'),
        ("mcs_plan_compile/src/compiler.rt", r'first == "(program)"'),
        ("mcs_plan_domains/src/parser.rt", r'(?:word|first) == "(\w+)"'),
        ("mcs_plan_domains/src/parser.rt", r'words\.(?:expect|takes)\("(\w+)"\)'),
        ("mcs_plan_domains/src/handlers.rt", r'keyword == "(\w+)"'),
    ],
}


def found_in(name):
    """The patterns of an include, with the grammar in which they stand."""
    scope, item = name
    grammar = GRAMMARS[scope]
    return grammar["repository"][item] if item else grammar


def flat(scope, rule):
    """The rules with an expression, in their order, each with its grammar."""
    if "include" in rule:
        other, item = rule["include"].split("#")
        scope = other or scope
        return flat(scope, found_in((scope, item)))
    if "match" in rule or "begin" in rule:
        return [(scope, rule)]
    return [one for inner in rule["patterns"] for one in flat(scope, inner)]


def paint(scopes, match, rule):
    """Gives the letters of a match its scopes."""
    if "name" in rule:
        scopes[match.start():match.end()] = [rule["name"]] * (match.end() - match.start())
    for group, capture in (rule.get("captures") or rule.get("beginCaptures") or {}).items():
        start, end = match.span(int(group))
        scopes[max(start, 0):max(end, 0)] = [capture["name"]] * (end - start)


def scoped(scope, line):
    """The scope of each letter of a line; all rules end with their line."""
    scopes, at, rules = [None] * len(line), 0, flat(scope, GRAMMARS[scope])
    while at < len(line):
        found = [(re.compile(rule.get("match") or rule["begin"]).search(line, at), home, rule) for home, rule in rules]
        found = [one for one in found if one[0] and one[0].end() > at]
        if not found:
            break
        match, home, rule = min(found, key=lambda one: one[0].start())
        paint(scopes, match, rule)
        at = match.end()
        if "begin" in rule:
            rules = [one for inner in rule["patterns"] for one in flat(home, inner)]
    return scopes


def bare(scope, line):
    """The words of a line with a letter that has no scope, or an invalid one."""
    scopes = scoped(scope, line)
    for word in re.finditer(r"\S+", line):
        if any(it is None or it.startswith("invalid") for it in scopes[word.start():word.end()]):
            yield word.group()


def words_of(rule):
    """The fixed words in the expressions of a grammar."""
    if isinstance(rule, list):
        return set().union(*map(words_of, rule))
    if not isinstance(rule, dict):
        return set()
    said = re.sub(r"\[[^]]*\]|\\[^?]", " ", rule.get("match", "") + " " + rule.get("begin", ""))
    own = {word.replace("\\", "") for word in re.findall(r"[A-Za-z]{2,}(?:\\\?)?", said)}
    return own.union(*(words_of(it) for key, it in rule.items() if key in ("patterns", "repository") or isinstance(it, dict)))


def vim_words(language):
    text = (ROOT / f"editors/vim/syntax/{language}.vim").read_text()
    return {word for line in re.findall(r"^syntax keyword \w+ contained (.*)$", text, re.M) for word in line.split()}


def source_words(language):
    return {word for path, form in SOURCES[language] for word in re.findall(form, (ROOT / "crates" / path).read_text(), re.M)}


def differing():
    for scope, language in KINDS.values():
        ours, vims, theirs = words_of(GRAMMARS[scope]), vim_words(language), source_words(language)
        if language == "mcs-plan":
            others = vim_words("mcs")
            ours, vims = ours | others, vims | others
            theirs |= others
        yield from (f"{language}: `{word}` is not in the TextMate grammar" for word in sorted((vims | theirs) - ours))
        yield from (f"{language}: `{word}` is not in the Vim file" for word in sorted((ours | theirs) - vims))
        yield from (f"{language}: `{word}` is not in the sources" for word in sorted((ours | vims) - theirs))


def main():
    faults, lines = list(differing()), 0
    for path in sorted(it for kind in KINDS for it in (ROOT / "examples").resolve().rglob("*" + kind)):
        # what is refused there has words of no form
        if path.parent.name == "faults":
            continue
        for number, line in enumerate(path.read_text().split("\n"), 1):
            lines += 1
            faults += [f"{path.name}:{number}: no scope: {word}" for word in bare(KINDS[path.suffix][0], line)]
    print("\n".join(faults), end="\n" if faults else "")
    print(f"{len(faults)} faults in {lines} lines")
    return 1 if faults else 0


sys.exit(main())

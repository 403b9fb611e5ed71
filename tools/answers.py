#!/usr/bin/env python3
"""Writes answers that a check finds only behind a search that fails, which may take it seconds.

    cd CRATE; python3 ../../tools/answers.py FUNCTION ..   names as tools/proof_times.py prints them

It asks for the goals of each function, and which of them each of TACTICS proves. A goal that the
first proves is left to the check; where a later one does, that call is written into the function's
Answers.antt. What stands below the crate must be built, and the crate be proved by `rt check`, or
each of the four checks takes as long as one of the whole crate. Where it is interrupted, the files
that it began stay half done: git has what stood there.
"""
import os
import re
import subprocess
import sys

TACTICS = ["search rules", "grind (arith, common_steps)", "grind (arith, elements)"]
SETS = {
    "arith": "Rattle.std.proofs.Common",
    "rules": "Rattle.std.proofs.Common",
    "common_steps": "Rattle.std.proofs.lemmas.Grind",
    "elements": "Rattle.std.proofs.lemmas.Grind",
}
MARK = "#[tactic(none)] "
HOLE = re.compile(r"^([\w+-]+)(?: \w+)* = \?$", re.M)


def read(path):
    with open(path, encoding="utf-8") as file:
        return file.read()


def write(path, text):
    os.makedirs(os.path.dirname(path), exist_ok=True)
    with open(path, "w", encoding="utf-8") as file:
        file.write(text)


def sources():
    files = [os.path.join(at, name) for at, _, names in os.walk("src") for name in names]
    return [it for it in files if it.endswith(".rt")]


def check(functions, word):
    words = [it for name in functions for it in (word, name.replace(".", "::"))]
    command = ["rt", "check", "--jobs", "1", *words, "--allow-holes"]
    ran = subprocess.run(command, capture_output=True, text=True, check=False)
    return ran.stdout + ran.stderr


def mark(function):
    """Takes the check's tactics from a function, on its own line, so that no other line moves."""
    *parts, name = function.split(".")
    path = "src/%s.rt" % "/".join(it for it in parts if not it[0].isupper())
    head = re.compile(r"^([ \t]*)((?:pub(?:\([a-z]+\))? )?fn %s\b)" % re.escape(name), re.M)
    for it in [path, *sources()]:
        if os.path.exists(it) and head.search(read(it)):
            write(it, head.sub(lambda m: m[1] + MARK + m[2], read(it), count=1))
            return True
    return False


def unmark():
    for path in sources():
        if MARK in read(path):
            write(path, read(path).replace(MARK, ""))


def answers(function):
    return "proofs/%s/Answers.antt" % function.replace(".", "/")


def offered(function, before, told):
    """What stands in the file, with a hole for each goal that the check offers beside."""
    head = r"^help: add these lines to \./%s.*\n((?:    .*\n|\n)+)" % re.escape(answers(function))
    found = re.search(head, told, re.M)
    lines = found[1].split("\n") if found else []
    lines = [it[4:] for it in lines if not it.startswith("    use ")]
    return before.rstrip("\n") + "\n\n" + "\n".join(lines).strip("\n") + "\n"


def goals_in(told):
    """The goals that a check prints, by their names."""
    goals = re.findall(r"goal \? in `([^`]+)`\n(?:  .*\n)*?  ⊢ ((?:.*\n)*?)    \(computed", told)
    return dict([*re.findall(r"^note: `([^`]+)` of \S+ must prove: (.*)", told, re.M), *goals])


def fields(goal):
    """The names of a record's fields, where a goal is one."""
    names, depth, name = [], 0, None
    for sign in goal[len("record ") :] if goal.startswith("record {") else "":
        depth += (sign in "{([") - (sign in "})]")
        if depth == 1 and sign in "{;":
            name = ""
        elif name is not None and sign == ":":
            names, name = [*names, name.strip()], None
        elif name is not None:
            name += sign
        if depth == 0:
            break
    return names


def using(text, tactic):
    """The text with the sets that a tactic lists among its imports."""
    for name in re.findall(r"\w+", tactic):
        if name not in SETS or re.search(r"^use .*\b%s\b" % name, text, re.M):
            continue
        line = re.compile(r"^(use %s\.\{[^}\n]*)\}" % re.escape(SETS[name]), re.M)
        text, count = line.subn(r"\1, %s}" % name, text, count=1)
        if not count:
            first = r"^((?:--.*\n)*(?:use .*\.Common\..*\n)?)"
            text = re.sub(first, r"\1use %s.{%s}\n" % (SETS[name], name), text, count=1)
    return text


def is_used(name, body):
    parts = name.replace("◌", " ").split()
    return any(re.search(r"(?<![\w-])%s(?![\w-])" % re.escape(it), body) for it in parts)


def tidied(text):
    """The text without what only the check offered: its comments, and names that nothing uses."""
    text = re.sub(r"^-- src/.*\n", "", text, flags=re.M)
    body, lines = re.sub(r"^use .*$", "", text, flags=re.M), []
    for line in text.split("\n"):
        found = re.match(r"(use \S+\.\{)([^}]*)\}$", line)
        names = [it for it in found[2].split(", ") if is_used(it, body)] if found else []
        if found and not names:
            continue
        lines.append(found[1] + ", ".join(names) + "}" if found else line)
    return re.sub(r"\n{3,}", "\n\n", "\n".join(lines)).strip("\n") + "\n"


def with_call(text, goal, call):
    head = re.compile(r"^(%s(?: \w+)* = ).*$" % re.escape(goal), re.M)
    return head.sub(lambda m: m[1] + call, text)


def without(text, goal):
    answer = r"pub {0} :\s+goal\.{0}\n{0}(?: \w+)* = .*\n*".format(re.escape(goal))
    return re.sub(answer, "", text)


def tried(texts, left, shown, tactic):
    """Gives each goal that is left this tactic; those that it doesn't prove."""
    for function in texts:
        for goal in left[function]:
            parts = fields(shown.get(goal, ""))
            whole = "record { %s }" % " ".join("%s = %s;" % (it, tactic) for it in parts)
            texts[function] = with_call(texts[function], goal, whole if parts else tactic)
        texts[function] = using(texts[function], tactic)
        write(answers(function), texts[function])
    refusal = r"proofs/(\S+)/Answers\.antt:\d+:\d+: (?:error: )?`([^`]+)`"
    refused = set(re.findall(refusal, check(texts, "--only")))
    is_refused = lambda function, goal: (function.replace(".", "/"), goal) in refused
    return {it: [goal for goal in left[it] if is_refused(it, goal)] for it in texts}


def found_for(functions, before):
    """The functions' new answers, none where the check finds all of them at once."""
    told = check(functions, "--start")
    texts = {}
    for it in functions:
        if before[it] is not None:
            texts[it] = offered(it, before[it], told)
        elif os.path.exists(answers(it)):
            texts[it] = read(answers(it))
    if not texts:
        sys.exit(told)
    shown = goals_in(told)
    left = {it: HOLE.findall(texts[it]) for it in texts}
    by_check = tried(texts, left, shown, TACTICS[0])
    dropped = {it: [goal for goal in left[it] if goal not in by_check[it]] for it in texts}
    left, kept = by_check, by_check
    for tactic in TACTICS[1:]:
        left = tried(texts, left, shown, tactic)
    for it in texts:
        for goal in [*dropped[it], *left[it]]:
            texts[it] = without(texts[it], goal)
        new = [goal for goal in kept[it] if goal not in left[it]]
        texts[it] = tidied(texts[it]) if new else before[it]
        print(it, *new)
    return texts


def main():
    functions = sys.argv[1:]
    before = {it: read(answers(it)) if os.path.exists(answers(it)) else None for it in functions}
    try:
        texts = found_for([it for it in functions if mark(it)], before)
    finally:
        unmark()
    for function, text in texts.items():
        if text is not None:
            write(answers(function), text)
        else:
            os.remove(answers(function))


main()

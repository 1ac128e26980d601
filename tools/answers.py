#!/usr/bin/env python3
"""Tells which answers of a crate's proofs the check does without.

    python3 tools/answers.py CRATE..

Takes all files Answers.antt of the crate out, checks it twice, with the limits of the search and with half of them, and puts the files
back. An answer whose goal neither check leaves open is not needed, unless another answer cites it. Functions of tests are not checked
so: leave crates of tests out. Run it in a copy of the repository: an interrupted run leaves files with the ending .kept.
"""
import re
import subprocess
import sys
from pathlib import Path

ROOT = Path(__file__).resolve().parent.parent / "crates"


def answers_in(file):
    """The names of the goals that a file answers."""
    return re.findall(r"^pub (\S+) : goal\.", file.read_text(), re.M)


def open_goals(crate, flags):
    """The goals that a check leaves open, by the file in which it expects their answers."""
    run = subprocess.run(["rt", "check", "--allow-holes", *flags], cwd=crate, capture_output=True, text=True)
    goals = {}
    for m in re.finditer(r"no proof: expected answers in \./(\S+?/Answers\.antt); (.*)$", run.stdout + run.stderr, re.M):
        goals.setdefault(m[1], set()).update(re.findall(r"`([^`]+)`", m[2]))
    return goals


def asks(goal, answer):
    """Whether an open goal wants an answer; of a goal in clauses the check names the whole, or a clause of it."""
    return goal == answer or goal.startswith(answer + "-clause") or answer.startswith(goal + "-clause")


def unneeded(crate):
    """The answers that neither check asks for, and how many there are in all."""
    files = sorted(crate.glob("proofs/**/Answers.antt"))
    answers = {str(f.relative_to(crate)): answers_in(f) for f in files}
    for f in files:
        f.rename(f.with_suffix(".antt.kept"))
    try:
        checks = [open_goals(crate, []), open_goals(crate, ["--margin"])]
    finally:
        for f in files:
            f.with_suffix(".antt.kept").rename(f)
    found = []
    for file, names in answers.items():
        wanted = set().union(*(goals.get(file, set()) for goals in checks))
        found += [(file, n) for n in names if not any(asks(w, n) for w in wanted)]
    return found, sum(map(len, answers.values()))


def main():
    for name in sys.argv[1:]:
        found, count = unneeded(ROOT / name)
        for file, answer in found:
            print(f"{name}: {file}: {answer}")
        print(f"{name}: {len(found)} of {count} answers are not needed", flush=True)


main()

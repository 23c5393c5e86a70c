#!/usr/bin/env python3
"""Brings the repository's own definitions and lemmas to one spelling: snake case, and upper camel case for types and facts.

usage: python3 tools/spell_names.py     at the top of the repository, right after the kit's port.py

A name of this repository is one that a file of specs/ or proofs/ declares: a definition, a lemma, a field, a constructor
or a variable. Names that Rattle makes (of goals, loops and labels) and those of its library stay. The names are replaced
in specs/, proofs/, the clauses of src/, must-fail edits and, between backticks, in README.md and docs/.
It prints each change, and stops before it writes anything where two names would fall together.
"""
import pathlib
import re

ROOT = pathlib.Path(".")
NAME = r"[A-Za-zΑ-ω][\w']*(?:-[\w']+)+"
WHOLE = re.compile(r"(?<![\w'·-])" + NAME + r"(?![\w'-])")
GOALS = re.compile(r"^(returns|invariant|decreases|loop|if|else|in|In|from|premise|ghost|call)-|^(field-0|type-inv)$")
HEAD = re.compile(r"^\s*(?:(?:abbrev|unfoldable|pub|data|record)\s+)*(" + NAME + r")(?:\s|$)")
BOUND = re.compile(r"(?:λ|\blet)\s+([^.=]*?)\s*(?:\.|=|:)")
PARAMETERS = re.compile(r"[({]([^(){}:]+?)\s*:")
# `Decided-once` is a fact beside a file DecidedOnce.antt; the others are a struct's method or fields, which no clause confuses with them
CHOSEN = {"Decided-once": "IsDecidedOnce"}
MAY_FALL_TOGETHER = {"first-after-claim", "first-after-read", "line-count", "msi-first"}
# arguments of clauses, which no declaration shows
ARGUMENTS = {"no-unmet", "true-found"}
IMPORT = re.compile(r"^\s*(?:ghost )?use Rattle\.std\.[^{]*\{(.*)\}")


def files(*kinds):
    for p in sorted(ROOT.glob("crates/**/*")):
        if p.suffix in kinds and "out" not in p.parts and p.is_file():
            yield p


def in_folder_of_a_function(p):
    """Whether the file answers goals: there, names are Rattle's unless they are declared without a goal."""
    return p.name in ("Answers.antt", "Invariants.antt", "Proof.antt")


def declared():
    names, library = set(ARGUMENTS), set()
    for p in files(".antt", ".rt"):
        for line in p.read_text().splitlines():
            m = IMPORT.match(line)
            if m:
                library |= {x.strip().split(" as ")[0] for x in m[1].split(",")}
    for p in files(".antt"):
        for line in p.read_text().splitlines():
            line = line.split("--")[0]
            if line.lstrip().startswith("use "):
                continue
            m = HEAD.match(line)
            if m and not (in_folder_of_a_function(p) and GOALS.match(m[1])):
                names.add(m[1])
            for more in BOUND.findall(line) + PARAMETERS.findall(line):
                names |= set(WHOLE.findall(more))
    return {n for n in names - library if not (GOALS.match(n) and not stands_in_specs(n))}


def stands_in_specs(name):
    """A declared name that looks like one of a goal's, as `in-memory`."""
    for p in files(".antt"):
        if not in_folder_of_a_function(p):
            for line in p.read_text().splitlines():
                m = HEAD.match(line.split("--")[0])
                if m and m[1] == name:
                    return True
    return False


def spelled(name):
    if name in CHOSEN:
        return CHOSEN[name]
    if name[0].isupper():
        return "".join(part[:1].upper() + part[1:] for part in name.split("-"))
    return name.replace("-", "_")


def main():
    new = {n: spelled(n) for n in declared()}
    used = set()
    for p in files(".antt"):
        used |= set(re.findall(r"(?<![\w'-])[A-Za-z][\w']*(?![\w'-])", p.read_text()))
    together = [(n, t) for n, t in sorted(new.items()) if (t in used and n not in MAY_FALL_TOGETHER) or list(new.values()).count(t) > 1]
    if together:
        for n, t in together:
            print(f"falls together: {n} with {t}")
        raise SystemExit(1)
    turn = lambda text: WHOLE.sub(lambda m: new.get(m[0], m[0]), text)
    for p in files(".antt", ".rt", ".edit"):
        text = p.read_text()
        if turn(text) != text:
            p.write_text(turn(text))
    for p in [ROOT / "README.md", *sorted((ROOT / "docs").glob("*.md"))]:
        text = p.read_text()
        text = re.sub(r"`[^`\n]+`", lambda m: turn(m[0]), text)
        p.write_text(text)
    for n, t in sorted(new.items()):
        print(f"{n} -> {t}")


if __name__ == "__main__":
    main()

#!/usr/bin/env python3
"""Spells the repository's own definitions and lemmas as the library spells its own: words in snake case. Run once, at the top, right after the kit's port.py.

Two things are turned, by text alone:
1. a clause that reads a constant through a starred bracket names it plainly: `ensures* { do ⌜ f (← ⟦T::N⟧) ⌝ }` is `ensures { f T.N }`;
2. a definition, lemma or field of specs/ and proofs/ in camel case or with dashes gets underscores. Where a lemma and the definition that it is about fall
   together, the lemma gets `_lem`. Types, modules, constructors and names of the library stay; so do functions of src/, strings and exported names.

It turns .rt and .antt files, the must-fail edits, and the names between backticks in the pages. What it cannot turn it prints.
"""

import collections
import glob
import os
import re
import sys

ID = r"[A-Za-z_][A-Za-z0-9_'₀-₉]*(?:-[A-Za-z0-9_'₀-₉]+)*"
TOKEN = re.compile(r"(?<![A-Za-z0-9_'₀-₉◌\-])" + ID)
DEFINED = re.compile(r"^\s*(?:unfoldable |abbrev )?(?:pub )?(?:unfoldable |abbrev )?(?:record |data )?(" + ID + r")(\s[^:=]*)?\s*:\s")
# Names that port.py turned alone, since a library has the same spelling: pages and edits still have the old ones.
PORTED = """add-a add-at add-none ahead-more ahead-step alike-then all-done all-past all-read and-l and-no and-r and-true-r and-yes andThen answerOf at-from at-most-one
at-read at-table at-zero back-above back-end back-more back-none back-on back-one below-at below-power bool-cases both-at both-first both-ways boundAt by-digits by-first
by-le bytes-most bytes-of bytes-on bytes-same bytes-up bytesOf choiceOf choose-spec codeOf count-by count-long count-none cut-spec digit-and digit-low digit-lt digit-or
digits-more digits-same end-list end-read endAt far-some fill-on fill-start find-first fine-end first-counted first-finds first-head first-of first-on first-one first-past
first-rest first-short first-small first-some firstOf fit-all fits-on found-at free-snoc from-at from-lowest from-zero goes-on got-read head-first hit-same in-b in-table
is-made is-read is-zero isA isSet joined-at joined-same keep-append last-has last-meets last-none lastOf least-at least-first least-on least-skip left-le left-one leftOf
len-below length-from length-over lent-is line-at line-read line-reads lines-from linesOf listOf low-same low-zeros map-back map-each mark-spec mask-below mask-grows
mask-start member-below met-all met-at met-less minus-is mostOf move-all nameOf narrow-start next-le next-of no-hit no-member no-more no-start no-steps none-from not-found
not-made numberOf numbers-of of-spec on-line one-answer one-end one-from one-in one-list one-more one-none one-on one-shifted oneAt oneOf ones-none or-cases or-l or-r
pass-on pass-spec passed-on pick-all pick-even pick-odd placed-at read-at read-back read-one read-right read-short read-spec read-whole rest-all rows-step run-none run-on
run-spec runOf same-answer same-length same-test second-none set-at sets-over shift-fits shift-is shift-le shift-none shift-one shift-small shift-top shiftBy shiftOf shortOf
so-far some-below spell-one start-of start-small step-spec stepsOf sub-number sumOf take-min takenOf test-chosen tests-same text-at then-found then-same tieOf too-long
too-short totalOf turn-is turnOf value-on value-pos valuesOf walk-end walk-start with-it write-spec written-all written-next written-none writtenOf is-plain one-single""".split()


def snake(name):
    return re.sub(r"(?<=[a-z0-9])[A-Z]", lambda m: "_" + m.group(0).lower(), name.replace("-", "_"))


def read(path):
    with open(path, encoding="utf-8") as f:
        return f.read()


def imports(text):
    """The names that a file takes from the library."""
    out = set()
    for line in text.split("\n"):
        m = re.match(r"^\s*(?:ghost )?use ([^\s{]+)\{(.*)\}", line)
        if m and (not m.group(1).startswith("Rattle.") or m.group(1).startswith("Rattle.std")):
            out |= {n.strip().split(" as ")[-1] for n in m.group(2).split(",")}
    return out


def own_names():
    """Each name of specs/ and of the lemma files that is not in snake case, with its new spelling."""
    defined = collections.defaultdict(set)
    for path in sorted(glob.glob("crates/*/specs/*.antt") + glob.glob("crates/*/proofs/*.antt")):
        for line in read(path).split("\n"):
            m = DEFINED.match(line)
            if m and not line.lstrip().startswith(("--", "use ", "mod ", "pub mod ")):
                defined[m.group(1)].add(path)
    old = {n for n in defined if not n[0].isupper() and snake(n) != n}
    taken = collections.defaultdict(set)
    for n in defined:
        taken[snake(n) if n in old else n].add(n)
    to = {n: snake(n) for n in old}
    for new, names in taken.items():
        if len(names) > 1:
            camel = [n for n in names if re.search(r"[a-z0-9][A-Z]", n)]
            if len(camel) != 1:
                sys.exit(f"respell: {sorted(names)} fall together")
            for n in names - set(camel):
                to[n] = new + "_lem"
            print(f"fall together: {camel[0]} is {new}, " + ", ".join(f"{n} is {to[n]}" for n in sorted(names - set(camel))))
    return to


def plain_clauses(path, text):
    out = []
    for line in text.split("\n"):
        m = re.match(r"^(\s*)(requires|ensures)\*( \w+)? \{ do (?:(\w+) ← ⟦(\w+)::(\w+)⟧; )?⌜ (.*) ⌝ \}(.*)$", line)
        if m:
            body = m.group(7)
            if m.group(4):
                body = re.sub(rf"\b{m.group(4)}\b", f"{m.group(5)}.{m.group(6)}", body)
            body = re.sub(r"\(← (?:\(⟦(\w+)::(\w+)⟧\)\.entry|⟦(\w+)::(\w+)⟧)\)", lambda k: f"{k.group(1) or k.group(3)}.{k.group(2) or k.group(4)}", body)
            line = f"{m.group(1)}{m.group(2)}{m.group(3) or ''} {{ {body} }}{m.group(8)}"
        if path.endswith(".rt") and ("⟦" in line or "⌜" in line):
            print(f"left: {path}: {line.strip()}")
        out.append(line)
    return "\n".join(out)


def turned(code, to, kept):
    """Code with each name of `to` respelled. What stands behind the dot of a value is a field or a step, which has no `_lem`."""

    def one(m):
        n = m.group(0)
        if n not in to or n in kept:
            return n
        before = code[: m.start()]
        if before.endswith(".") and not re.search(r"[A-Z][A-Za-z]*\.$", before):
            return snake(n)
        return to[n]

    return TOKEN.sub(one, code)


def words(prose, to):
    """Prose with the names respelled: those in camel case, and between backticks those with dashes too."""
    some = {n: v for n, v in to.items() if "-" not in n}
    parts = prose.split("`")
    for i, part in enumerate(parts):
        parts[i] = turned(part, to if i % 2 and len(parts) % 2 else some, set())
    return "`".join(parts)


def source(path, text, to):
    kept = imports(text)
    comment = "//" if path.endswith(".rt") else "--"
    out = []
    for line in text.split("\n"):
        at = len(line) if comment not in line else line.index(comment)
        code, said = line[:at], line[at:]
        pieces = re.split(r'("(?:[^"\\]|\\.)*")', code)
        code = "".join(p if i % 2 else turned(p, to, kept) for i, p in enumerate(pieces))
        out.append(code + words(said, to))
    return "\n".join(out)


def edit(text, to):
    out = []
    for line in text.split("\n"):
        m = re.match(r"^(old|new): (.*)$", line)
        out.append(f"{m.group(1)}: {turned(m.group(2), to, set())}" if m else words(line, to))
    return "\n".join(out)


def main():
    to = own_names()
    said = dict(to)
    said.update({n: to.get(snake(n), snake(n)) for n in PORTED if n not in to})
    for path in sorted(glob.glob("crates/*/**/*", recursive=True) + glob.glob("*.md") + glob.glob("docs/**/*.md", recursive=True)):
        if "/out/" in path or not os.path.isfile(path):
            continue
        if path.endswith((".rt", ".antt")):
            text = read(path)
            new = source(path, plain_clauses(path, text) if path.endswith(".rt") else text, to)
        elif path.endswith(".edit"):
            text = read(path)
            new = edit(text, said)
        elif path.endswith(".md"):
            text = read(path)
            new = words(text, said)
        else:
            continue
        if new != text:
            with open(path, "w", encoding="utf-8") as f:
                f.write(new)


main()

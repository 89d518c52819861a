#!/usr/bin/env python3
"""Brings the repository's own definitions and lemmas to today's spelling, once, after /opt/rattle/port/port.py.

usage: python3 tools/respell.py [--list]      at the top of the repository; --list prints the renamings and writes nothing

Words get snake case, types and facts upper camel case. In a lemma of proofs/ a dash stays where it joins names of things, as in `length-packed`.
Names that come from the kit, from src/ or from what the check makes keep their spelling. The must-fail edits are turned too, as far as names go.
history/specs/Contracts becomes history/specs/Promises, since the check makes a module of the name `contracts`.
"""
import collections
import os
import re
import sys

STOPS = "\\s(){}\\[\\].,;\"`"
TOKEN = re.compile(f"[^{STOPS}]+")
DECLARED = re.compile(
    f"^(\\s*)((?:abbrev |unfoldable |opaque |private |pub |record |data |mutual )*)([^{STOPS}:]+)((?:\\s+[({{].*?[)}}])*)\\s*:(?![:=])"
)
KEYWORDS = {"use", "where", "let", "in", "module", "infix", "infixl", "infixr", "record", "data", "pub", "mod", "unfolding"}
# words of lemma names that name no definition of their own
THINGS = {"length", "take", "drop", "append", "map", "replicate", "get_or", "set", "slice", "cons", "none", "all", "any"}
# names that would fall together with another name of the repository, and what they become
APART = {
    "dataFrame": "model_frame",
    "isDigit": "is_digit_byte",
    "numsHeld": "numbers_held",
    "policyOf": "link_policy_of",
    "recordAt": "queue_record_at",
    "retry-in": "retry_invariant",
    "soundOutbox": "sound_outbox_of",
    "soundStage": "sound_stage_of",
    "state-of": "state_of_end",
    "termsIn": "terms_in_session",
    "terms-of": "terms_of_stage",
    "unacked-of": "unacked_of_view",
}


def files(root, ends):
    for folder, dirs, names in os.walk(os.path.join(root, "crates")):
        dirs[:] = sorted(d for d in dirs if d != "out")
        for n in sorted(names):
            if n.endswith(ends):
                yield os.path.join(folder, n)


def generated(path):
    """Whether the file is part of a function's proof: its names follow the check's goals."""
    return re.search(r"/proofs/.+/(Proof|Answers|Invariants)\.antt$", path)


def is_fact(lines, i):
    """Whether the signature that begins at line i ends in a universe."""
    text = lines[i].rstrip("\n")
    indent = len(text) - len(text.lstrip())
    for l in lines[i + 1 :]:
        if l.strip() and len(l) - len(l.lstrip()) > indent and l.lstrip().startswith(("→", "->")):
            text += " " + l.strip()
        else:
            break
    return bool(re.search(r"(→|:)\s*Type(\s+(\d+|ℓ))?\s*$", text))


def snake(word):
    return re.sub(r"(?<=[a-z0-9])([A-Z])", lambda m: "_" + m.group(1).lower(), word)


def camel(name):
    return "".join(p[:1].upper() + p[1:] for p in re.split(r"[-_]", name) if p)


def collect(root):
    own, kit, lemma, fact = {}, set(), collections.defaultdict(bool), set()
    for path in files(root, ".antt"):
        with open(path, encoding="utf-8") as f:
            lines = f.readlines()
        for i, l in enumerate(lines):
            if l.lstrip().startswith("--"):
                continue
            u = re.match(r"\s*(?:pub )?use ([^\s.]+)(\.\S*?)?\.?\{(.*)\}", l)
            if u and (u.group(1) != "Rattle" or re.match(r"\.(std|core|io|libc)\b", u.group(2) or "")):
                kit.update(x.strip().split(" as ")[0] for x in u.group(3).split(","))
                continue
            if generated(path):
                continue
            m = DECLARED.match(l)
            if not m or m.group(3) in KEYWORDS or "◌" in m.group(3) or "·" in m.group(3):
                continue
            name = m.group(3)
            in_specs = "/specs/" in path
            own.setdefault(name, set()).add(path)
            lemma[name] |= not in_specs
            if in_specs:
                lemma[name] = lemma[name] and False
            if ("abbrev" in m.group(2) or "unfoldable" in m.group(2) or "pub" in m.group(2)) and m.group(1) == "" and is_fact(lines, i):
                if "record" not in m.group(2) and "data" not in m.group(2):
                    fact.add(name)
    specs = {n for n, ps in own.items() if any("/specs/" in p for p in ps)}
    return own, kit, specs, fact


def renamings(root):
    own, kit, specs, fact = collect(root)
    known = {snake(n).replace("-", "_") for n in specs} | THINGS
    new = {}
    for n in own:
        if n in kit or n.startswith("«"):
            continue
        if n[0].isupper():
            t = camel(n) if "-" in n else n
        elif n in fact:
            t = camel(snake(n))
        else:
            t = snake(n)
            if "-" in t:
                parts = t.split("-")
                joins = n not in specs and all(p in known for p in parts)
                t = t if joins else t.replace("-", "_")
        t = APART.get(n, t)
        if t != n:
            new[n] = t
    return own, kit, new


def main(argv):
    root = "."
    own, kit, new = renamings(root)
    back = collections.defaultdict(set)
    for n in own:
        back[new.get(n, n)].add(n)
    for n in kit:
        if n in back:
            back[n].add(n)
    together = {t: ns for t, ns in back.items() if len(ns) > 1}
    if "--list" in argv:
        for n in sorted(new):
            print(f"{n}\t{new[n]}")
    for t, ns in sorted(together.items()):
        print(f"fall together: {t}: " + ", ".join(f"{n} ({', '.join(sorted(own.get(n, ['kit'])))})" for n in sorted(ns)), file=sys.stderr)
    if "--list" in argv:
        return 0
    for path in files(root, (".antt", ".rt", ".edit")):
        with open(path, encoding="utf-8") as f:
            text = f.read()
        out = TOKEN.sub(lambda m: new.get(m.group(0), m.group(0)), text)
        out = out.replace("Rattle.history.specs.Contracts", "Rattle.history.specs.Promises")
        if path.endswith("crates/history/specs/Lib.antt"):
            out = out.replace("pub mod Contracts", "pub mod Promises")
        if path.endswith(".edit"):
            out = out.replace("file: specs/Contracts.antt", "file: specs/Promises.antt")
        if out != text:
            with open(path, "w", encoding="utf-8") as f:
                f.write(out)
    old = os.path.join(root, "crates/history/specs/Contracts.antt")
    if os.path.exists(old):
        os.rename(old, os.path.join(root, "crates/history/specs/Promises.antt"))
    return 0


if __name__ == "__main__":
    raise SystemExit(main(sys.argv[1:]))

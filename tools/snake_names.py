#!/usr/bin/env python3
"""snake_names: brings the names of the definitions, fields and lemmas of specs/ and proofs/ to snake case.

usage: tools/snake_names.py [--list]      at the top of the repository, once, after the library's own script

Renamed is what an .antt file of specs/ or proofs/ declares in lower camel case or with a dash, wherever .rt and .antt files name it, and in the
documents where it stands in backticks. Names that the prover makes (goals, steps) are declared in proofs/F/Proof.antt with a type from the
function's Tie, and stay. Functions of src/, exported names, strings, inputs and outputs stay. --list prints the names, and those that fall together.
"""
import glob
import os
import re
import sys

os.chdir(os.path.join(os.path.dirname(os.path.abspath(__file__)), ".."))

# Names that would be those of something else: the lemma, or the definition, gets another.
OTHERWISE = {
    "half-pi": "half_pi_lem",
    "two-pi": "two_pi_lem",
    "near-root": "near_root_lem",
    "one-corner": "one_corner_lem",
    "with-flag": "with_flag_lem",
    "is-nan": "is_nan_lem",
    "so-far": "so_far_is",
    "southPole": "south_pole_point",
    "northPole": "north_pole_point",
}

WORD = r"[^\s(){}\[\].,;:«»`\"|]+"
HEAD = re.compile(rf"^ *(?:(?:abbrev|unfoldable|pub|data|record|ruleset) )*({WORD})(?: |$)")


def antt():
    return sorted(glob.glob("crates/*/specs/**/*.antt", recursive=True) + glob.glob("crates/*/proofs/**/*.antt", recursive=True))


def declared(path):
    """Each name that a file declares, with its line."""
    for line in open(path, encoding="utf-8"):
        m = re.match(rf"^ *(?:(?:abbrev|unfoldable|pub) )*((?:{WORD} )*{WORD}) :(?: |$)(.*)", line)
        if m and not line.lstrip().startswith(("let ", "in ", "|", "--", "→", "×", "(", "∙")):
            for n in m.group(1).split(" "):
                yield n, m.group(2)
        m = re.match(rf"^ *(?:(?:abbrev|unfoldable|pub) )*(?:data|record|ruleset) ({WORD})", line)
        if m:
            yield m.group(1), ""


def snake(name):
    if name in OTHERWISE:
        return OTHERWISE[name]
    name = name.replace("-", "_")
    return re.sub(r"(?<=[a-z0-9])([A-Z])", lambda m: "_" + m.group(1).lower(), name)


def own():
    found = {}
    for p in antt():
        walk = p.endswith("/Proof.antt")
        for n, kind in declared(p):
            if walk and (re.match(r"tie\.|\{M : Type 1\} → statement", kind) or not kind):
                continue
            if n[0].islower() and (re.search(r"[a-z0-9][A-Z]", n) or re.search(r"[a-z0-9']-[a-zA-Z0-9]", n)):
                found.setdefault(n, set()).add(p)
    return found


def turned(text, names, word, kept=frozenset()):
    return word.sub(lambda m: m.group(0) if m.group(0) in kept else names.get(m.group(0), m.group(0)), text)


def from_elsewhere(text):
    """The names that a file takes from a library that is not the repository's."""
    found = set()
    for m in re.finditer(r"use ([^\s{]+)\.\{([^}]*)\}", text):
        parts = m.group(1).split(".")
        if parts[0] != "Rattle" or not os.path.isdir(os.path.join("crates", parts[1])):
            found.update(n.split(" as ")[0].strip() for n in m.group(2).split(","))
    return found


def main():
    found = own()
    names = {n: snake(n) for n in found}
    # the library's own script leaves its word for a double's bits where a file has a name that it turns alike
    names["toBits"] = "to_bits"
    word = re.compile(WORD)
    if "--list" in sys.argv:
        tokens = {}
        for p in antt() + glob.glob("crates/*/src/*.rt"):
            for m in word.finditer(open(p, encoding="utf-8").read()):
                tokens.setdefault(m.group(0), set()).add(p)
        back = {}
        for n, s in names.items():
            back.setdefault(s, []).append(n)
        for s, ns in sorted(back.items()):
            note = ""
            if len(ns) > 1:
                note += " TOGETHER"
            if s in tokens:
                note += " IN USE " + " ".join(sorted(tokens[s]))
            print(s, "<-", *ns, note)
        return
    for p in antt() + glob.glob("crates/*/src/*.rt"):
        t = open(p, encoding="utf-8").read()
        u = turned(t, names, word, from_elsewhere(t) - {"toBits"})
        if u != t:
            open(p, "w", encoding="utf-8").write(u)
    now = {n for p in antt() for n, _ in declared(p)}
    as_now = lambda m: snake(m.group(0)) if re.search(r"[a-z0-9][A-Z]|[a-z0-9]-[a-z]", m.group(0)) and m.group(0)[0].islower() and snake(m.group(0)) in now else m.group(0)
    for p in ["README.md", "oracle/README.md"] + glob.glob("docs/*.md") + glob.glob("docs/changes/*.md"):
        if p == "docs/PORT.md":
            continue
        t = open(p, encoding="utf-8").read()
        u = re.sub(r"`[^`\n]+`", lambda m: word.sub(as_now, m.group(0)), t)
        if u != t:
            open(p, "w", encoding="utf-8").write(u)


if __name__ == "__main__":
    main()

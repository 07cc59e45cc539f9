#!/usr/bin/env python3
"""Brings the repository's own definitions and lemmas to snake case, types to upper camel case.

Run once at the top, after the kit's port.py. It renames what specs/ and proofs/ declare, there and
wherever it is cited: clauses, must-fail edits, documents. Functions of src/, exported C names, strings
and what a proof of one function names for itself (proofs/F/Proof.antt) keep their names.
"""
import collections
import glob
import os
import re
import sys

IDENT = r"[A-Za-z_À-￿0-9'·-]+"
TOKEN = re.compile(r"(?<![A-Za-z0-9_'·À-￿-])[A-Za-z][A-Za-z0-9_'·²-]*")

# where two names would fall together, or a library has the new one
BY_HAND = {
    "Five-numbers": "FiveNumbers",
    "getWSigmoid": "get_w_sigmoid",
    "limitPrice": "limit_price_reply",
    "added-to": "added_to_lem",
    "centred-answer": "centred_answer_lem",
    "five-of": "five_of_lem",
    "moved-state": "moved_state_lem",
    "outcome-of": "outcome_of_lem",
    "raw-value": "raw_value_lem",
    "whole-root": "whole_root_lem",
    "is-nan": "is_nan_lem",
    "nan-bits": "nan_bits_lem",
}


def antt_files():
    return sorted(glob.glob("crates/*/specs/**/*.antt", recursive=True) + glob.glob("crates/*/proofs/**/*.antt", recursive=True))


def code_of(line):
    """The part of a line of antt before its comment."""
    at = re.search(r"(^|\s)--(\s|$)", line)
    return line[: at.start()] if at else line


def declared(path):
    """The names that a file declares: by a signature, as a constructor or as a field."""
    names = set()
    for line in open(path):
        code = code_of(line).rstrip()
        m = re.match(r"\s*((?:(?:abbrev|unfoldable|pub|data|record|ruleset)\s+)*)((?:[^\s:(){},.;=λ→]+\s+)*?[^\s:(){},.;=λ→]+)(\s+[({].*)?\s*:(\s|$)", code)
        if m:
            for name in m.group(2).split():
                names.add(name)
    return names


def snake(name):
    if name in BY_HAND:
        return BY_HAND[name]
    new = re.sub(r"(?<=[a-z0-9])([A-Z])", lambda m: "_" + m.group(1).lower(), name) if re.match(r"[a-z]", name) and re.search(r"[A-Z]", name) and "-" not in name else name
    if "-" in new:
        parts = new.split("-")
        new = "_".join(re.sub(r"(?<=[a-z0-9])([A-Z])", lambda m: "_" + m.group(1).lower(), p) if re.match(r"[a-z]", p) else p for p in parts)
    return new


def main():
    files = antt_files()
    own = collections.defaultdict(set)
    local = collections.defaultdict(set)
    for f in files:
        names = declared(f)
        if f.endswith("/Proof.antt"):
            local[f] = names
        else:
            for n in names:
                own[n].add(f)
    library = set()
    for f in files + glob.glob("crates/*/src/**/*.rt", recursive=True):
        text = open(f).read()
        for m in re.finditer(r"^(?:pub |ghost )*use\s+([^\s;]+?)\.\{([^}]*)\}", text, re.M):
            crate = m.group(1).split(".")
            if crate[0] == "Rattle" and os.path.isdir("crates/" + crate[1]):
                continue
            library |= {w.split(" as ")[0].strip() for w in m.group(2).split(",")}
    names = {}
    for n in own:
        if not re.match(r"[A-Za-z]", n) or n in library:
            continue
        new = snake(n)
        if new != n:
            names[n] = new
    # names that fall together
    taken = collections.defaultdict(set)
    for n in own:
        taken[names.get(n, n)].add(n)
    clash = {k: v for k, v in taken.items() if len(v) > 1}
    functions = set()
    for f in glob.glob("crates/*/src/**/*.rt", recursive=True):
        functions |= set(re.findall(r"\bfn\s+(\w+)", open(f).read()))
    if "--show" in sys.argv:
        print(len(names), "names")
        for k, v in sorted(clash.items()):
            print("falls together:", k, sorted((x, sorted(own[x])) for x in v))
        for n, new in sorted(names.items()):
            if new in library:
                print("a library's:", n, new, sorted(own[n])[:2])
            if new in functions:
                print("a function's:", n, new, sorted(own[n])[:2])
        for f in files + sorted(glob.glob("crates/*/src/**/*.rt", recursive=True)):
            words = set(TOKEN.findall("\n".join(code_of(l) if f.endswith("antt") else l.split("//")[0] for l in open(f))))
            for w in sorted(words):
                if w in names and names[w] in words:
                    print("both in one file:", f, w, names[w])
        return
    new_of = names

    def turned(text, skip=frozenset()):
        def one(m):
            w = m.group(0)
            if w in new_of and w not in skip:
                return new_of[w]
            return w

        parts = re.split(r'("[^"\n]*")', text)
        text = "".join(p if i % 2 else TOKEN.sub(one, p) for i, p in enumerate(parts))
        return re.sub("orElse(?=[ ◌])", "or_else", text)  # the one operator that is a word

    for f in files:
        text = open(f).read()
        out = []
        skip = local.get(f, set())
        imported = set()
        for m in re.finditer(r"^(?:pub )?use\s+[^\s;]+?\.\{([^}]*)\}", text, re.M):
            imported |= {w.split(" as ")[0].strip() for w in m.group(1).split(",")}
        skip = frozenset(n for n in skip if n not in imported)
        for line in text.split("\n"):
            code = code_of(line)
            out.append(turned(code, skip) + turned(line[len(code):], skip) if code.strip() else turned(line, skip))
        new = "\n".join(out)
        if new != text:
            open(f, "w").write(new)
    for f in sorted(glob.glob("crates/*/src/**/*.rt", recursive=True)):
        text = open(f).read()
        out = []
        for line in text.split("\n"):
            at = line.find("//")
            code, comment = (line, "") if at < 0 else (line[:at], line[at:])
            out.append(turned(code) + comment)
        new = "\n".join(out)
        if new != text:
            open(f, "w").write(new)
    for f in sorted(glob.glob("crates/*/must-fail/*.edit") + glob.glob("crates/*/further/*.edit")):
        text = open(f).read()
        new = turned(text)
        if new != text:
            open(f, "w").write(new)
    for f in sorted(glob.glob("docs/*.md") + ["README.md"]):
        text = open(f).read()
        new = re.sub(r"`[^`\n]+`", lambda m: turned(m.group(0)), text)
        if new != text:
            open(f, "w").write(new)


main()

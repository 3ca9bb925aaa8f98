#!/usr/bin/env python3
"""Spells the definitions and lemmas of the crates below FOLDER as the library does: words in snake case, and a dash only between two names.

usage: respell.py FOLDER [--list]

Names are those that specs/ and the lemma files of proofs/ declare: functions, lemmas, fields and constructors. A hump becomes an underscore and a small
letter. A dash stays where a name stands on either side of it, or a symbol, and becomes an underscore elsewhere; a field's always does. Types, modules, names of
src/, the labels of a function's own proof, and names that the library declares stay as they are. A new name that another name has already is told, and left.
With --list nothing is written. Run it once.
"""

import os
import re
import subprocess
import sys

# The library stands beside the toolchain's first page.
LIBRARY = os.path.join(os.path.dirname(subprocess.run(["rt", "doc"], capture_output=True, text=True, check=True).stdout.strip()), "rattle")
CUT = r"[^\s(){}.;,@\"«»]+"
MARKS = r"(?:(?:pattern|unfoldable|abbrev|axiom|pub) )*"
DECLARED = re.compile(rf"^( *){MARKS}({CUT})(?: \{{[^}}\n]*\}})? :(?= |$)")
DATA = re.compile(rf"^{MARKS}(?:data|record) ({CUT})")
HUMP = re.compile(r"(?<=[a-z0-9])[A-Z](?=[a-z0-9]|$|-)")


# Names that would be met, each with the folder below which it gives way.
FIRST = [
    ("crates/chains", "cut_below", "cut_below_lem"),
    ("crates/round_trip", "lists_back", "given_lists_back"),
    ("crates/panel/proofs/lists/list_head", "room_of", "list_room_of"),
    ("crates/panel/proofs/add", "table_of", "table_of_contract"),
    ("crates/drift/specs", "some_number", "some_number_is"),
    ("crates/report_text", "too_short", "too_short_lem"),
]

# `table_of` is a function of src/.
OVER = {"tableOf": "table_from"}


def antt(top):
    for folder, dirs, files in os.walk(top):
        dirs[:] = sorted(d for d in dirs if d not in ("out", ".git", "target"))
        for f in sorted(files):
            if f.endswith(".antt"):
                yield os.path.join(folder, f)


def own_proof(path):
    """Whether a file is of one function's proof: its names are labels."""
    return os.path.basename(path) in ("Proof.antt", "Answers.antt", "Invariants.antt")


def declared(path):
    """Each name that a file declares, and whether it is a field or a constructor."""
    with open(path, encoding="utf-8") as f:
        for line in f:
            line = line.split("--")[0].rstrip() if line.lstrip().startswith("--") else line.rstrip("\n")
            if DATA.match(line):
                continue
            m = DECLARED.match(line)
            if m:
                yield m.group(2), bool(m.group(1))


def small(name):
    return name[:1].islower()


def humps(name):
    """Humps to underscores, in each part that begins with a small letter."""
    parts = name.split("-")
    return "-".join(HUMP.sub(lambda m: "_" + m.group(0).lower(), p) if small(p) else p for p in parts)


def new_name(name, member, words):
    name = humps(name)
    parts = name.split("-")
    if len(parts) == 1 or "" in parts:
        return name
    out = parts[0]
    for i in range(1, len(parts)):
        left, right = "-".join(parts[:i]), "-".join(parts[i:])
        names = known(left, words) and known(right, words)
        worded = re.search(r"[A-Za-z]", left) and re.search(r"[A-Za-z]", right)
        out += ("-" if names and not (member and worded) else "_") + parts[i]
    return out


def known(text, words):
    return text in words or text.replace("-", "_") in words or not re.search(r"[A-Za-z]", text)


def settle(turned, names, library, top):
    """Where a new name would meet another in some file, a lemma's gets _lem behind it; a name that still meets one is told, and stays."""
    files = []
    for path in antt(os.path.join(top, "crates")):
        with open(path, encoding="utf-8") as f:
            text = f.read()
        # What stands behind a dot is a member, and meets nothing.
        files.append((path, set(re.findall(rf"(?<![.\w'-]){CUT}", text)), set(re.findall(CUT, text))))
    for ending in ("_lem", None):
        by_new = {}
        for n, new in turned.items():
            by_new.setdefault(new, []).append(n)
        met = {}
        for path, bare, every in files:
            for n in every & turned.keys():
                new = turned[n]
                others = [m for m in by_new[new] if m != n and m in every]
                if others or new in bare:
                    met.setdefault(n, (path, others or [new]))
        for n, (path, others) in sorted(met.items()):
            if ending and "-" in n:
                turned[n] += "_is" if names[n] else ending
            elif not ending or not any("-" in m for m in others):
                print(f"look: {n} would be {turned[n]}, and meets {', '.join(others)} in {path}")
                if not ending:
                    del turned[n]


def main():
    top, only_list = sys.argv[1], "--list" in sys.argv
    if not only_list:
        for folder, name, new in FIRST:
            for path in antt(os.path.join(top, folder)):
                with open(path, encoding="utf-8") as f:
                    text = f.read()
                told = re.sub(rf"(?<![\w'-]){name}(?![\w'-])", new, text)
                if told != text:
                    with open(path, "w", encoding="utf-8") as f:
                        f.write(told)
    library = set()
    for path in antt(LIBRARY):
        library.update(n for n, _ in declared(path))
    names, where = {}, {}
    tokens = set()
    for path in antt(os.path.join(top, "crates")):
        with open(path, encoding="utf-8") as f:
            tokens.update(re.findall(CUT, f.read()))
        if own_proof(path):
            continue
        for n, member in declared(path):
            names[n] = names.get(n, True) and member
            where.setdefault(n, path)
    words = {humps(n) for n in names if "-" not in n and small(n)} | {n for n in library if "-" not in n and small(n)}
    words |= {n for n in names if "-" not in n and n[:1].isupper()}
    turned = {}
    for n, member in sorted(names.items()):
        if n in library or not ("-" in n or HUMP.search(n)) or n[:1].isupper() and "-" not in n:
            continue
        new = OVER.get(n) or new_name(n, member, words)
        if new != n:
            turned[n] = new
    settle(turned, names, library, top)
    print(f"{len(turned)} of {len(names)} names")
    if only_list:
        for n, new in turned.items():
            print(f"{n}\t{new}")
        return
    write(top, turned)


def write(top, turned):
    cut = re.compile(CUT)
    # A label behind `goal.` and the like is Rattle's.
    label = re.compile(r"(?:\b(?:goal|tie|the)\.)$")
    for folder, dirs, files in os.walk(os.path.join(top, "crates")):
        dirs[:] = sorted(d for d in dirs if d not in ("out", ".git", "target"))
        for f in sorted(files):
            path = os.path.join(folder, f)
            if not f.endswith((".antt", ".rt", ".edit")):
                continue
            with open(path, encoding="utf-8") as g:
                text = g.read()
            here = dict(turned)
            if own_proof(path):
                for n, _ in declared(path):
                    here.pop(n, None)
            lines = text.split("\n")
            for i, line in enumerate(lines):
                at, out = 0, ""
                for m in cut.finditer(line):
                    word = m.group(0)
                    tail = ""
                    while word and word not in here and word[-1] in ":`'":
                        word, tail = word[:-1], word[-1] + tail
                    head = ""
                    while word and word not in here and word[0] in "`?":
                        word, head = word[1:], head + word[0]
                    if word in here and not label.search(line[: m.start()]):
                        out += line[at : m.start()] + head + here[word] + tail
                        at = m.end()
                lines[i] = out + line[at:]
            new = "\n".join(lines)
            if new != text:
                with open(path, "w", encoding="utf-8") as g:
                    g.write(new)


main()

#!/usr/bin/env python3
"""Brings the names of this repository's own definitions and lemmas to Rattle's spelling: snake case for words,
where a dash joins only two names that are defined. It was run once, after port.py, on the tree of that commit.

usage: python3 tools/respell.py KIT     (KIT: the folder of the toolchain, whose names stay as they are)
       python3 tools/respell.py KIT --list    (writes nothing: lists what it would rename)
"""
import os
import re
import sys

KIT = sys.argv[1]
# what a name may not contain: blanks, brackets and the marks of antt
TOKEN = re.compile(r"[^\s(){}\[\].;,«»⌜⌝\"`]+")
COMMENT = re.compile(r"--.*")
LETTERS = re.compile(r"[A-Za-z]")
# words of the generated proofs, which are no names of this repository
MADE = re.compile(r"^(Need-|After-|In-|Rest-|Goes-|Case-|Join-)")


def texts(root, ends):
    for folder, dirs, files in os.walk(root):
        dirs[:] = sorted(d for d in dirs if d not in ("out", ".git"))
        for f in sorted(files):
            if f.endswith(ends):
                yield os.path.join(folder, f)


def read(path):
    with open(path, encoding="utf-8", errors="replace") as f:
        return f.read()


def plain(text):
    return re.sub(r'"[^"\n]*"', '""', COMMENT.sub("", text))


def own_lemma_file(path):
    """specs/X.antt and proofs/X.antt: definitions and lemmas; deeper files are proofs of functions."""
    return re.search(r"/(specs|proofs)/[^/]+\.antt$", path) is not None


def defined(text):
    """The names that a file declares at the head of a line: definitions, lemmas, fields, constructors, types."""
    for line in plain(text).splitlines():
        m = re.match(r"\s*((?:abbrev|unfoldable|pub|data|record|ruleset|opaque|instance) )*([^\s(){}\[\].;,]+)", line)
        if not m:
            continue
        rest = line[m.end():]
        if m.group(1) or re.match(r"( \{[^}]*\}| \([^)]*\))* :( |$)", rest):
            yield m.group(2)


def kit_names():
    names = set()
    for part in ("rattle", "logic_built"):
        for path in texts(os.path.join(KIT, part), (".antt",)):
            if "/antt/port/" in path or "/tests/" in path:
                continue
            names.update(w for w in TOKEN.findall(plain(read(path))) if "-" in w or re.search(r"[a-z][A-Z]", w))
    return names


def snake(name):
    return re.sub(r"(?<=[a-z0-9])([A-Z])", lambda m: "_" + m.group(1).lower(), name)


def main():
    kit = kit_names()
    files = list(texts("crates", (".antt",)))
    declared, used = set(), set()
    for path in files:
        text = read(path)
        used.update(TOKEN.findall(plain(text)))
        if own_lemma_file(path):
            declared.update(defined(text))
    for path in texts("crates", (".rt",)):
        used.update(TOKEN.findall(read(path)))
    words = declared | {"length", "append", "take", "drop", "map", "get_or", "set", "sum", "any", "flat_map", "ap", "reverse"}
    new = {}
    for name in sorted(used):
        if not LETTERS.match(name) or name in kit or MADE.match(name):
            continue
        if re.match(r"[a-z][A-Za-z0-9_'?-]*$", name) is None and not (name in declared and "-" in name):
            continue
        lower = name[0].islower()
        to = name
        if "-" in name and name in declared and len(name) > 2:
            parts = name.split("-")
            to = parts[0]
            left = parts[0]
            for p in parts[1:]:
                joined = left in words and p in words and len(parts) == 2
                to += ("-" if joined else "_") + p
                left += "-" + p
        if lower:
            to = snake(to)
        if to != name:
            new[name] = to
    # names that would fall together
    back = {}
    clash = []
    for a, b in sorted(new.items()):
        if b in used or b in back:
            clash.append((a, b, back.get(b, b)))
        back[b] = a
    if "--list" in sys.argv:
        for a, b in sorted(new.items()):
            print(a, b)
        print("clashes:")
        for c in clash:
            print(*c)
        return
    new.update((a, b) for a, b in NEW_NAMES.items() if a in new)
    for path, pairs in HERE.items():
        text = read(path)
        for a, b in pairs:
            text = TOKEN.sub(lambda m: b if m.group(0) == a else m.group(0), text)
        with open(path, "w", encoding="utf-8") as f:
            f.write(text)
    for path in list(texts("crates", (".antt", ".rt", ".edit"))):
        text = read(path)
        turned = turn(path, text, new)
        if turned != text:
            with open(path, "w", encoding="utf-8") as f:
                f.write(turned)


# Names that would fall together. A definition may have the name of the function that answers it; a lemma may not have
# that of a definition, nor a constructor that of another one.
NEW_NAMES = {
    "add-checkpoint": "adds_checkpoint",
    "add-member": "adds_member",
    "add-vote": "adds_vote",
    "give-quota": "gives_quota",
    "best-below": "best_below_lem",
    "drops-at": "drops_at_lem",
    "drops-higher": "drops_higher_lem",
    "heights-break": "heights_break_lem",
    "move-rows": "move_rows_lem",
    "refused-move": "refused_move_lem",
    "risks-evidence": "risks_evidence_lem",
    "told-as": "told_as_lem",
    "with-vote": "with_vote_lem",
    "flat-map": "flat_map-map",
    "bit-or": "bit-bit_or",
}
# the same of names that only one file has
HERE = {
    "crates/feeding/proofs/Onward.antt": [("goes_on", "goes_further")],
    "crates/guarantee/proofs/FedRuns.antt": [("none_passed", "none_passed_run")],
    "crates/model/proofs/Cases.antt": [("nothing_left", "nothing_is_left")],
}


def turn(path, text, new):
    camel = {a: b for a, b in new.items() if re.search(r"[a-z][A-Z]", a)}

    def code(part):
        return TOKEN.sub(lambda m: new.get(m.group(0), m.group(0)), part)

    def comment(part):
        return TOKEN.sub(lambda m: camel.get(m.group(0), m.group(0)), part)

    out = []
    for line in text.splitlines(keepends=True):
        strings = re.split(r'("[^"\n]*")', line)
        done, after = "", False
        for i, piece in enumerate(strings):
            if after:
                done += comment(piece)
                continue
            if i % 2:
                done += piece
                continue
            mark = re.search(r"--|//", piece) if not path.endswith(".edit") else None
            if mark:
                done += code(piece[: mark.start()]) + comment(piece[mark.start():])
                after = True
            else:
                done += code(piece)
        out.append(done)
    return "".join(out)


if __name__ == "__main__":
    main()

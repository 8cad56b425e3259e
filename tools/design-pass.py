#!/usr/bin/env python3
"""Counts, in the sources of a checkout, the places of docs/DESIGN-PASS.md: one command for each of its points.

usage: python3 tools/design-pass.py POINT [FOLDER]     (POINT: 1 to 8, or all; FOLDER: a checkout, or this one)

Each line is a place: what it is, crate::item, and what stands there. The last lines are the count of each crate and the
sum. `all` prints the sums alone. What has to be judged by reading, the page says beside the command's count.
"""
import collections
import difflib
import itertools
import os
import re
import sys

NUMBERS = ("u8", "u16", "u32", "u64", "usize")
FN = re.compile(r'^( *)(?:pub )?(?:extern "C" )?fn (\w+)')
TYPE = re.compile(r"^(?:pub )?(struct|enum) (\w+)")
IMPL = re.compile(r"^impl\b.*?(?:for )?(\w+)(?:<[^>]*>)? \{")


class Item:
    """A function or a type: its crate, its name, the comment before it, its attributes, and its text."""

    def __init__(self, crate, name, sort, before, lines):
        self.crate, self.name, self.sort = crate, name, sort
        self.comment = " ".join(x.strip()[2:].strip() for x in before if x.strip().startswith("//"))
        self.attributes = " ".join(x.strip() for x in before if x.strip().startswith("#["))
        self.text = "\n".join(lines)
        self.path = crate + "::" + name
        if sort == "fn":
            self.split(lines)

    def split(self, lines):
        """The signature, the clauses and the body."""
        indent = len(lines[0]) - len(lines[0].lstrip())
        at = next((i for i, x in enumerate(lines) if re.match(r" {%d}(requires|ensures)\b" % (indent + 4), x)), None)
        body = next((i for i, x in enumerate(lines) if x == " " * indent + "{"), None)
        if body is None:
            body = next(i for i, x in enumerate(lines) if "{" in x)
            head, rest = lines[body].split("{", 1)
            lines = lines[:body] + [head, "{" + rest] + lines[body + 1 :]
            body += 1
        self.head = " ".join(x.strip() for x in lines[: at if at is not None else body])
        self.clauses = [" ".join(c.split()) for c in clauses_of(lines[at:body] if at is not None else [])]
        self.body = code(lines[body:])
        inside = self.head[self.head.index("(") + 1 :]
        self.params = params_of(inside)
        answer = re.search(r"\) -> ([^{]*)", self.head)
        self.answer = answer.group(1).strip() if answer else "()"


def code(lines):
    return "\n".join(re.sub(r"//.*", "", x) for x in lines)


def clauses_of(lines):
    found = []
    for x in lines:
        if re.match(r" *(requires|ensures)\b", x):
            found.append(x)
        elif found:
            found[-1] += " " + x.strip()
    return found


def params_of(inside):
    """The parameters of a signature, as (name, type), from the text behind its first bracket."""
    depth, end, cuts = 0, len(inside), []
    for i, ch in enumerate(inside):
        if ch in "([<":
            depth += 1
        elif ch in ")]>" and inside[i - 1] != "-":
            depth -= 1
            if depth < 0:
                end = i
                break
        elif ch == "," and depth == 0:
            cuts.append(i)
    parts, start = [], 0
    for cut in cuts + [end]:
        parts.append(inside[start:cut].strip())
        start = cut + 1
    pairs = [p.split(":", 1) for p in parts if ":" in p]
    return [(a.replace("mut ", "").strip(), re.sub(r"'\w+ ?", "", b).strip()) for a, b in pairs]


def items_of(crate, path):
    with open(path, encoding="utf-8") as f:
        lines = f.read().split("\n")
    before, inside, i = [], None, 0
    while i < len(lines):
        line = lines[i]
        fn, kind, impl = FN.match(line), TYPE.match(line), IMPL.match(line)
        if impl:
            inside = impl.group(1)
        elif line == "}":
            inside = None
        if fn or kind:
            indent = " " * (len(fn.group(1)) if fn else 0)
            end = end_of(lines, i, indent)
            name = fn.group(2) if fn else kind.group(2)
            name = inside + "::" + name if inside and indent else name
            yield Item(crate, name, "fn" if fn else kind.group(1), before, lines[i : end + 1])
            before, i = [], end + 1
            continue
        before = before + [line] if line.strip().startswith(("//", "#[")) else []
        i += 1


def end_of(lines, i, indent):
    one = lines[i].rstrip()
    if one.endswith(";") or (one.endswith("}") and one.count("{") == one.count("}")):
        return i
    while lines[i] not in (indent + "}", indent + "};"):
        i += 1
    return i


def read(folder):
    found = []
    crates = os.path.join(folder, "crates")
    for crate in sorted(os.listdir(crates)):
        src = os.path.join(crates, crate, "src")
        for f in sorted(os.listdir(src)) if os.path.isdir(src) else []:
            for item in items_of(crate, os.path.join(src, f)):
                if f not in ("lib.rt", "main.rt"):
                    item.path = "%s::%s::%s" % (crate, f[:-3], item.name)
                found.append(item)
    return found


def functions(items):
    return [x for x in items if x.sort == "fn"]


# ---- the points

def point_1(items):
    """Enums of the shape of Option or Result, values that stand for none, flags beside a value, numbers for kinds."""
    for x in items:
        if x.sort == "enum":
            variants = re.findall(r"^    (\w+)(\(|,| \{)", x.text, re.M)
            bare = [v for v, mark in variants if mark == ","]
            if re.search(r"\(Refusal\)", x.text) and len(variants) > 1:
                yield x, "own Result", ", ".join(v for v, _ in variants)
            elif len(variants) == 2 and len(bare) == 1:
                yield x, "own Option", ", ".join(v for v, _ in variants)
        if x.sort == "struct":
            flags = re.findall(r"^    (?:pub )?(\w+): bool,", x.text, re.M)
            codes = re.findall(r"^    (?:pub )?(refused|taken|header|quorum|pause|used): u(?:64|32),", x.text, re.M)
            for name in flags + codes:
                yield x, "flag in a struct", name
        if x.sort == "fn":
            yield from point_1_function(x)


NONE = re.compile(r"where (?:none|there is none|it names none|it is unknown|nothing)|which is none|, or 0\b"
                  r"|0 where|; none where|0 for (?:a kind|any other)|256 plus")


def point_1_function(x):
    if x.answer in NUMBERS and NONE.search(x.comment):
        yield x, "a number for none", x.answer
    elif x.answer in NUMBERS and re.search(r"::Refuse", x.body) and re.search(r"=> 0,", x.body):
        yield x, "a number for none", x.answer
    if x.answer == "bool" and re.search(r"that was done|it was written|Writes out|first n bytes", x.comment):
        yield x, "a flag for a failure", "bool"
    if re.search(r"^ *1 => .*,$", x.body, re.M) and re.search(r"match (kind|c)\b", x.body):
        yield x, "numbers for kinds", re.search(r"match \w+", x.body).group(0)
    for m in re.findall(r"refusal_number\(\w+\) == \d+|if entry < 128|(?:entry|rows\[[^\]]*\]) % 128|128 \+ row",
                        x.body):
        yield x, "numbers for kinds", m


KEPT = ("let", "mut", "if", "else", "while", "for", "in", "return", "match", "as")


def tokens(body):
    """The words and marks of a body, names by the order in which they come, literals alike."""
    names, out = {}, []
    for t in re.findall(r'b?"[^"\n]*"|b\'[^\']*\'|\w+|[^\s\w]', body):
        if re.match(r'b?"|b\'|\d', t):
            out.append("0")
        elif re.match(r"\w", t) and t not in KEPT:
            out.append(names.setdefault(t, "n%d" % len(names)))
        else:
            out.append(t)
    return out


def point_2(items):
    """Twins: functions whose bodies are alike but for names, types and constants, and types of the same fields."""
    fns = [x for x in functions(items) if x.name != "main"]
    sizes = [(x, tokens(x.body)) for x in fns]
    group = {}
    for (x, a), (y, b) in itertools.combinations(sizes, 2):
        if alike(x, a, y, b):
            union(group, x, y)
    shapes = collections.defaultdict(list)
    for x in items:
        if x.sort != "fn":
            shapes[shape_of(x)].append(x)
    for same in shapes.values():
        for y in same[1:]:
            union(group, same[0], y)
    groups = collections.defaultdict(list)
    for x in group:
        groups[find(group, x)].append(x)
    for n, same in enumerate(sorted(groups.values(), key=lambda g: g[0].path), 1):
        for x in sorted(same, key=lambda x: x.path):
            yield x, "twin", "group %d of %d" % (n, len(same))


def alike(x, a, y, b):
    """Bodies that are nine tenths alike, or half where the functions have one name; short ones in one crate alone."""
    short = min(len(a), len(b)) < 16
    if short and (x.crate != y.crate or min(len(a), len(b)) < 8) and x.name != y.name:
        return False
    wanted = 0.6 if x.name == y.name else 0.9
    m = difflib.SequenceMatcher(None, a, b, autojunk=False)
    return m.real_quick_ratio() >= wanted and m.quick_ratio() >= wanted and m.ratio() >= wanted


def union(group, x, y):
    group.setdefault(x, x)
    group.setdefault(y, y)
    group[find(group, x)] = find(group, y)


def find(group, x):
    while group[x] is not x:
        x = group[x]
    return x


def shape_of(x):
    """A type's fields, as numbers, or the payloads of its variants; names count in a struct alone."""
    if x.sort == "enum":
        if "(Refusal)" not in x.text:
            return x.path
        payloads = re.findall(r"\([^)]*\)|,$", re.sub(r"\((?!Refusal)[^)]*\)", "(_)", x.text), re.M)
        return "enum " + str(sorted(payloads))
    fields = re.findall(r"^    (?:pub )?(\w+): (.*),$", x.text, re.M)
    return "struct " + str([re.sub(r"u\d+|usize", "n", t) + ("" if len(fields) > 3 else a) for a, t in fields]) \
        if fields else x.path


def loops_of(x):
    """Each `while` of a function: its test and its body."""
    lines = x.body.split("\n")
    for i, line in enumerate(lines):
        m = re.match(r"^( *)while (.*) \{$", line)
        if m:
            end = next(j for j in range(i, len(lines)) if lines[j] == m.group(1) + "}")
            yield m.group(2), "\n".join(lines[i + 1 : end])


def point_3(items):
    """Each `while`: one whose test reads a variable that the body moves by a constant counts by hand."""
    for x in functions(items):
        for test, body in loops_of(x):
            moved = [v for v in re.findall(r"[a-z]\w*", test) if re.search(r"^ *%s [+-]= \d+;" % v, body, re.M)]
            if any(re.search(r"^ *%s -= 1;" % v, body, re.M) for v in moved) and "MAX" in x.body and "0 < " in test \
                    and re.search(r"let mut %s = u64::MAX" % moved[0], x.body):
                yield x, "countdown", "while " + test
            elif moved and "&" not in test:
                yield x, "index loop", "while " + test
            else:
                yield x, "other loop", "while " + test


def point_4(items):
    """Comparisons, copies, conversions and printing by hand, and types with few derives."""
    for x in items:
        if x.sort != "fn":
            derives = re.search(r"derive\(([^)]*)\)", x.attributes)
            if not derives or "PartialEq" not in derives.group(1):
                yield x, "few derives", derives.group(0) if derives else "none"
            continue
        casts = re.findall(r"\bas (u8|u16|u32|u64|usize)\b", x.body)
        for n in casts:
            yield x, "a cast", "as " + n
        for m in re.findall(r"\w+(?:\[[^\]]*\])?\.0 (?:<|<=|==|!=) \w+(?:\[[^\]]*\])?\.0", x.body):
            yield x, "order or equality of inner numbers", m
        bytes_compared = re.findall(r"\w+\[\d+\] == (?:b'.'|\d+)", x.body)
        if len(bytes_compared) > 1:
            yield x, "bytes compared one by one", str(len(bytes_compared))
        yield from point_4_body(x)


def point_4_body(x):
    for test, body in loops_of(x):
        steps = [s.strip() for s in body.split("\n") if s.strip()]
        if len(steps) == 2 and re.match(r"\w+\[[^\]]*\] = \w+\[[^\]]*\];$", steps[0]):
            yield x, "a copy by hand", steps[0]
        elif len(steps) == 2 and re.match(r"\w+\[[^\]]*\] = \w+;$", steps[0]):
            yield x, "a fill by hand", steps[0]
        elif len(steps) == 2 and re.search(r"\[.*\] == \w+\[", steps[0]):
            yield x, "an equality by hand", steps[0]
        elif re.search(r"% 256|\* 256|/ 256", body):
            yield x, "a conversion by hand", "bytes of a number"
    for m in re.findall(r"^ *let \w+ = (\w+(?:\.\w+)+);$", x.body, re.M):
        yield x, "a field copied out first", m
    arms = re.findall(r"^ *\w+::\w+(?:\(\w*\))? => ", x.body, re.M)
    if len(arms) > 1 and (x.answer in NUMBERS[:4] or re.search(r'=> \{?\s*(?:return )?(?:put|say\w*)\(.*b"', x.body)):
        yield x, "a conversion or printing by a match", str(len(arms)) + " arms"
    if re.search(r"if \w+(?:\.\w+)? < \w+ \{\s*return \w+;\s*\}\s*\w+\s*\}$", x.body) \
            or re.search(r"if (\w+) < (\w+) \{ \1 \} else \{ \2 \}", x.body):
        yield x, "min or max by hand", ""
    for m in sorted(set(re.findall(r"(\w+): (\w+)\.\1\b", x.body))):
        if len(re.findall(r"\w+: %s\.\w+" % m[1], x.body)) > 2:
            yield x, "a struct rebuilt field by field", m[1] + "." + m[0]


def facts_of(clause):
    """The facts of a requires, each without the brackets around it."""
    inside = clause[clause.index("{") + 1 : clause.rindex("}")]
    depth, part, parts = 0, "", []
    for ch in inside:
        depth += (ch in "([") - (ch in ")]")
        if ch == "×" and depth == 0:
            parts.append(part)
            part = ""
        else:
            part += ch
    for p in parts + [part]:
        p = p.strip()
        yield p[1:-1] if p.startswith("(") and p.endswith(")") and "(" not in p[1:-1] else p


def point_5(items):
    """Three parameters or more that go together through 3 functions or more, and facts that 3 functions or more ask."""
    sets = collections.defaultdict(set)
    for x in functions(items):
        names = sorted("%s: %s" % p for p in x.params if p[1] != "HostRuntime")
        for size in range(3, len(names) + 1):
            for few in itertools.combinations(names, size) if len(names) < 13 else []:
                sets[few].add(x)
    groups = [(k, v) for k, v in sets.items() if len(v) >= 3]
    for few, users in groups:
        if not any(set(few) < set(k) and users <= v for k, v in groups):
            yield min(users, key=lambda x: x.path), "parameters that go together", "%d functions: %s" % (
                len(users), ", ".join(few))
    facts = collections.defaultdict(set)
    for x in functions(items):
        for clause in x.clauses:
            if clause.startswith("requires"):
                for fact in facts_of(clause):
                    facts[fact].add(x)
    for fact, users in facts.items():
        if len(users) >= 3:
            yield min(users, key=lambda x: x.path), "a fact asked", "%d functions: %s" % (len(users), fact)


def point_6(items):
    """Buffers with a length or an offset beside, arrays by value, parallel arrays, chains of indices."""
    for x in items:
        if x.sort == "struct":
            arrays = re.findall(r"^    (?:pub )?(\w+): \[.*?; (\w+)\],", x.text, re.M)
            sizes = collections.Counter(n for _, n in arrays)
            for n, many in sizes.items():
                if many > 1:
                    yield x, "parallel arrays", ", ".join(a for a, m in arrays if m == n)
            chain = [a for a, _ in arrays if re.match(r"(heads?|nexts?)$", a)]
            if chain:
                yield x, "chains of indices", ", ".join(chain)
            if arrays and re.search(r"^    (?:pub )?(count|have|places): usize", x.text, re.M):
                yield x, "an array with a count beside", ", ".join(a for a, _ in arrays)
        if x.sort == "fn":
            yield from point_6_function(x)


def point_6_function(x):
    asked = " ".join(c for c in x.clauses if c.startswith("requires"))
    numbers = [a for a, t in x.params if t == "usize"]
    for a, t in x.params:
        if re.match(r"\[(Place|Height|u16|u32|bool|Conduct); ", t):
            yield x, "an array by value", "%s: %s" % (a, t)
        if t in ("Witness", "Analysis", "Kept", "Charges", "RowData", "Log", "Turn"):
            yield x, "a large struct by value", "%s: %s" % (a, t)
        if re.match(r"&(mut )?\[", t):
            for n in numbers:
                if re.search(r"%s ≤ length %s\.(now|old)" % (n, a), asked):
                    yield x, "a slice with a length beside", "%s, %s" % (a, n)
                elif re.search(r"%s \+ .*? ≤ length %s\.(now|old)" % (n, a), asked):
                    yield x, "a slice with an offset beside", "%s, %s" % (a, n)


def point_7(items):
    """A number, a flag or an enum of the code's own that says which step to run."""
    for x in functions(items):
        for a, t in x.params:
            if t == "bool":
                yield x, "a flag that chooses", a
        for m in re.findall(r"match (kind|q|c|which)\b", x.body):
            yield x, "a number that chooses", m


def proofs_of(folder):
    crates = os.path.join(folder, "crates")
    for crate in sorted(os.listdir(crates)):
        for place, dirs, files in os.walk(os.path.join(crates, crate, "proofs")):
            dirs.sort()
            for f in sorted(files):
                if f.endswith(".antt"):
                    with open(os.path.join(place, f), encoding="utf-8") as g:
                        name = os.path.relpath(os.path.join(place, f), os.path.join(crates, crate, "proofs"))
                        yield crate, name[:-5], g.read()


class Place:
    def __init__(self, crate, name):
        self.crate, self.path = crate, crate + "::" + name


def lemmas_of(plain):
    """The lemmas of a file, at its edge or in a module: name and statement."""
    block = ""
    for m in re.finditer(r"^(\S.*$)|^(?:  )(?! ).*$", plain, re.M):
        block = m.group(1) or block
        line = m.group(0)
        if m.group(1) or block.startswith("module"):
            name = re.match(r" *(?:pub )?([^\s:(){}.;]+)((?: [({][^:]*)*) : ", line)
            if name and name.group(1) not in ("use", "record", "data", "abbrev", "unfoldable"):
                end = re.search(r"^ *(?:unfolding|%s) " % re.escape(name.group(1)), plain[m.end() :], re.M)
                text = plain[m.start() : m.end() + (end.start() if end else 0)]
                yield name.group(1), " ".join(text.split(" : ", 1)[1].split())


def unused_of(plain):
    """Imports and `let`s that no line names. A tactic may use such a `let`: that it does not, only a check shows."""
    rest = re.sub(r"^use .*\{[^}]*\}$", "", plain, flags=re.M)
    words = collections.Counter(re.findall(r"[^\s(){}\[\].;,]+", rest))
    for names in re.findall(r"^use .*\{([^}]*)\}$", plain, re.M):
        for n in [n.split(" as ")[-1].strip() for n in names.split(", ")]:
            if "◌" not in n and n != "[]" and not words[n]:
                yield "an import that no line names", n
    for n in re.findall(r"\blet (\w[\w-]*)(?: :[^=]*)? =", rest):
        if words[n] < 2:
            yield "a let that no line names", n


def point_8(folder):
    """Answers to goals; lemmas that two files state alike; `let`s and imports that no line names."""
    lemmas = collections.defaultdict(list)
    for crate, name, text in proofs_of(folder):
        plain = re.sub(r"--.*", "", text)
        for answer in re.findall(r"^pub (\S+) : goal\.", plain, re.M):
            yield Place(crate, name), "an answer", answer
        if "/" not in name:
            for lemma, statement in lemmas_of(plain):
                lemmas[statement].append((crate, name, lemma))
        for what, n in unused_of(plain):
            yield Place(crate, name), what, n
    for statement, said in sorted(lemmas.items()):
        if len({(crate, name) for crate, name, _ in said}) > 1 and len(statement) > 24:
            for crate, name, lemma in said:
                yield Place(crate, name), "a lemma said twice", lemma + " : " + statement[:90]


def places(point, folder):
    if point == 8:
        return list(point_8(folder))
    return list(globals()["point_%d" % point](read(folder)))


def main():
    if len(sys.argv) < 2:
        sys.exit(__doc__)
    folder = sys.argv[2] if len(sys.argv) > 2 else os.path.join(os.path.dirname(os.path.abspath(__file__)), "..")
    points = range(1, 9) if sys.argv[1] == "all" else [int(sys.argv[1])]
    for point in points:
        found = places(point, folder)
        if sys.argv[1] != "all":
            for x, what, more in found:
                print("%s | %s | %s" % (what, x.path, more))
            print("by crate: " + ", ".join("%s %d" % c for c in sorted(collections.Counter(
                x.crate for x, _, _ in found).items())))
        sorts = collections.Counter(what for _, what, _ in found)
        print("point %d: %d (%s)" % (point, len(found), ", ".join("%s %d" % s for s in sorts.most_common())))


if __name__ == "__main__":
    main()

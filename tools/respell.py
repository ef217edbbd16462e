#!/usr/bin/env python3
"""Brings the names that this repository's specs and proofs declare to one spelling.

usage: tools/respell.py [--check]

Facts and types get upper camel case, everything else snake case. A lemma keeps a dash where the dash joins
`length` or `map` to a name that is defined, as in `length-written`. Names that Rattle makes (goals, invariants, measures and
what stands behind `c.`, `l.`, `w.` and `goal.`) and names of libraries stay. Only .antt files, and the ghost
text of .rt files, are turned. --check writes nothing and prints each name with its new spelling; names that
would meet another one are printed in both cases, on a line that begins with 'meets'.
"""
import glob
import re
import sys

WORD = re.compile(r'[^\s(){}.;,@"«»]+')
DECLARED = re.compile(r"^(\s*)((?:pub |abbrev |unfoldable |record |data )*)([^\s:(){}]+)\s*(?:[({].*[)}])?\s*:\s(.*)$")
BINDER = re.compile(r"[({]((?:[^\s(){}:]+\s+)*[^\s(){}:]+)\s*:\s|λ\s+((?:[^\s(){}.]+\s*)+)\.|\blet ([^\s:=]+) [:=]|\[ ([^\]]*) ↦")
MADE = ("invariant-", "decreases-", "ghost-", "returns", "loop-", "overflow_", "bounds-")
HEADS = re.compile(r"(?:^|[^\w'.])(?:goal|c|l|w|g)\.$")
# a record of walk that would meet the one of grammar
SPELLED = {"One-rule": "HasOneRule"}
GHOST = re.compile(r"ghost use[^;]*;|(?:ghost|requires|ensures|invariant)\b[^{;]*\{")


def antt_files():
    return sorted(glob.glob("crates/*/specs/*.antt") + glob.glob("crates/*/proofs/**/*.antt", recursive=True))


def rt_files():
    return sorted(glob.glob("crates/*/src/**/*.rt", recursive=True))


def read(path):
    with open(path, encoding="utf-8") as f:
        return f.read()


def code_of(line):
    at = re.search(r"(?:^|\s)--(?:\s|$)", line)
    return (line[: at.start()], line[at.start() :]) if at else (line, "")


def imported(files):
    names = set()
    for path in files:
        for m in re.finditer(r"\buse (\S+?)\.\{([^}]*)\}", read(path)):
            outside = not re.match(r"Rattle\.(?!std\b)", m[1])
            goals = ".Goals" in m[1] or ".Given" in m[1]
            if outside or goals:
                for item in m[2].split(","):
                    names.update(w.strip() for w in item.split(" as ")[:1])
    return names


def declared(files):
    """Each declared name with a dash, and whether it is a lemma; every declared name that is no lemma."""
    lemmas, others, bound = set(), set(), set()
    for path in files:
        for line in read(path).split("\n"):
            code = code_of(line)[0]
            m = DECLARED.match(code)
            if m and "goal." not in m[4] and not m[3].startswith(MADE):
                is_lemma = not re.search("abbrev|unfoldable|record|data", m[2])
                (lemmas if is_lemma else others).add(m[3])
            if not m:
                m = re.match(r"^\s*(?:pub |abbrev |unfoldable )*(?:record|data) (?:pub )?([^\s:(){}]+)", code)
                if m:
                    others.add(m[1])
            for b in BINDER.finditer(code):
                bound.update((b[1] or b[2] or b[3] or b[4] or "").split())
    return lemmas, others, bound


def camel(name):
    return "".join(p[:1].upper() + p[1:] for p in name.split("-"))


def joined(name, known):
    """A lemma on the length, or on the map, of what a defined function gives."""
    head, rest = name.split("-", 1)
    rest = rest.replace("-", "_")
    return f"{head}-{rest}" if head in ("length", "map") and rest in known else None


def spelling():
    files = antt_files()
    lemmas, others, bound = declared(files)
    libraries = imported(files + rt_files())
    known = {w.replace("-", "_") for w in others} | {w for w in libraries if "-" not in w}
    table = {}
    for name in lemmas | others | bound:
        bare = name.rstrip("'")
        if "-" not in name or name in libraries or not re.fullmatch(r"[A-Za-z0-9_-]+", bare) or bare.startswith(MADE):
            continue
        if name in SPELLED:
            table[name] = SPELLED[name]
        elif name[0].isupper():
            table[name] = camel(name)
        elif name in others:
            table[name] = name.replace("-", "_")
        else:
            table[name] = (joined(name, known) if name in lemmas else None) or name.replace("-", "_")
    return {a: b for a, b in table.items() if a != b}


def turn(text, table):
    def one(m):
        if m[0] not in table or HEADS.search(text[: m.start()][-8:]):
            return m[0]
        return table[m[0]]

    return WORD.sub(one, text)


def turn_antt(text, table):
    # an import of names that Rattle makes stays as it is
    kept = re.split(r"(\buse \S+\.(?:Goals|Given)\.\{[^}]*\})", text)
    return "".join(t if i % 2 else turn(t, table) for i, t in enumerate(kept))


def turn_rt(text, table):
    out, at = [], 0
    for m in GHOST.finditer(text):
        if m.start() < at:
            continue
        end = m.end()
        if m[0].endswith("{"):
            depth = 1
            while depth and end < len(text):
                depth += {"{": 1, "}": -1}.get(text[end], 0)
                end += 1
        out += [text[at : m.start()], turn(text[m.start() : end], table)]
        at = end
    return "".join(out) + text[at:]


def meets(table):
    for path in antt_files() + rt_files():
        words = set(WORD.findall(read(path)))
        for old in sorted(words & table.keys()):
            if table[old] in words:
                print(f"meets: {path}: {old} and {table[old]}")
    back = {}
    for old, new in sorted(table.items()):
        if back.setdefault(new, old) != old:
            print(f"meets: {old} and {back[new]} as {new}")


def main():
    table = spelling()
    if "--check" in sys.argv:
        for old, new in sorted(table.items()):
            print(f"{old}\t{new}")
    meets(table)
    if "--check" not in sys.argv:
        for path in antt_files() + rt_files():
            text = read(path)
            new = turn_antt(text, table) if path.endswith(".antt") else turn_rt(text, table)
            if new != text:
                with open(path, "w", encoding="utf-8") as f:
                    f.write(new)


main()

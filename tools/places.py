#!/usr/bin/env python3
"""Counts the places of docs/DESIGN-PASS.md: places.py [COMMIT], in a checkout; without COMMIT, the files as they are.

Tests are left out. A line `name: count` stands above the places that were found.
"""
import difflib
import re
import subprocess
import sys

PATTERNS = {
    "1.1 functions whose number says nothing": r"^\s*pub fn [a-z_]+(<V>)?\(\) -> u8$",
    "1.2 numbers that stand for kinds, letters or none": r"const (?!MOST|LONGEST|LAST|LIMIT|GREATEST\b)[A-Z_]+: u(8|16) = (\d|b'|0x)",
    "1.3 numbers decoded to kinds": r"^\s+([1-9]|\(SymbolKind::\w+, \d\)( if .*)?) => (Some|Ok)\(\w+::",
    "1.4 options and results built again by hand": r"^\s+(Some|Ok|Err)\(\w+\) => ((None|Some|Ok|Err)\b|break '\w+ Some)|^\s+if let Err\(fault\) = ",
    "1.5 flags that a value follows": r"if !is_sized\(",
    "1.6 zero for none": r"(?<![.\w])(number|n|word|index|production|position|attribute|pass|\S*slots\S*) (==|!=) 0\b",
    "3.1 loops over a range": r"\bfor \w+ in \w+\.\.",
    "3.2 elements by a counted index": r"\.enumerate\(\)",
    "3.3 chains followed by a holder and an index": r"\.follow\(\w+, \w*holder, \w*index\)",
    "4.1 tests, conversions and printing as functions": r"\bfn (is_(given|letter|defined|inner|inside|sized)|opposite|direction_of|symbol_kind|attribute_kind|word_at|record_at|slot_of|place_number|last_digit|show_\w+|number|place|value)\(",
    "4.2 impls of conversions and printing": r"^impl.* (From<.*>|fmt::Display) for ",
    "6.2 arrays of a fixed length as fields and types": r"^\s*(pub(\(crate\))? )?(type \w+ = |\w+: )\[[a-zA-Z]\w*; [A-Z_]+\][;,]$",
    "6.3 nodes and rules named by index": r"^\s+(pub )?(first_child|next_brother|next|slots|first): \S.*,$",
    "7.1 matches that choose a step": r"\bmatch (operation|direction|case\.kind|kind) \{",
}


def files(commit):
    listed = ["git", "ls-tree", "-r", "--name-only", commit] if commit else ["git", "ls-files", "-co", "--exclude-standard"]
    names = subprocess.run(listed, capture_output=True, text=True, check=True).stdout.split("\n")
    for name in names:
        if re.fullmatch(r"crates/\w+/src/.*\.rt", name) and not name.endswith("tests.rt"):
            if commit:
                text = subprocess.run(["git", "show", f"{commit}:{name}"], capture_output=True, text=True, check=True).stdout
            else:
                text = open(name).read()
            yield name, text


def facts(text):
    """The facts that functions require, one for each part of a product."""
    for clause in re.finditer(r"requires (?:\w+ )?\{ (.*) \}", text):
        for part in clause.group(1).split(" × "):
            fact = re.sub(r"\.(now|old|items)\b", "", part.strip("() "))
            fact = re.sub(r"^(vec_len|length) (\w+\.)*(\w+) ", r"length of \3 ", fact)
            yield re.sub(r"^([A-Z]\w+) \w+$", r"\1", fact)


def counted_arrays(text):
    """Structs that have a fixed array and a count of how much of it is used."""
    for found in re.finditer(r"struct (\w+)[^{;]*\{(.*?)\n\}", text, re.S):
        if re.search(r": \[[^\]]+; [A-Z_]+\],", found.group(2)) and re.search(r"\b(count|length|planned|len|written): u", found.group(2)):
            yield found.group(1)


def bodies(text):
    """Each function's name, and its body as a list of tokens in which all names are one, and all numbers."""
    for found in re.finditer(r"\bfn (\w+)", text):
        depth, start, end = 0, None, found.end()
        for end in range(found.end(), len(text)):
            if text[end] == "{" and start is None and not re.search(r"(requires|ensures)\b[^\n{]*$", text[:end]):
                start = end
            depth += {"{": 1, "}": -1}.get(text[end], 0)
            if (start is not None and depth == 0) or (text[end] == ";" and start is None and depth == 0):
                break
        if start is not None:
            words = re.findall(r"[A-Za-z_]\w*|\d\w*|[^\s\w]", text[start:end])
            yield found.group(1), ["name" if re.match(r"[A-Za-z_]", w) else "1" if w[0].isdigit() else w for w in words]


def alike(all_bodies):
    """The pairs of functions, of twenty tokens at least, of which nine in ten are the same in the same order."""
    for i, (first, a) in enumerate(all_bodies):
        for second, b in all_bodies[i + 1 :]:
            if min(len(a), len(b)) >= 20 and difflib.SequenceMatcher(None, a, b, autojunk=False).ratio() >= 0.9:
                yield f"{first}, {second}"


def signatures(text):
    for found in re.finditer(r"fn (\w+)(?:<[^(]*>)?\(([^)]*)\)", text):
        parameters = {p.strip() for p in found.group(2).replace("\n", " ").split(",") if p.strip()}
        yield found.group(1), {p for p in parameters if not p.endswith("self")}


def grouped(all_signatures):
    """The largest groups of two or more parameters that three or more functions have, with those functions."""
    groups = {}
    for _, first in all_signatures:
        for _, second in all_signatures:
            common = frozenset(first & second)
            if len(common) >= 2:
                groups[common] = sorted(name for name, parameters in all_signatures if common <= parameters)
    groups = {group: names for group, names in groups.items() if len(names) >= 3}
    return {g: n for g, n in groups.items() if not any(g < other and n == groups[other] for other in groups)}


def report(name, places):
    print(f"{name}: {len(places)}")
    for place in places:
        print(f"    {place}")


def main():
    sources = list(files(sys.argv[1] if len(sys.argv) > 1 else None))
    for name, pattern in PATTERNS.items():
        places = []
        for path, text in sources:
            for number, line in enumerate(text.split("\n"), 1):
                if re.search(pattern, line):
                    places.append(f"{path}:{number}: {line.strip()}")
        report(name, places)
    report("6.1 arrays with a length beside", [f"{path}: {name}" for path, text in sources for name in counted_arrays(text)])
    named = [(f"{path}: {name}", body) for path, text in sources for name, body in bodies(text)]
    report("2.1 pairs of functions that are alike but for names and numbers", list(alike(named)))
    required = {}
    for path, text in sources:
        for fact in facts(text):
            required.setdefault(fact, []).append(path)
    report("5.1 facts that are required three times or more", [f"{fact}: {len(p)}" for fact, p in required.items() if len(p) >= 3])
    groups = grouped([s for _, text in sources for s in signatures(text)])
    report("5.2 parameters that three or more functions have together", [f"{', '.join(sorted(g))}: {', '.join(n)}" for g, n in groups.items()])


main()

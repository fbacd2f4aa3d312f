#!/usr/bin/env python3
"""Lists the places in src/ where an older form may stand, for docs/DESIGN-PASS.md.

    python3 tools/places.py [FOLDER]

FOLDER holds crates/ (this repository, or another commit of it); without one it is the folder above this file's.
A line that is listed is one to look at: not each is a place, and the page says of each place whether it changed
or why it stays.
"""
import glob
import itertools
import os
import re
import sys

# The lines that each point looks for.
LINES = {
    "1 a number that stands for a kind, turned by hand": r"^\s*(_|\d+) => .*(Some\(|None|\d,)|^\s*\d+ => |=> \d+,$",
    "1 an arm that hands an Option or a Result on": r"^\s*(Some\(\w+\)|None|Ok\(\w*\)|Ok\(\(\)\)|Err\(\w+\)) => (Some|None|Ok|Err|return Err|true|false|\d+|\{\},?$|\w+,$)",
    "1 a test that answers its own answer": r"\{ true \} else \{ false \}|if \w+ \{ 1 \} else \{ 0 \}",
    "1 an enum": r"^\s*(pub(\(\w+\))? )?enum ",
    "3 a loop": r"^\s*(for|while|loop)\b",
    "4 bytes put together by hand": r"\* 256",
    "4 a cast": r"\bas (u8|u16|u32|usize)\b",
    "4 a comparison or a conversion as a function of its own": r"fn (same\w*|is|\w+_of|\w+_named|number\w*|answer|flag|run|digit|put_\w+|report)\(",
    "6 an array of fixed size": r"\[[A-Za-z]\w*(\([^)]*\))?; ?\w+\]",
    "6 a length beside, or a place in a slice": r"^\s*(pub(\(\w+\))? )?(len|count|written|length|at|from|to|end|seen): &?(mut )?(usize|u8)",
    "7 a switch on which step to run": r"match (self\.stage|rule|model|call|step|byte|number)\b",
}


def sources(top):
    for path in sorted(glob.glob(os.path.join(top, "crates", "*", "src", "**", "*.rt"), recursive=True)):
        yield os.path.relpath(path, top), open(path).read()


def functions(text):
    """(name, parameters, clauses, body, line) of each function with a body."""
    for m in re.finditer(r"^( *)(?:pub(?:\([^)]*\))? )?(?:extern \"C\" )?fn (\w+)", text, re.M):
        indent = m.group(1)
        end = text.find("\n" + indent + "}", m.end())
        empty = text.find("{}", m.end(), m.end() + 600)
        stop = end if end >= 0 else empty
        if stop < 0:
            continue
        whole = text[m.start():stop]
        head, brace, body = whole.partition("\n" + indent + "{\n")
        if not brace:
            head, brace, body = whole.partition(" {\n")
        params = re.search(r"\((.*?)\)(?: ->|\n|$| \{)", head[m.end() - m.start():], re.S)
        names = re.findall(r"(\w+): ", params.group(1)) if params else []
        clauses = re.findall(r"(?:requires|ensures\*?)\s*(?:\w+ )?\{(.*)\}\s*$", head, re.M)
        yield m.group(2), names, [c.strip() for c in clauses], body, text.count("\n", 0, m.start()) + 1


def shape(body):
    """The body with names and numbers left out."""
    body = re.sub(r"//.*", "", body)
    return re.sub(r"\s+", "", re.sub(r"\w+", "w", body))


def twins(top):
    groups = {}
    for path, text in sources(top):
        for name, _, _, body, line in functions(text):
            s = shape(body)
            if len(s) > 24:
                groups.setdefault(s, []).append(f"{path}:{line} {name}")
    for places in groups.values():
        if len(places) > 1:
            yield "; ".join(places)


def wrapped(top):
    for path, text in sources(top):
        for name, names, _, body, line in functions(text):
            call = re.fullmatch(r"\s*(?:self\.)?(\w+)\(([\w, &]*)\)\s*", body)
            if call and re.search(rf"\n *fn {call.group(1)}\b", text) and name != "call_once":
                yield f"{path}:{line} {name} only calls {call.group(1)}"


def travelling(top):
    groups = {}
    for path, text in sources(top):
        for name, names, _, _, line in functions(text):
            for some in itertools.combinations(sorted(set(names)), 3):
                groups.setdefault((path.split(os.sep)[1], some), []).append(f"{path}:{line} {name}")
    best = {}
    for (crate, some), places in groups.items():
        if len(places) > 2:
            key = (crate, tuple(places))
            best[key] = best.get(key, ()) + some
    for (crate, places), some in sorted(best.items()):
        yield f"{', '.join(sorted(set(some)))} in {len(places)} functions of {crate}: " + "; ".join(p.split()[-1] for p in places)


def repeated(top):
    groups = {}
    for path, text in sources(top):
        for name, _, clauses, _, line in functions(text):
            for clause in clauses:
                groups.setdefault((path.split(os.sep)[1], clause), []).append(name)
    for (crate, clause), names in sorted(groups.items()):
        if len(names) > 2:
            yield f"{crate}: {clause} in " + ", ".join(names)


def main():
    top = sys.argv[1] if len(sys.argv) > 1 else os.path.dirname(os.path.dirname(os.path.abspath(__file__)))
    lists = {}
    for title, pattern in LINES.items():
        lists[title] = []
        for path, text in sources(top):
            for at, line in enumerate(text.split("\n"), 1):
                bare = line.split("//")[0]
                if "ghost use" in bare or re.match(r"\s*(requires|ensures|ghost)\b", bare):
                    continue
                if re.search(pattern, bare):
                    lists[title].append(f"{path}:{at} {line.strip()}")
    lists["2 functions of one shape"] = list(twins(top))
    lists["2 a function that only calls another of its file"] = list(wrapped(top))
    lists["5 parameters that travel together"] = list(travelling(top))
    lists["5 a clause in three functions or more"] = list(repeated(top))
    for title in sorted(lists):
        print(f"## {title}: {len(lists[title])}")
        for place in lists[title]:
            print("   ", place)


main()

#!/usr/bin/env python3
"""Lists places in crates/*/src that the points of docs/DESIGN-PASS.md speak of.

usage: places.py [-c COMMIT] [POINT..]    at the top; points are enums flags numbers twins loops conversions
                                          facts together buffers switches; with no point only the counts

A place is 'file:line what'. A line '// Stays as it is: ..' right above marks one that is kept.
"""

import collections
import io
import re
import subprocess
import sys
import tarfile

MARK = "// Stays as it is:"


def sources(commit):
    """The files of src/ by name, as they lie here or as a commit has them."""
    if commit is None:
        names = subprocess.run(["git", "ls-files", "crates/*/src/*.rt"], capture_output=True, text=True).stdout.split()
        found = {}
        for name in names:
            with open(name, encoding="utf-8") as it:
                found[name] = it.read()
        return found
    packed = subprocess.run(["git", "archive", commit, "crates"], capture_output=True).stdout
    with tarfile.open(fileobj=io.BytesIO(packed)) as all_of_it:
        return {
            one.name: all_of_it.extractfile(one).read().decode()
            for one in all_of_it.getmembers()
            if re.fullmatch(r"crates/[^/]+/src/.*\.rt", one.name)
        }


def top_level(text):
    """What a comma divides at the top level."""
    parts, deep, part = [], 0, ""
    for ch in text:
        deep += (ch in "([{<") - (ch in ")]}>")
        if ch == "," and not deep:
            parts.append(" ".join(part.split()))
            part = ""
        else:
            part += ch
    return [it for it in parts + [" ".join(part.split())] if it]


def bare(text):
    """A source without its comments, line for line."""
    return re.sub(r"//[^\n]*", "", text)


def items(text, word):
    """The structs or enums of a file: line, name, what stands inside."""
    for it in re.finditer(r"^(?:pub )?%s (\w+)[^{;\n]*\{(.*?)^\}" % word, text, re.M | re.S):
        yield text[: it.start()].count("\n") + 1, it.group(1), top_level(it.group(2))


def functions(text):
    """The functions of a file: line, name, parameters, clauses, body."""
    for it in re.finditer(r"^( *)(?:pub )?fn (\w+)(?:<[^(]*>)?\(([^{]*?)\)( ->[^{]*?)?((?:\s*(?:requires|ensures|where)[^\n]*\n)*)\s*\{\n(.*?)^\1\}$", text, re.M | re.S):
        clauses = re.findall(r"(requires|ensures)(?: \w+)? \{ (.*) \}$", it.group(5), re.M)
        yield text[: it.start()].count("\n") + 1, it.group(2), top_level(it.group(3)), clauses, it.group(6)


def enums(files):
    for name, text in files.items():
        for line, enum, variants in items(bare(text), "enum"):
            plain = [v for v in variants if re.fullmatch(r"\w+", v)]
            if len(variants) == 2 and len(plain) == 1:
                yield f"{name}:{line} option {enum}: {' | '.join(variants)}"
            elif 0 < len(plain) < len(variants):
                yield f"{name}:{line} result? {enum}: {' | '.join(variants)}"
            elif len(variants) == 2 and not plain:
                yield f"{name}:{line} either {enum}: {' | '.join(variants)}"


def flags(files):
    known = {enum for text in files.values() for _, enum, vs in items(bare(text), "enum") if all(re.fullmatch(r"\w+", v) for v in vs)}
    for name, text in files.items():
        for line, struct, fields in items(bare(text), "struct"):
            kinds = [f.split(":")[-1].strip() for f in fields]
            for field, kind in zip(fields, kinds):
                if kind == "bool" or (kind in known and re.search(r"\b(how|went|judged|came|pass|status|verdict|goes|reach)\b", field)):
                    yield f"{name}:{line} {struct}.{field}"


def numbers(files):
    for name, text in files.items():
        for number, line in enumerate(bare(text).split("\n"), 1):
            if re.search(r"\b(kind|refusal|code|number|why|status|verdict)\w*: (u8|u16|i32)\b|Refused\(u8\)|Fault\(u64, u8\)|Record\(u64, u8\)|Trace\(u8\)", line):
                yield f"{name}:{number} {line.strip()}"


def twins(files):
    seen = collections.defaultdict(list)
    for name, text in files.items():
        for line, function, parameters, _, body in functions(bare(text)):
            same = re.sub(r"\b(\d[\w]*|0x\w+|[ui](8|16|32|64|size)|[A-Z]\w*)\b", "_", " ".join(parameters) + body)
            same = " ".join(same.replace(function, "_").split())
            if len(same) > 60:
                seen[same].append(f"{name}:{line} {function}")
    for places in seen.values():
        if len(places) > 1:
            yield from (f"{it} (1 of {len(places)}: {places[0]})" for it in places)


def loops(files):
    for name, text in files.items():
        for number, line in enumerate(bare(text).split("\n"), 1):
            if re.match(r"\s*('\w+: )?(while |loop \{)", line):
                yield f"{name}:{number} {line.strip()}"


def conversions(files):
    arm = re.compile(r"[\w:]+(\([^()]*\)| \{[^{}]*\})? => [\w:]+(\([\w, ]*\))?,")
    for name, text in files.items():
        for line, function, parameters, _, body in functions(bare(text)):
            rows = [row.strip() for row in body.strip().split("\n")]
            matches = len(rows) > 3 and re.fullmatch(r"match [\w.]+ \{", rows[0]) and rows[-1] == "}"
            if matches and all(arm.fullmatch(row) for row in rows[1:-2]):
                yield f"{name}:{line} {function}({', '.join(parameters)})"
            elif re.match(r"(is_)?(same|equal|alike|eq)\w*$|less|before_or", function):
                yield f"{name}:{line} {function}({', '.join(parameters)})"


def facts(files):
    seen = collections.defaultdict(list)
    for name, text in files.items():
        for line, function, _, clauses, _ in functions(bare(text)):
            for kind, clause in clauses:
                if kind == "requires":
                    for fact in re.split(r" × ", clause):
                        seen[fact.strip("() ")].append(f"{name}:{line} {function}")
    for fact, places in seen.items():
        if len(places) > 2:
            yield f"{places[0]} and {len(places) - 1} more: {fact}"


def together(files):
    seen = collections.defaultdict(list)
    for name, text in files.items():
        for line, function, parameters, _, _ in functions(bare(text)):
            ps = [p for p in parameters if ":" in p and not p.startswith("rt:")]
            for k in range(len(ps) - 1):
                for n in (2, 3, 4):
                    if k + n <= len(ps):
                        seen[(name.split("/")[1], tuple(ps[k : k + n]))].append(f"{name}:{line} {function}")
    for (crate, row), places in seen.items():
        longer = any(c == crate and len(r) > len(row) and set(row) < set(r) and len(p) == len(places) for (c, r), p in seen.items())
        if len(places) > 3 and not longer:
            yield f"{crate}: {len(places)} functions take ({', '.join(row)})"


def buffers(files):
    for name, text in files.items():
        for line, struct, fields in items(bare(text), "struct"):
            arrays = [f for f in fields if re.search(r": \[.*; *\w+\]", f)]
            counts = [f for f in fields if re.search(r"\b(count|len|length|filled|have|kept|number|n|used|at|to): (usize|u8|u16|u32|u64)", f)]
            if arrays and counts or len(arrays) > 1:
                yield f"{name}:{line} {struct}: {', '.join(arrays + counts)}"
        for line, function, parameters, _, _ in functions(bare(text)):
            if re.search(r"&(mut )?\[\w+(; \w+)?\], (at|count|n|len|length|bytes|filled|have|to): usize", ", ".join(parameters)):
                yield f"{name}:{line} {function}({', '.join(parameters)})"


def switches(files):
    for name, text in files.items():
        for line, function, parameters, _, _ in functions(bare(text)):
            for p in parameters:
                if p.endswith(": bool"):
                    yield f"{name}:{line} {function}({p})"


def main():
    rest = sys.argv[1:]
    commit = None
    if rest[:1] == ["-c"]:
        commit, rest = rest[1], rest[2:]
    files = sources(commit)
    points = [enums, flags, numbers, twins, loops, conversions, facts, together, buffers, switches]
    for point in points:
        places = list(point(files))
        print(f"{point.__name__}: {len(places)}")
        if point.__name__ in rest:
            print("\n".join("  " + it for it in places))
    kept = sum(text.count(MARK) for text in files.values())
    print(f"lines '{MARK}': {kept}")


main()

#!/usr/bin/env python3
"""Spells the repository's own definitions, lemmas and fields in snake case: words with capitals
inside and words with hyphens become words with underscores. Types and modules keep their capitals.
Run once, at the top, right after the kit's port.py.

It goes by text. The names that are turned are those that a file of specs/ or proofs/ declares (but
for Proof.antt, whose names follow the code). Where two names of one file would fall together, the
one with hyphens, a lemma, gets '_law' behind it; where a definition would meet a parameter or a
name of the library, it gets '_meant'. A file specs/Contracts.antt, whose name Rattle now takes for
itself, becomes ByContract.antt. Code, strings, inputs and outputs stay.
"""

import collections
import os
import re
import sys

NAME = r"[^\s(){}.;,@\"«»`]+"
DECLARED = re.compile(r"(?m)^ *(?:(?:pub|abbrev|unfoldable|private|opaque|inline)\s+)*(" + NAME + r"(?: " + NAME + r")*)(?: (?:\{[^{}\n]*\}|\([^()\n]*\)))* :(?=\s)")
INNER = re.compile(r" as (" + NAME + r")(?=[,}])")
ALIAS = re.compile(r"(?m)^use [^\n]* as (" + NAME + r")$")
USE = re.compile(r"(?m)^(?:ghost )?use ([A-Za-z][^\s{;]*?)\.?(?:\{([^}]*)\})?(?: as (" + NAME + r"))?;?$")
CLAUSE = re.compile(r"\b(?:requires|ensures)\*?(?: \w+)? \{|^ghost use |\bghost \w+: \{", re.M)
WORD = re.compile(NAME)


def snake(name):
    return re.sub(r"(?<=[a-z0-9])[A-Z]", lambda m: "_" + m[0].lower(), name).replace("-", "_")


def is_turned(name):
    return name[0].islower() and snake(name) != name


def files(top, endings):
    for folder, dirs, names in os.walk(top):
        dirs[:] = sorted(d for d in dirs if d not in ("out", ".git", "target"))
        for name in sorted(names):
            if name.endswith(endings):
                yield os.path.join(folder, name)


def read(path):
    with open(path, encoding="utf-8") as it:
        return it.read()


def clauses(text):
    """Where the ghost parts of a source stand, as pairs of ends."""
    for m in CLAUSE.finditer(text):
        if text[m.end() - 1] != "{":
            yield m.start(), text.index(";", m.end())
            continue
        deep, k = 0, m.end() - 1
        while True:
            deep += (text[k] == "{") - (text[k] == "}")
            k += 1
            if not deep:
                break
        yield m.start(), k


def library_names(text):
    """The names that a text imports from elsewhere than this repository."""
    found = set()
    for m in USE.finditer(text):
        steps = m[1].split(".")
        if steps[0] == "Rattle" and len(steps) > 1 and os.path.isdir(os.path.join("crates", steps[1])):
            continue
        found |= {it.split(" as ")[-1].strip() for it in (m[2] or "").split(",") if it.strip()}
    return found


def bare(text):
    """The words of a text that stand behind no dot and in no path."""
    text = re.sub(r"(?m)^(ghost )?use [A-Za-z][^\s{;]*", "", text)
    return {m[0] for m in WORD.finditer(text) if not (m.start() and text[m.start() - 1] == ".")}


def words_of(path, text):
    if path.endswith(".antt"):
        return bare(re.sub(r"--[^\n]*", "", text))
    return set().union(*(bare(text[a:b]) for a, b in clauses(text)))


def heads(text):
    """The parameters of a source's functions."""
    found = set()
    for m in re.finditer(r"\bfn \w+\(", text):
        deep, k = 0, m.end() - 1
        while True:
            deep += (text[k] == "(") - (text[k] == ")")
            k += 1
            if not deep:
                break
        found |= set(re.findall(r"(\w+): ", text[m.end() : k]))
    return found


def names():
    """What each name is turned to."""
    declared, texts = set(), {}
    for path in files("crates", (".antt", ".rt")):
        texts[path] = text = read(path)
        if path.endswith(".antt") and not path.endswith("Proof.antt"):
            for m in DECLARED.finditer(text):
                declared.update(m[1].split())
            declared.update(ALIAS.findall(text))
            for m in USE.finditer(text):
                if "{" in m[0]:
                    declared.update(INNER.findall(m[0]))
    turned = {it: snake(it) for it in declared if is_turned(it)}
    met = collections.defaultdict(set)
    for path, text in texts.items():
        words, given = words_of(path, text), library_names(text)
        parameters = set()
        if path.endswith(".rt"):
            parameters = heads(text)
        here = collections.defaultdict(set)
        for word in words:
            if word in turned and word not in given:
                here[turned[word]].add(word)
        for new, olds in here.items():
            if new in given or new in parameters:
                met[new] |= {(it, "law" if "-" in it else "meant") for it in olds}
            if len(olds) > 1 or new in words:
                lemmas = {it for it in olds if "-" in it}
                others = olds - lemmas
                met[new] |= {(it, "law") for it in lemmas}
                if new in words and others or len(others) > 1:
                    met[new] |= {(it, "meant") for it in others}
    for new, olds in sorted(met.items()):
        for old, ending in sorted(olds):
            turned[old] = f"{new}_{ending}"
            print(f"met: {old} is {turned[old]}")
    return turned


def turn(text, turned, given, is_proof=False):
    def word(m):
        name = m[0]
        if name not in turned or name in given:
            return name
        if is_proof and m.start() and text[m.start() - 1] == "." and "-" in name:
            return name
        return turned[name]

    return WORD.sub(word, text)


def turn_comment(text, turned):
    """In prose only names with capitals inside are surely names; others stand between backticks."""
    text = re.sub(r"`[^`\n]*`", lambda m: turn(m[0], turned, ()), text)
    return re.sub(r"(?<![\w`./-])[a-z][a-z0-9]*(?:[A-Z][a-z0-9]*)+(?![\w-])", lambda m: turned.get(m[0], m[0]), text)


def turn_antt(path, text, turned):
    given, lines = library_names(text), []
    for line in text.split("\n"):
        code, mark, said = line.partition("-- ") if not line.startswith("--") else ("", "--", line[2:])
        m = USE.match(line)
        if m and (m[1].split(".")[0] != "Rattle" or not os.path.isdir(os.path.join("crates", m[1].split(".")[1]))):
            lines.append(line)
            continue
        lines.append(turn(code, turned, given, path.endswith("Proof.antt")) + mark + turn_comment(said, turned))
    return "\n".join(lines)


def turn_rt(text, turned):
    given, out, at = library_names(text), [], 0
    for a, b in clauses(text):
        if a < at:
            continue
        out += [turn_code(text[at:a], turned), turn(text[a:b], turned, given)]
        at = b
    return "".join(out + [turn_code(text[at:], turned)])


def turn_code(text, turned):
    return re.sub(r"(?m)(^|\s)//[^\n]*", lambda m: turn_comment(m[0], turned), text)


def tight(line):
    """Projections as the layout has them: x.f, with parentheses only round more than a path."""
    line = re.sub(r"(?<=[\w')]) \.(?=[a-z0-9])", ".", line)
    while True:
        new = re.sub(r"(^|[ (])\(([A-Za-z_][\w']*(?:\.[a-z0-9][\w']*)+)\)", r"\1\2", line)
        if new == line:
            return line
        line = new


def turn_edit(text, turned):
    lines, inside = [], False
    for line in text.split("\n"):
        if line.startswith("file: "):
            inside = line.startswith(("file: specs/", "file: proofs/"))
        if line.startswith(("old: ", "new: ")):
            body = turn(line[5:], turned if inside else {k: v for k, v in turned.items() if "-" not in k}, ())
            # (a name that port.py had turned)
            body = re.sub(r"(?<![\w.'\"-])[a-z][a-z0-9]*(?:[A-Z][a-z0-9]*)+(?![\w-])", lambda m: snake(m[0]) if inside else m[0], body)
            line = line[:5] + (tight(body).replace("\u2032", "'") if inside else body)
        elif line.startswith(("of: ", "refused: ")):
            line = turn(line, turned, ())
        lines.append(line)
    return "\n".join(lines)


def move_contracts():
    """Rattle makes a module specs.contracts of its own."""
    for crate in sorted(os.listdir("crates")):
        old = f"crates/{crate}/specs/Contracts.antt"
        if os.path.isfile(old):
            os.rename(old, f"crates/{crate}/specs/ByContract.antt")
            lib = f"crates/{crate}/specs/Lib.antt"
            text = read(lib)
            with open(lib, "w", encoding="utf-8") as it:
                it.write(re.sub(r"(?m)^pub mod Contracts$", "pub mod ByContract", text))
    for path in [*files("crates", (".antt", ".rt", ".edit")), *files("docs", (".md",)), "README.md", "ARCHITECTURE.md"]:
        text = read(path)
        new = re.sub(r"\bspecs([./])Contracts\b", r"specs\1ByContract", text)
        if new != text:
            with open(path, "w", encoding="utf-8") as it:
                it.write(new)


def main():
    if not os.path.isdir("crates"):
        sys.exit("respell: run it at the top")
    move_contracts()
    turned = names()
    count = 0
    for path in [*files("crates", (".antt", ".rt", ".edit")), *files("docs", (".md",)), "README.md", "ARCHITECTURE.md"]:
        text = read(path)
        if path.endswith(".antt"):
            new = turn_antt(path, text, turned)
        elif path.endswith(".rt"):
            new = turn_rt(text, turned)
        elif path.endswith(".edit"):
            new = turn_edit(text, turned)
        else:
            new = turn_comment(text, turned)
        if new != text:
            count += 1
            with open(path, "w", encoding="utf-8") as it:
                it.write(new)
    print(f"respell: {len(turned)} names, {count} files")


main()

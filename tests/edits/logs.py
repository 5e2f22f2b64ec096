#!/usr/bin/env python3
"""logs.py LOGS [CRATE..]: LOGS/CRATE/GROUP.log, what a check of the crate says with the whole of the
must-fail group GROUP applied, for every group, or for those of the crates named.

It applies an edit and checks as `rt ci` does, by the functions of the kit's own rt, on a copy of
the crate, four side by side where processors and memory allow, over what the crate's own proof
left: the checked modules in its library, which `rt lib` builds where it is not built; or, where `rt
ci` left libraries without them, what a check keeps. No verdict rests on that.

Where an edit changes a number or a name that stands in the names of goals (`figure <= 15` has the
goal `returns-then-figure-le15`), a proof names goals that are no more, and would be refused for
that alone. So the names are carried over in the copy's proofs/, by what rattle itself says of them,
and these functions are checked again: the log tells of the facts.

A goal that no file answers is not tried where the function calls one that another part of the group
has spoilt. So the parts of which nothing was told by the whole group are applied again without the
others, and what is said of their functions then stands in the log in place of that.

What was said is kept on this machine, in ~/.cache/atc2-edits (ATC2_EDITS names another folder), by
a checksum of the crate and those below it, the edit, the kit and this script, and taken from there.
"""
import contextlib
import hashlib
import importlib.machinery
import importlib.util
import json
import os
import pwd
import re
import shutil
import subprocess
import sys
import tempfile

sys.dont_write_bytecode = True
HERE = os.path.dirname(os.path.realpath(__file__))


def load(path):
    loader = importlib.machinery.SourceFileLoader("rt", path)
    made = importlib.util.module_from_spec(importlib.util.spec_from_loader("rt", loader))
    loader.exec_module(made)
    return made


rt = load(os.path.realpath(shutil.which("rt") or sys.exit("logs.py: rt is not found")))
rtlib = rt.rtlib


def text_of(path):
    with open(path, encoding="utf-8", errors="replace") as it:
        return it.read()


def key_of(crate, edit):
    """What a log is made of: the texts of the crate and of those below it, the edit, the kit and this script."""
    sum = hashlib.sha256(f"{crate.stamp()} {rt.kit_sum()}".encode())
    for path in (edit, os.path.realpath(__file__)):
        with open(path, "rb") as it:
            sum.update(hashlib.sha256(it.read()).digest())
    return sum.hexdigest()


# What earlier runs on this machine were told, and how many logs of one group stay there.
KEPT = os.environ.get("ATC2_EDITS") or f"{pwd.getpwuid(os.geteuid()).pw_dir}/.cache/atc2-edits"
MOST = 6


def kept(crate, edit):
    name = os.path.basename(edit)[: -len(".edit")]
    return f"{KEPT}/{crate.name}.{name}/{key_of(crate, edit)}.log"


def keep(file, said):
    """Keeps a log, in one step, and lets the oldest of its group go."""
    with contextlib.suppress(OSError):
        folder = os.path.dirname(file)
        os.makedirs(folder, exist_ok=True)
        with tempfile.NamedTemporaryFile("w", dir=folder, delete=False, encoding="utf-8") as it:
            it.write(said)
        os.replace(it.name, file)
        logs = sorted((os.path.join(folder, it) for it in os.listdir(folder)), key=os.path.getmtime)
        for it in logs[:-MOST]:
            os.remove(it)


def is_left(crate):
    """Whether the libraries below stand there as rt ci leaves them: with no stamp, of files that are no newer."""
    for it in crate.below():
        newest = max(os.stat(file).st_mtime for dep in [it, *it.below()] for file in rtlib.files_of(dep.folder))
        if not it.is_built() and not (os.path.isdir(it.rlib) and os.stat(os.path.dirname(it.rlib)).st_mtime > newest):
            return False
    return True


def seeded(crate, folder):
    """Makes a folder as --incremental takes it of the checked modules in the crate's library, or, over libraries as rt ci leaves them,
    which have none, by a check; or says why not."""
    if not crate.is_built() and is_left(crate):
        rt.adopt(crate, is_alone=False)
        kept = f"{crate.folder}/out/incremental"
        if os.path.isdir(kept):
            rt.linked(kept, folder)
        else:
            os.mkdir(folder)
        ran = rt.checked(crate, {}, ["--jobs", "1"], folder)
        return "" if not ran.returncode else f"the crate is not proved: {ran.stdout[-600:]}"
    if not crate.is_built():
        said = subprocess.run(["rt", "lib"], cwd=crate.folder, stdin=subprocess.DEVNULL, stdout=subprocess.PIPE, stderr=subprocess.STDOUT, errors="replace")
        if said.returncode or not crate.is_built():
            return f"the crate is not proved: {said.stdout[-600:]}"
    # The folder's name within is rattle's own, by its build: a check of nothing makes it.
    subprocess.run([rtlib.RATTLE, "check", *crate.words(["--jobs", "1", "--only", ""], keeps=False), "--incremental", folder], cwd=crate.folder, stdin=subprocess.DEVNULL, stdout=subprocess.DEVNULL, stderr=subprocess.DEVNULL)
    inside = [it for it in os.listdir(folder) if it.startswith("antt-checked")] if os.path.isdir(folder) else []
    if len(inside) != 1:
        return "rattle made no folder of kept work"
    whole = f"{crate.rlib}/toolchain/checked"
    with open(f"{whole}.a", "rb") as it:
        bytes = it.read()
    for line in text_of(f"{whole}.json").split("\n"):
        if line.strip():
            name, at, size = json.loads(line)
            if "/" not in name:
                with open(f"{folder}/{inside[0]}/{name}.oantt", "wb") as it:
                    it.write(bytes[at : at + size])
    return ""


# A name that a proof cites and that is no more, in what file, and what rattle says is there.
MISSING = re.compile(r"(?m)^(?:\./)?(proofs/\S+?\.antt):\d+:\d+: error: .*has no (?:field )?`\.?([^`]+)`(?: that can be named from here)?(?: \((?:nearest: \.|did you mean `)([^\s,)`]+))?")
ASKED = re.compile(r"(?m)^help: `\w+` has no `([^`]+)`; rattle asks for (.*?)(?: and \d+ more)?(?:;.*)?$")
FAILS = re.compile(r"(?m)^(?:\./)?(proofs/\S+?)/[^/]+\.antt:\d+:\d+: error: .*(the two (types|sides)|expected type|no proof of|as the last argument|does not follow from what it read)")
NAME = re.compile(r"[A-Za-z_][A-Za-z0-9_'-]*")


def turned_over(one, other):
    """Whether of two names one has a condition that the other has with a 'not'."""
    return other.replace("-not-", "-", 1) == one or one.replace("-not-", "-", 1) == other


def apart(one, other):
    """How far two names of as many parts are apart: in how many parts they differ, and in how many signs."""
    pairs = [it for it in zip(one.split("-"), other.split("-")) if it[0] != it[1]]
    signs = sum(abs(len(a) - len(b)) + sum(x != y for x, y in zip(a, b)) for a, b in pairs)
    return len(pairs), signs


def carried(said, texts_of):
    """Returns, by file, the names that it cites and that are others now, by what rattle says: whole names, and parts of names that
    tell enough by themselves to be exchanged in each name of the file. Where a function is refused for a fact anyhow, nothing is."""
    asked, found = {}, {}
    for name, others in ASKED.findall(said):
        asked.setdefault(name, re.findall(r"`([^`]+)`", others))
    facts = {it[0] for it in FAILS.findall(said)}
    for path, name, nearest in MISSING.findall(said):
        if os.path.dirname(path) in facts:
            continue
        there = {*NAME.findall(texts_of(path))}
        others = [it for it in ([nearest] if nearest else asked.get(name, ())) if it not in there and (turned_over(name, it) or it.count("-") == name.count("-") and it.split("-")[0] == name.split("-")[0])]
        others = [it for it in others if turned_over(name, it)] or others
        if not others:
            continue
        other = min(others, key=lambda it: apart(name, it))
        names, parts = found.setdefault(path, ({}, {}))
        names[name] = other
        if turned_over(name, other):
            long, short = max(name, other, key=len), min(name, other, key=len)
            what = long.split("-not-", 1)[1]
            parts[f"-{what}" if long == other else f"-not-{what}"] = f"-not-{what}" if long == other else f"-{what}"
            continue
        before = ""
        for a, b in zip(name.split("-"), other.split("-")):
            if a != b and re.search(r"\d", a) and re.search(r"\d", b):
                parts[f"{before}-{a}"] = f"{before}-{b}"
            before = a
    return found


def named_anew(text, names, parts):
    """The text with these names, and these parts of the names of goals and places, as they are now."""

    def anew(it):
        it = it[0]
        if it in names or "-" not in it:
            return names.get(it) or it
        # (a part goes with the one before it, or with the 'if', 'then' or 'else' that it stands behind)
        for a, b in parts.items():
            head = r"(?<![A-Za-z0-9_'])(?:if|then|else|Then|Else)" if a.startswith("-") else r"(?<![A-Za-z0-9_'])"
            it = re.sub(rf"({head}){re.escape(a)}(?![A-Za-z0-9_'])", lambda m: m[1] + b, it)
        return it

    return NAME.sub(anew, text)


def checked(crate, texts, over, only=()):
    words = ["--jobs", "1", *[word for it in only for word in ("--only", it)]]
    ran = rt.checked(crate, texts, words, over)
    if ran.returncode < 0:
        # most likely for memory
        ran = rt.checked(crate, texts, words, over)
    return ran.stdout


def function_of(path):
    """The function whose proof a file of proofs/ is, by its path below the crate; nothing for a file of lemmas."""
    folder, name = os.path.split(path)
    return folder[len("proofs/") :].replace("/", "::") if name in ("Answers.antt", "Invariants.antt", "Proof.antt") else None


def file_of(line):
    return re.match(r"(?:\./)?(proofs/\S+?)(?:/(?:Answers|Invariants|Proof))?\.antt:\d+:\d+: error: ", line)


def split(said, crate, answers):
    """What was said of these functions and files of proofs, named by their paths below proofs/, and what was said of others."""
    own, others, pending, last = [], [], [], []
    files, heads = {f"proofs/{it}" for it in answers}, tuple(f"fn {crate.name}::{it.replace('/', '::')}: " for it in answers)
    for line in said.splitlines(True):
        at = file_of(line)
        if at:
            last = own if at[1] in files else others
        elif re.match(r"note: src/\S+:\d+:\d+: it is not proved that ", line):
            # (these stand right before the line of their function)
            pending.append(line)
            continue
        elif line.startswith("fn "):
            last = own if line.startswith(heads) else others
            last += pending
            pending = []
        elif not line.startswith(" "):
            last = others
        last.append(line)
    return "".join(own), "".join(others + pending)


def waits(said, crate, answer):
    """Whether nothing was told of this function or file of proofs but that something which it calls or cites is refused."""
    own = split(said, crate, [answer])[0].splitlines()
    told = [it for it in own if it.startswith("note: src/") or file_of(it) and not re.search(r"was not admitted|were not checked|was not checked", it)]
    return bool(own) and not told and not any(re.search(r": proved$|`search` (did not prove|gave up)", it) for it in own)


def parts_of(edit, folder):
    """The parts of a group, each with its lines and the function or the file of proofs that answers for it, as judge.awk has them."""
    parts = []
    for line in text_of(edit).split("\n"):
        if line.startswith("part: "):
            parts.append([])
        if parts:
            parts[-1].append(line)
    found = []
    for lines in parts:
        answer = next((it[len("refused: ") :] for it in lines if it.startswith("refused: ")), None)
        file = None
        for line in lines if answer is None else ():
            if line.startswith("file: "):
                file = line[len("file: ") :].strip()
            elif line.startswith("old: ") and file and file.startswith("src/"):
                text = text_of(f"{folder}/{file}")
                above, name = text[: max(text.find(line[len("old: ") :]), 0)], None
                rows = text[: len(above) + 1 + text[len(above) :].find("\n")].split("\n")
                for row, ends in zip(rows, [*[False] * (len(rows) - 1), True]):
                    head = re.match(r" *(?:pub )?(?:extern \"C\" )?fn (\w+)", row)
                    name = head[1] if head else None if row == "}" and not ends else name
                module = file[len("src/") : -len(".rt")]
                answer = name if module in ("lib", "main") else name and f"{module}/{name}"
        found.append(("\n".join(lines), answer))
    return found


def applied(crate, edit, over, only=()):
    """Returns what a check says with an edit's text applied, once the names are carried over; or why it cannot be applied."""
    texts, why = rt.edited(edit, crate.folder)
    if why:
        return f"the edit cannot be applied: {why}\n"
    texts_of = lambda path: texts.get(path) or text_of(f"{crate.folder}/{path}")
    said = checked(crate, texts, over, only)
    for _ in range(3):
        found = carried(said, texts_of)
        if not found:
            break
        for path, (names, parts) in found.items():
            texts[path] = named_anew(texts_of(path), names, parts)
        functions = {function_of(it) for it in found}
        if None in functions:
            said = checked(crate, texts, over, only)
        else:
            again = checked(crate, texts, over, sorted(functions))
            answers = [it.replace("::", "/") for it in functions]
            said = split(said, crate, answers)[1] + split(again, crate, answers)[0]
    return said


def only_of(crate, parts):
    """The functions that answer for these parts, which is all that has to be checked; none, so the whole crate, where a file of lemmas answers for one."""
    answers = [it[1] for it in parts]
    is_code = all(os.path.isdir(f"{crate.folder}/proofs/{it}") or not os.path.isfile(f"{crate.folder}/proofs/{it}.antt") for it in answers)
    return [it.replace("/", "::") for it in answers] if is_code else ()


def logged(crate, edit, seed):
    """Returns what the check of the edited crate says."""
    with tempfile.TemporaryDirectory(prefix="edits-") as room:
        over = f"{room}/over"
        rt.linked(seed, over)
        parts = [it for it in parts_of(edit, crate.folder) if it[1]]
        said = applied(crate, text_of(edit), over, only_of(crate, parts))
        left = [it for it in parts if waits(said, crate, it[1])]
        while left and len(parts) > 1:
            # together without the others, or, where that tells of none of them, each by itself
            turns = [left] if len(left) < len(parts) else [[it] for it in left]
            parts = left
            for turn in turns:
                answers = [it[1] for it in turn]
                again = applied(crate, "\n".join(it[0] for it in turn), over, only_of(crate, turn))
                told = [it for it in answers if not waits(again, crate, it) and split(again, crate, [it])[0]]
                said = split(said, crate, told)[1] + split(again, crate, told)[0]
                left = [it for it in left if it[1] not in told]
            if len(turns) > 1:
                break
    return said


def main(logs, names):
    # (in this thread, once: rt's checks end with this process)
    rtlib.guarded()
    crates = {it.name: it for it in rtlib.crates_below(os.getcwd())}
    tasks, rooms = {}, {}

    def seed(crate):
        rooms[crate.name] = room = tempfile.mkdtemp(prefix=f"edits-{crate.name}-")
        why = seeded(crate, f"{room}/seed")
        if why:
            print(f"{crate.name}: {why}", file=sys.stderr, flush=True)
        return "" if why else f"{room}/seed"

    def log(crate, edit, given):
        at = given[crate.name, "seed"]
        said = logged(crate, edit, at) if at else ""
        # (a check that was cut short says nothing)
        if re.search(r"(?m)^(logic|only)=", said):
            keep(kept(crate, edit), said)
        elif at:
            print(f"{crate.name}/{os.path.basename(edit)}: no check came to its end: {said[-300:]}", file=sys.stderr, flush=True)

    wanted = {name: rt.edits_of(crates[name])[0] for name in names or crates}
    for name, edits in wanted.items():
        crate = crates[name]
        new = [it for it in edits if not os.path.isfile(kept(crate, it))]
        if not new:
            continue
        lines, needs = crate.count(rb"\n"), rt.need(crate)
        # (where libraries have to be built, rt builds those below first)
        waits = [(it.name, "seed") for it in crate.below() if (it.name, "seed") in tasks and not crate.is_built()]
        tasks[name, "seed"] = (waits, lines, needs, lambda given, jobs, crate=crate: seed(crate))
        for edit in new:
            tasks[name, "edits", edit] = ([(name, "seed")], lines, rt.OVER * needs, lambda given, jobs, crate=crate, edit=edit: log(crate, edit, given))
        # the seed goes with the last of them
        tasks[name, "over"] = ([(name, "edits", it) for it in new], 0, 0, lambda given, jobs, name=name: shutil.rmtree(rooms.pop(name, ""), ignore_errors=True))
    try:
        rt.in_lanes(tasks)
    finally:
        for room in rooms.values():
            shutil.rmtree(room, ignore_errors=True)
    for name, edits in wanted.items():
        for edit in edits:
            with contextlib.suppress(OSError):
                os.makedirs(f"{logs}/{name}", exist_ok=True)
                shutil.copyfile(kept(crates[name], edit), f"{logs}/{name}/{os.path.basename(edit)[: -len('.edit')]}.log")


def carry(log, folder):
    """Carries names over in a folder's proofs/, as a log tells: what tests/edits/run tries."""
    for path, (names, parts) in carried(text_of(log), lambda it: text_of(f"{folder}/{it}")).items():
        text = named_anew(text_of(f"{folder}/{path}"), names, parts)
        with open(f"{folder}/{path}", "w", encoding="utf-8") as it:
            it.write(text)


if __name__ == "__main__" and sys.argv[1] == "--carry":
    carry(*sys.argv[2:])
elif __name__ == "__main__":
    main(os.path.abspath(sys.argv[1]), sys.argv[2:])

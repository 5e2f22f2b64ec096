#!/usr/bin/env python3
"""Turns the hand-written walks of a crate, proofs/F/Proof.antt, into Invariants.antt and Answers.antt.

usage: answers.py NAMES CRATE..    at the top; NAMES has CRATE/names.json, as 'rt names' writes it

It goes by the list of old and new names of goals, steps and fields. A walk that it can't read stays.
"""

import json
import os
import re
import sys

NAME = r"[^\s(){}.;,@\"«»\[\]\\]+"


def alike(name):
    return re.sub("[-_]", "", name).lower()


def read(path):
    with open(path, encoding="utf-8") as it:
        return it.read()


def parts(text):
    """The top-level pieces of a file: what stands from one unindented, non-comment start to the next."""
    pieces, piece = [], []
    for line in text.split("\n"):
        if not line.strip() and piece and any(it.strip() for it in piece):
            piece.append(line)
            continue
        fresh = line and not line[0].isspace() and piece and not piece[-1].strip()
        if fresh:
            pieces.append("\n".join(piece).rstrip("\n"))
            piece = []
        piece.append(line)
    if piece:
        pieces.append("\n".join(piece).rstrip("\n"))
    return [it for it in pieces if it.strip()]


def arguments(text):
    """Splits a row of arguments at the spaces of its top level."""
    found, deep, word = [], 0, ""
    for ch in text:
        if ch.isspace() and not deep:
            if word:
                found.append(word)
            word = ""
            continue
        deep += (ch in "([{") - (ch in ")]}")
        word += ch
    if word:
        found.append(word)
    return found


def inner(text, at):
    """From an opening bracket at 'at': what it holds, and where it ends."""
    deep = 0
    for k in range(at, len(text)):
        deep += (text[k] == "(") - (text[k] == ")")
        if not deep:
            return text[at + 1 : k], k + 1
    raise ValueError("brackets")


def in_place(text, name, value):
    """Writes a value for a name, where the name is used and not bound."""

    def one(m):
        before, after = text[: m.start()], text[m.end() :]
        if before.endswith(("let ", "λ ")) or re.match(r" :\s", after) and re.search(r"\((?:[\w']+ )*$", before):
            return m[0]
        if re.match(r" =\s", after) and re.search(r"[{;]\s*$", before):
            return m[0]
        return value

    return re.sub(r"(?<![\w.'\\-])" + re.escape(name) + r"(?![\w'-])", one, text)


OWN_FIELDS = set()


class Unit:
    def __init__(self, crate, path, entry, source):
        self.crate, self.path, self.e, self.source = crate, path, entry, source
        self.places = [it[0] for it in entry["places"]]
        self.new_places = entry["places_by_name"]
        self.parent = {it[0]: it[1] for it in entry["places"]}
        self.step = {}
        for it in entry["places"]:
            self.step.setdefault(alike(it[2][0]), set()).add(it[2][1])
        self.words = set(re.findall(r"\b[a-z]\w*_\w+\b", source))
        self.named, self.taking = set(), {}
        self.args = {}
        for a, b in entry.get("args") or []:
            if a.startswith((".args ", ".ranges ")):
                self.args[a.split()[0][1:], a.split()[1][1:]] = b.split()[1][1:]

    def place(self, old):
        for a, b in zip(self.places, self.new_places):
            if alike(a) == alike(old):
                return a, self.new_name(a)
        return None, None

    def chain(self, place):
        found = []
        while place:
            found.append(place)
            place = self.parent.get(place)
        return found

    def arms(self, place):
        """The arms that are known at a place, the nearest first; without one, all."""
        chain = self.chain(place) if place else list(reversed(self.places))
        index = {p: i for i, p in enumerate(self.places)}
        for p in chain:
            arm = self.e["arms"][index[p]]
            if arm:
                yield arm

    def typed(self, place):
        index = {p: i for i, p in enumerate(self.places)}
        for p in self.chain(place) if place else self.places:
            for name, step in self.e["typed"][index[p]]:
                yield name, step

    def joined(self, place):
        chain = self.chain(place) if place else self.places
        for it in self.e["places"]:
            if it[0] in chain:
                for old, new in it[4]:
                    yield it[2], old, new

    def field(self, name):
        """A field that is a name of the source."""
        plain = name.replace("-", "_")
        if plain in OWN_FIELDS:
            return plain
        if name in ("well-formed", "type-inv"):
            return plain
        if "-" in name and plain in self.words:
            return plain
        return name

    @staticmethod
    def clause(fields, rest):
        """A path into a product of facts, where each fact has a name now."""
        at = 0
        while rest and rest[0] in ("0", "1") and at < len(fields):
            if rest[0] == "0":
                return [fields[at]] + rest[1:]
            at, rest = at + 1, rest[1:]
            if at == len(fields) - 1:
                return [fields[at]] + rest
        return rest

    def fields_of(self, step):
        """The names of the facts of the call with this step."""
        for it, clauses in zip(self.e["places"], self.e["clauses"]):
            if it[2][1] == step and it[3] and clauses:
                return clauses.get("fields") or []
        return []

    def called(self, steps, new, place):
        """What stands behind a call's step: its clauses and its last values by name."""
        index = {p: i for i, p in enumerate(self.places)}
        for it in self.e["places"]:
            if it[2][1] != new:
                continue
            clauses = self.e["clauses"][index[it[0]]]
            if steps[:1] == ["ensures"] and clauses and clauses.get("fields") and len(steps) > 1:
                return ["ensures"] + self.clause(clauses["fields"], steps[1:])
            if steps[:1] in (["last"], ["new"], ["auto"]) and len(steps) > 1 and it[3] in self.e["params"] and steps[1].isdigit():
                given, rest, at = self.e["params"][it[3]], steps[1:], 0
                while rest and rest[0] == "1" and at < len(given) - 1:
                    at, rest = at + 1, rest[1:]
                if rest and rest[0] == "0":
                    rest = rest[1:]
                return ["auto" if steps[0] == "auto" else "new", given[at]] + rest
        return steps

    def befores(self, place, count):
        """How many records of today a path of so many old ones goes up."""
        index, up = {p: i for i, p in enumerate(self.places)}, 0
        while count > 0 and place:
            arm = self.e["arms"][index[place]]
            deep = arm[1] if arm else 1
            if count < deep:
                break
            count, up = count - deep, up + 1
            for _ in range(deep):
                place = self.parent.get(place)
        return up

    def path_of(self, steps, place):
        """The new steps of a path whose first part is a place's record."""
        if all(it == "before" for it in steps):
            return ["before"] * self.befores(place, len(steps))
        steps = [it for it in steps if it != "before"]
        if steps[0] in ("args", "ranges"):
            rest = [self.field(it) for it in steps[1:]]
            if rest and (steps[0], rest[0]) in self.args:
                rest[0] = self.args[steps[0], rest[0]]
            return steps[:1] + rest
        if steps[0] == "requires" and self.e.get("pre"):
            return ["requires"] + self.clause(self.e["pre"]["fields"], steps[1:])
        for (new, _, rows) in self.arms(place):
            for to, old, path in rows:
                if alike(old) == alike(steps[0]) and path and steps[1 : 1 + len(path)] == path and not to.endswith("-own"):
                    return [new, to] + [self.field(it) for it in steps[1 + len(path) :]]
        for (new, _, rows) in self.arms(place):
            for to, old, path in rows:
                if alike(old) == alike(steps[0]) and not path and to.endswith("-own"):
                    return [new, to] + [self.field(it) for it in steps[1:]]
        for name, old in self.typed(place):
            if alike(old) == alike(steps[0]) and len(steps) > 1 and steps[1] in ("given", "known"):
                return ["type_inv", name] + [self.field(it) for it in steps[2:]]
        known = self.step.get(alike(steps[0]))
        if known:
            best = None
            for p in self.chain(place) if place else []:
                for it in self.e["places"]:
                    if it[0] == p and alike(it[2][0]) == alike(steps[0]):
                        best = best or it[2][1]
            new = best or sorted(known)[0]
            rest = steps[1:]
            if rest:
                for (old_step, new_step), old, to in self.joined(place):
                    if new_step == new and alike(old) == alike(rest[0]):
                        rest = [to] + rest[1:]
                        break
                else:
                    rest = ["branch-raw" if rest[0] == "branch" else rest[0]] + rest[1:]
            return [new] + [self.field(it) for it in self.called(rest, new, place)]
        return [self.field(it) for it in steps]

    def new_name(self, place):
        """The name of a place: of the parts of an arm, the whole arm's."""
        if place not in self.places:
            return None
        at = self.places.index(place)
        arm = self.e["arms"][at]
        while arm:
            for i, it in enumerate(self.e["places"]):
                more = self.e["arms"][i]
                if it[1] == self.places[at] and more and more[0] == arm[0] and more[1] == arm[1] + 1:
                    at, arm = i, more
                    break
            else:
                break
        return self.new_places[at]

    def outer(self, place, count):
        for _ in range(count):
            place = self.parent.get(place)
        return place

    def turn(self, text, place, records, goal=None):
        """Turns the paths of a text. 'records' are the variables that stand for a place's record."""
        records = dict(records)
        while True:
            m = re.search(r"let ([a-z][\w'-]*) = ([a-z][\w'-]*(?:\.[\w'-]+)*\.given(?:\.[\w'-]+)*) in\s*", text)
            if not m:
                break
            text = text[: m.start()] + in_place(text[m.end() :], m[1], m[2])

        # a name for an outer record is written out
        at = 0
        while True:
            m = re.compile(r"let ([a-z][\w'-]*) = ([a-z][\w'-]*(?:\.before)*) in\s*").search(text, at)
            if not m:
                break
            if m[2].split(".")[0] in records:
                text, at = text[: m.start()] + in_place(text[m.end() :], m[1], m[2]), 0
            else:
                at = m.end()

        # a name for a step whose parts have new names is written out too
        at = 0
        while True:
            m = re.compile(r"let ([a-z][\w'-]*) = ([a-z][\w'-]*(?:\.[\w'-]+)+) in\s*").search(text, at)
            if not m:
                break
            rest = text[m.end() :]
            named = re.search(r"(?<![\w.'-])" + re.escape(m[1]) + r"\.(ensures|given|last|new|known|t\d+|keys\d+|rest|if\d)(?![\w'-])", rest)
            renamed = m[2].split(".")[0] in records and named
            if renamed:
                text = text[: m.start()] + in_place(rest, m[1], m[2])
                at = 0
            else:
                at = m.end()

        def path(m):
            steps = m[0].split(".")
            if steps[0] in records and len(steps) > 1 and all(it == "before" for it in steps[1:]):
                outer = self.outer(records[steps[0]], len(steps) - 1)
                lemma = re.search(r"([^\s(){}.;,]+) $", m.string[: m.start()])
                if lemma and lemma[1] in self.taking:
                    outer = self.taking[lemma[1]]
                at = goal or self.new_name(records[steps[0]])
                if outer and self.new_name(outer) == self.new_name(records[steps[0]]):
                    return steps[0]
                if outer and at:
                    return f"(goal.at-{at} {steps[0]}).{self.new_name(outer)}"
            if steps[0] in records and len(steps) > 1:
                made = [steps[0]] + self.path_of(steps[1:], records[steps[0]])
                if made[-1] == "ensures" and len(made) == 3:
                    fields = self.fields_of(made[1])
                    if len(fields) > 1:
                        return "(" + ", ".join(".".join(made + [it]) for it in fields) + ")"
                return ".".join(made)
            return ".".join([steps[0]] + [self.field(it) for it in steps[1:]])

        text = re.sub(r"(?<![\w.'-])[A-Za-z_κ][\w'₀-]*(?:\.[\w'·-]+)+", path, text)
        # (f x).before.before.args.n
        def after(m):
            steps = m[1].split(".")[1:]
            if steps[0] == "before":
                steps = self.path_of(steps, place)
            return ")" + "".join("." + self.field(it) for it in steps)

        text = re.sub(r"\)((?:\.[\w'-]+)+)", after, text)
        return text

    def types(self, text):
        """tie.After-f invariant-loop decreases-loop  ->  goal.After-f"""

        def turned(m):
            _, new = self.place(m[1])
            if new:
                self.named.add(new)
            return new or m[0]

        return re.sub(r"tie\.((?:After|Then|Else|At|In|Joined|Start|Left|Out|Past|End)[\w-]*)((?: (?:invariant|decreases)-[\w-]+)*)", turned, text)


def convert(unit, text):
    e = unit.e
    pieces = parts(text)
    head = [it for it in pieces if it.startswith("--") or it.startswith("use ")]
    uses, comments = [], []
    first = pieces[0].split("\n")
    body = pieces[1:]
    for line in first:
        (uses if line.startswith("use ") else comments).append(line)
    comments = [it for it in comments if it.startswith("--")]
    uses = [it for it in uses if not re.search(r"\.Statement\.\{statement\}$| as tie$", it)]
    close = next((it for it in body if "tie.close" in it), None)
    if not close:
        raise ValueError("no close")
    body.remove(close)
    at = close.index("(tie.spec") if "(tie.spec" in close else -1
    if at < 0:
        m = re.search(r"tie\.close\s+tie\.spec", close)
        if not m:
            raise ValueError("no spec")
        given = []
    else:
        given = arguments(inner(close, at)[0].strip())[1:]
    loops = e["loops"]
    needs = e["needs"]
    while given and re.match(r"\{", given[0]):
        given = given[1:]
    if len(given) != 2 * len(loops) + len(needs):
        return by_label(unit, comments, uses, body, given)
    label, inline = {}, []
    for i, (lp, _) in enumerate(loops):
        label[given[2 * i]] = ("inv", lp[1], i)
        label[given[2 * i + 1]] = ("dec", lp[1], i)
    asked = {new: new for _, new in needs}
    place_of = {}
    for i, (old, new) in enumerate(needs):
        arg = given[2 * len(loops) + i]
        place = e["asked_at"][i][0] if i < len(e["asked_at"]) else None
        place_of[new] = place
        if arg.startswith("("):
            inline.append((new, arg[1:-1], place))
        else:
            label.setdefault(arg, ("need", new, place))
            if label[arg][1] != new:
                inline.append((new, arg, place))
    return sorted_out(body, label, inline, comments, uses, place_of)


def by_label(unit, comments, uses, body, given):
    """Where fewer goals are left than there were: each answer goes by the name of its goal."""
    e, label = unit.e, {}
    loops, needs = e["loops"], e["needs"]
    for i, (lp, _) in enumerate(loops):
        label[given[2 * i]] = ("inv", lp[1], i)
        label[given[2 * i + 1]] = ("dec", lp[1], i)
    old = {}
    for i, (a, new) in enumerate(needs):
        for it in (a, "overflow-" + a):
            old.setdefault(alike(it), (new, e["asked_at"][i][0]))
    for piece in body:
        for m in re.finditer(r"(?m)^(?:abbrev |pub )*(" + NAME + r") : tie\.Need-([\w-]+)", piece):
            if alike(m[2]) in old:
                label[m[1]] = ("need", *old[alike(m[2])])
            else:
                label[m[1]] = ("none", m[2], None)
    # what is left of the goals of returns stands last, in order
    last = []
    for i in reversed(range(len(needs))):
        if not re.match(r"(returns|same_length)(-\d+)?$", needs[i][0]):
            break
        last.insert(0, (needs[i][1], e["asked_at"][i][0]))
    inline = []
    for (new, place), arg in zip(reversed(last), reversed(given)):
        if arg.startswith("("):
            inline.insert(0, (new, arg[1:-1], place))
        else:
            label[arg] = ("need", new, place) if label.get(arg, ("none",))[0] != "need" else label[arg]
    return sorted_out(body, label, inline, comments, uses, {})


def sorted_out(body, label, inline, comments, uses, place_of):
    invariants, answers, helpers = [], [], []
    for piece in body:
        lines = piece.split("\n")
        k = next(i for i, l in enumerate(lines) if not l.startswith("--"))
        said, code = lines[:k], "\n".join(lines[k:])
        m = re.match(r"((?:abbrev |unfoldable |pub )*)(" + NAME + r") :", code)
        name = m[2] if m else None
        if name in label and label[name][0] in ("inv", "dec"):
            invariants.append((said, code, name))
        elif name in label and label[name][0] == "none":
            print(f"settled: {label[name][1]}")
        elif name in label:
            answers.append((said, code, name))
        else:
            helpers.append((said, code, name))
    return comments, uses, label, inline, invariants, answers, helpers, place_of


def invariant(unit, code, name, kind, loop, i):
    """The equation of an invariant, over the record l."""
    variables = unit.e["loops"][i][1]
    changed = unit.e["changed"][i]
    m = re.search(r"(?m)^" + re.escape(name) + r" ((?:[^\n=]|\n )*?)=", code)
    if not m or len(re.findall(r"(?m)^" + re.escape(name) + r" (?!:)", code)) != 1:
        raise ValueError("an invariant by clauses")
    given = m[1].split()
    body = code[m.end() :]
    lines = code[: m.start()].split("\n")
    unfolds = [it for it in lines if it.startswith("unfolding ")]
    # given: each variable, at the loop's start where it changes, and then those that change
    moving = [v for v, c in zip(variables, changed) if c]
    if len(given) == len(variables) + len(moving):
        to = {old: f"l.initial.{new}" if c else f"l.{new}" for old, new, c in zip(given, variables, changed)}
        to |= {old: f"l.{new}" for old, new in zip(given[len(variables) :], moving)}
    else:
        raise ValueError(f"the invariant has {given} for {variables} {changed}")
    to.pop("_", None)

    def word(m):
        return to.get(m[0], m[0])

    body = re.sub(r"(?<![\w.'₀-])[a-zA-Z_][\w'₀-]*(?![\w'₀-])(?! =\s)", word, body)
    new = ("invariant-" if kind == "inv" else "decreases-") + loop
    head = f"abbrev pub {new} : goal.{new}\n"
    return head + "".join(it + "\n" for it in unfolds) + f"{new} l ={body}"


def names_in(text):
    """The words of a text that stand behind no dot."""
    return set(re.findall(r"(?<![^\s(){};,@\"«»\[\]\\])[^\s(){}.;,@\"«»\[\]\\]+", re.sub(r"--[^\n]*", "", text)))


def defined(code):
    found = re.findall(r"(?m)^(?:abbrev |unfoldable |pub |data |record )*(" + NAME + r")(?= (?:\{[^}\n]*\} )?:)", code)
    found += re.findall(r"(?m)^(?:pub )?(?:data|record) (" + NAME + r")", code)
    if code.startswith("module"):
        found += re.findall(r"(?m)^  (?:abbrev |unfoldable |pub )*(" + NAME + r") :", code)
    return set(found)


def params(unit, code):
    """The variables of a helper that are records of places: name -> place."""
    found = {}
    for m in re.finditer(r"\(([a-z][\w' -]*) : tie\.([\w-]+)", code):
        place, _ = unit.place(m[2])
        if place:
            for v in m[1].split():
                found[v] = place
    # an equation may name an argument otherwise than the signature
    for m in re.finditer(r"(?m)^ *(?:abbrev |unfoldable |pub )*(" + NAME + r") : ((?:[^\n]|\n +(?:[^\n]*))*)", code):
        sig, types = m[2], []
        deep, word, pieces = 0, "", []
        for k, ch in enumerate(sig):
            deep += (ch in "([{") - (ch in ")]}")
            if ch == "→" and not deep:
                pieces.append(word.strip())
                word = ""
            else:
                word += ch
        for it in pieces:
            groups = re.findall(r"\(([^():]+) : ([^()]*(?:\([^()]*\))?[^()]*)\)|(\{[^}]*\})", it)
            if groups:
                for names, kind, hidden in groups:
                    if not hidden:
                        types += [kind] * len(names.split())
            else:
                types.append(it)
        for eq in re.finditer(r"(?m)^ *" + re.escape(m[1]) + r" ((?:[^\n=:](?![ ]: ))*?) =(?: |$)", code):
            args = [it for it in arguments(eq[1]) if not it.startswith("{")]
            for kind, arg in zip(types, args):
                k = re.search(r"tie\.([\w-]+)", kind)
                place = k and unit.place(k[1])[0]
                if place and re.fullmatch(r"[a-z][\w'-]*", arg):
                    found[arg] = place
    return found


def both(goal, text, fields):
    """A product that is no tuple: its parts by name."""
    equations = re.findall(r"(?m)^" + re.escape(goal) + r" [^\n=]*=", text)
    if len(equations) != 1:
        return text
    at = text.index(equations[0]) + len(equations[0])
    deep, last = 0, at
    for m in re.finditer(r"[(\[{]|[)\]}]| in(?=\s)|\n    in(?=\s)", text[at:]):
        if m[0] in "([{":
            deep += 1
        elif m[0] in ")]}":
            deep -= 1
        elif not deep:
            last = at + m.end()
    term = text[last:].strip()
    parts = [f"{f} = both{'.1' * i}{'.0' if i < len(fields) - 1 else ''}" for i, f in enumerate(fields)]
    return text[:last] + f"\n    let both = {term} in\n    record {{ {'; '.join(parts)} }}\n"


def by_clause(unit, goal, text):
    """Where a goal has several facts with names: a tuple becomes a record."""
    asked = unit.e.get("asked") or {}
    fields = asked.get(goal) or (asked.get("returns") if goal.startswith("returns") else None)
    if not fields or len(fields) < 2:
        return text
    end = len(text.rstrip())
    if text[end - 1 : end] != ")":
        return both(goal, text, fields)
    deep, k = 0, end - 1
    while k >= 0:
        deep += (text[k] == ")") - (text[k] == "(")
        if not deep:
            break
        k -= 1
    before = text[:k].rstrip()
    if not before.endswith(("=", " in", "\nin")):
        return both(goal, text, fields)
    held, deep, found, word = text[k + 1 : end - 1], 0, [], ""
    for ch in held:
        if ch == "," and not deep:
            found.append(word)
            word = ""
            continue
        deep += (ch in "([{") - (ch in ")]}")
        word += ch
    if word.strip():
        found.append(word)
    while len(found) < len(fields) and re.fullmatch(r"\s*\(.*\)\s*", found[-1], re.S):
        held, deep, word, more = found[-1].strip()[1:-1], 0, "", []
        for ch in held:
            if ch == "," and not deep:
                more.append(word)
                word = ""
                continue
            deep += (ch in "([{") - (ch in ")]}")
            word += ch
        if not more:
            break
        found[-1:] = more + [word] if word.strip() else more
    if len(found) != len(fields):
        return both(goal, text, fields)
    return text[:k] + "record { " + "; ".join(f"{f} = {v.strip()}" for f, v in zip(fields, found)) + " }" + text[end:]


def write(unit, folder, text):
    comments, uses, label, inline, invariants, answers, helpers, place_of = convert(unit, text)
    opened = "".join(it + "\n" for it in re.findall(r"(?m)^unfolding [^\n]*$", next(it for it in parts(text) if "tie.close" in it)))
    base = f"Rattle.{unit.crate}.proofs.{unit.path}"
    files = {}
    own = set().union(*(defined(code) for _, code, _ in helpers)) if helpers else set()
    unit.plain = {it: snake(it) for it in own if it[0].islower() and snake(it) != it and snake(it) not in own}
    in_invariants = set()
    if invariants:
        wanted = set()
        out = []
        for said, code, name in invariants:
            kind, loop, i = label[name]
            new = invariant(unit, code, name, kind, loop, i)
            wanted |= names_in(new)
            out.append("\n".join(said + [new]))
        moved = []
        while True:
            more = [h for h in helpers if h not in moved and defined(h[1]) & wanted and "tie." not in h[1]]
            if not more:
                break
            for h in more:
                if "tie." in h[1]:
                    raise ValueError("an invariant names a helper over the code")
                moved.append(h)
                wanted |= names_in(h[1])
        moved = [h for h in helpers if h in moved]
        helpers = [h for h in helpers if h not in moved]
        made = []
        for said, code, name in moved:
            code = re.sub(r"^((?:abbrev |unfoldable )?)(?!pub |module)", r"\1pub ", code, count=1) if not code.startswith("pub ") and not re.match(r"(abbrev|unfoldable) pub ", code) else code
            made.append("\n".join(said + [unit.turn(code, None, {})]))
            in_invariants |= {unit.plain.get(it, it) for it in defined(code)}
        body = "\n\n".join(made + out) + "\n"
        body = unit_words(unit, body)
        used = [u for u in uses if keeps(u, body)]
        files["Invariants.antt"] = "\n".join(comments[:1] and ["-- What the loop keeps true."]) + "\n" + "\n".join([trim(u, body) for u in used] + [f"use {base}.Given as goal"]) + "\n\n" + body
    out = []
    for said, code, name in helpers:
        for it in defined(code):
            part = re.search(r"(?m)^ *(?:abbrev |unfoldable |pub )*" + re.escape(it) + r" :[^\n]*(?:\n +[^\n]*)*", code)
            first = re.search(r"tie\.([\w-]+)", part[0] if part and "tie." in part[0] else code.split("where")[0] if code.startswith("module") else "")
            if first and unit.place(first[1])[0]:
                unit.taking[it] = unit.place(first[1])[0]
    for said, code, name in helpers:
        records = params(unit, code)
        place = next(iter(records.values()), None)
        code = unit.turn(unit.types(code), place, records)
        out.append("\n".join(said + [code]))
    used_names = set()
    for said, code, name in answers:
        _, new, place = label[name]
        lines = code.split("\n")
        sig = re.match(r"(?:abbrev |pub )*" + re.escape(name) + r" :(?:[^\n]|\n )*", code)
        rest = code[sig.end() :]
        m = re.search(r"(?m)^" + re.escape(name) + r" ([^\s=]+)( κs?)?", rest)
        var = m[1] if m else "c"
        rest = re.sub(r"(?m)^" + re.escape(name) + r"(?= )", lambda _: new, rest)
        rest = re.sub(r"(?m)^(" + re.escape(new) + r" [^\s=]+) κs?(?= =)", r"\1", rest)
        rest = by_clause(unit, new, unit.turn(unit.types(rest), place, {var: place}, new))
        out.append("\n".join(said + [f"pub {new} : goal.{new}" + rest]))
    for new, arg, place in inline:
        m = re.fullmatch(r"λ ([^\s.]+)(?: [^\s.]+)?\. (.*)", arg, re.S)
        if m and re.fullmatch(r"search rules|omega arith|tt|refl", m[2].strip()):
            continue
        if m:
            out.append(f"pub {new} : goal.{new}\n{opened}{new} {m[1]} = " + unit.turn(m[2], place, {m[1]: place}, new))
        elif arg in label:
            out.append(f"pub {new} : goal.{new}\n{opened}{new} = {label[arg][1]}")
        else:
            out.append(f"pub {new} : goal.{new}\n{opened}{new} = {arg}")
    if out:
        body = "\n\n".join(out) + "\n"
        body = unit_words(unit, body)
        used = [trim(u, body) for u in uses if keeps(u, body)]
        shared = sorted(in_invariants & names_in(body))
        if shared:
            used.append(f"use {base}.Invariants.{{{', '.join(shared)}}}")
        if unit.named:
            used.append(f"use {base}.Goals.{{{', '.join(sorted(unit.named))}}}")
        files["Answers.antt"] = "\n".join(comments) + "\n" + "\n".join(used + [f"use {base}.Goals as goal"]) + "\n\n" + body
    for name in ("Invariants.antt", "Answers.antt"):
        path = os.path.join(folder, name)
        if name in files:
            with open(path, "w", encoding="utf-8") as it:
                it.write(files[name])
    os.remove(os.path.join(folder, "Proof.antt"))
    return files


def unit_words(unit, body):
    return re.sub(r"(?<![^\s(){};,@\"«»\[\]\\])[^\s(){}.;,@\"«»\[\]\\]+", lambda m: unit.plain.get(m[0], m[0]), body)


def snake(name):
    return re.sub(r"(?<=[a-z0-9])[A-Z]", lambda m: "_" + m[0].lower(), name).replace("-", "_")


def keeps(use, body):
    words = names_in(body)
    m = re.search(r"\{(.*)\}$", use)
    if m:
        return any(re.sub("◌", "", n.split(" as ")[-1].strip()) in words or n.split(" as ")[-1].strip().strip("◌") in body for n in m[1].split(","))
    m = re.search(r" as (\S+)$", use)
    return bool(m and re.search(r"(?<![\w.])" + re.escape(m[1]) + r"\b", body)) or not m


def trim(use, body):
    return use


def main():
    names, crates = sys.argv[1], sys.argv[2:]
    for folder, _, fs in os.walk("crates"):
        for f in fs:
            if f.endswith(".antt") and f != "Proof.antt" and "/out/" not in folder:
                OWN_FIELDS.update(re.findall(r"(?m)^ +(?:pub )?([a-z]\w*_\w+) :", read(f"{folder}/{f}")))
    for crate in crates:
        listed = json.load(open(f"{names}/{crate}/names.json"))
        done = left = 0
        for folder, _, fs in sorted(os.walk(f"crates/{crate}/proofs")):
            if "Proof.antt" not in fs:
                continue
            path = os.path.relpath(folder, f"crates/{crate}/proofs").replace("/", ".")
            entry = listed.get(f"Rattle-{crate}-proofs.{path}.Lts")
            modules = path.split(".")[:-1]
            source = ""
            for f in sorted(os.listdir(f"crates/{crate}/src")):
                source += read(f"crates/{crate}/src/{f}")
            if not isinstance(entry, dict):
                print(f"left: {folder}: no list of names")
                left += 1
                continue
            try:
                # (port.py took these functions for lemmas of the library)
                write(Unit(crate, path, entry, source), folder, re.sub(r"\b(up_to|put_all|start_of)_lem\b", r"\1", read(f"{folder}/Proof.antt")))
                done += 1
            except (ValueError, StopIteration, KeyError, IndexError) as error:
                print(f"left: {folder}: {error!r}")
                left += 1
        print(f"{crate}: {done} turned, {left} left")


main()

#!/usr/bin/env python3
"""Turns the proofs of a crate's functions from the older kit's form, Proof.antt, into Invariants.antt and Answers.antt.

usage: python3 tools/turn_proofs.py CRATE NAMES [FUNCTION..]

CRATE is the crate's folder, after port.py and snake_names.py have run, and NAMES the names.json that `rt check --generated DIR --old-names`
writes in that folder. FUNCTION is a folder below proofs/, as rows/number; with none, every Proof.antt is turned.

A Proof.antt gives a term for each goal, in the order of the goals, over a chain of records: c.before.before.number.ensures.0. NAMES says
which goal has which name today, and which record of the chain is which step. So a term becomes the answer to its goal's name, and a path
becomes c.STEP.FIELD. A term that is only `search rules` goes. For each function it prints 'ok', or what to look at by hand.
"""

import json
import os
import re
import sys
import traceback


def same(name):
    """A name as the older kit and today's both spell it."""
    return re.sub(r"[-_]", "", name).lower()


# Reading a Proof.antt.


def declarations(text):
    """The comment at its head, its `use` lines, and each signature with its clauses."""
    parts, part = [], []
    for line in text.split("\n"):
        if line and not line[0].isspace() and not line.startswith("--"):
            parts.append("\n".join(part))
            part = [line]
        else:
            part.append(line)
    parts.append("\n".join(part))
    uses, found, comment = [], [], ""
    for part in parts[1:]:
        lines, behind = part.rstrip("\n").split("\n"), []
        while lines and (lines[-1].startswith("--") or not lines[-1].strip()):
            behind.insert(0, lines.pop())
        body = "\n".join(lines)
        if body.startswith("use "):
            uses.append(body)
        elif re.match(r"(?:abbrev |unfoldable |pub |data |record )*\S+ *:(\s|$)", body):
            found.append([comment + body, []])
        else:
            found[-1][1].append(body)
        comment = "".join(line + "\n" for line in behind if line.strip())
    return parts[0].strip("\n"), uses, found


def closing(text, at):
    """Where the bracket that opens at `at` is closed, and one more."""
    depth = 0
    while True:
        if text.startswith("--", at) and text[at - 1] in " \n(":
            at = text.index("\n", at)
            continue
        depth += (text[at] in "([{") - (text[at] in ")]}")
        at += 1
        if depth == 0:
            return at


def arguments(text, at):
    found = []
    while at < len(text) and text[at] != ")":
        if text[at].isspace():
            at += 1
        elif text[at] == "(":
            end = closing(text, at)
            found.append(text[at:end])
            at = end
        else:
            word = re.compile(r"[^\s()]+").match(text, at)
            found.append(word.group(0))
            at = word.end()
    return found


def by_commas(text):
    parts, depth = [""], 0
    for letter in text:
        depth += (letter in "([{") - (letter in ")]}")
        if letter == "," and depth == 0:
            parts.append("")
        else:
            parts[-1] += letter
    return [p.strip() for p in parts if p.strip()]


def lets_apart(text):
    """The `let .. in` lines in front of a term, and the term."""
    lets, text = [], text.strip()
    while text.startswith("let "):
        depth, open_lets, at = 0, 1, 4
        while open_lets and at < len(text):
            depth += (text[at] in "([{") - (text[at] in ")]}")
            if depth == 0 and text[at - 1].isspace():
                open_lets += bool(re.match(r"let\s", text[at:])) - bool(re.match(r"in(\s|$)", text[at:]))
            at += 1
        if open_lets:
            break
        lets.append(text[: at - 1].strip() + " in")
        text = text[at + 1 :].strip()
    return lets, text


def parts_of(term, count):
    """The parts of a tuple, flat or nested to the right."""
    term = term.strip()
    if count == 1 or not (term.startswith("(") and closing(term, 0) == len(term)):
        return None
    parts = by_commas(term[1:-1])
    if len(parts) == count:
        return parts
    if len(parts) == 2 and count > 2:
        rest = parts_of(parts[1], count - 1)
        return rest and parts[:1] + rest
    return None


# From a path over the chain of records to today's path.


class Function:
    def __init__(self, names, in_cycle):
        self.names, self.in_cycle = names, in_cycle
        self.at = {place[0]: k for k, place in enumerate(names["places"])}
        self.look, self.tests_negated, self.start = [], False, None

    def place(self, name):
        return self.names["places"][self.at[name]]

    def arm(self, name):
        return self.names["arms"][self.at[name]]

    def clauses(self, fields):
        return ("clauses", fields) if fields and len(fields) > 1 else ("value",)

    def nearest(self, step, here):
        """The record on the way to the goal that has this step, near where the older chain had it."""
        chain, place = [], self.start
        while place is not None:
            chain.append(place)
            place = self.place(place)[1]
        depth = chain.index(here) if here in chain else len(chain)
        for plain in (same, lambda it: re.sub(r"\d+$", "", same(it))):
            fits = [(abs(k - depth), p) for k, p in enumerate(chain) if self.place(p)[2][0] and plain(self.place(p)[2][0]) == plain(step)]
            if fits:
                return min(fits)[1]
        return None

    def step(self, place, text):
        if self.arm(place):
            return ("arm", place, []), text
        return ("step", place), text + "." + self.place(place)[2][1]

    def path(self, kind, fields, text):
        """What the fields lead to, and today's path to it."""
        fields = list(fields)
        while fields:
            f = fields.pop(0)
            if kind[0] == "arm":
                place, passed = kind[1], kind[2] + [f]
                arm = self.arm(place)
                found = [e for e in arm[2] if same(e[1]) == same(self.place(place)[2][0]) and e[2] == passed]
                if found:
                    kind, text = ("value",), f"{text}.{arm[0]}.{found[0][0]}"
                else:
                    kind = ("arm", place, passed)
            elif kind[0] == "lent":
                params = self.names["params"].get(self.place(kind[1])[3] or "", [])
                if f == "1" and fields:
                    kind = ("lent", kind[1], kind[2] + 1)
                else:
                    k = kind[2] + (f == "1")
                    kind, text = ("value",), text + "." + (params[k] if f.isdigit() and k < len(params) else f)
            elif kind[0] == "place":
                place = kind[1]
                if f == "before":
                    kind = ("place", self.place(place)[1] or place)
                elif f in ("args", "ranges"):
                    kind, text = ("value",), text + "." + f
                elif f == "requires":
                    if self.in_cycle and fields and fields.pop(0) == "0":
                        kind, text = ("value",), text + ".decreases"
                    else:
                        kind, text = self.clauses((self.names.get("pre") or {}).get("fields")), text + ".requires"
                elif "known" in f and fields and fields[0] == "given":
                    lent = [v for typed in self.names["typed"] for v, step in typed if same(step) == same(f)]
                    fields.pop(0)
                    kind, text = ("value",), text + ".type_inv." + (lent[0] if lent else f)
                else:
                    here = place if self.place(place)[2][0] and same(self.place(place)[2][0]) == same(f) else self.nearest(f, place)
                    if here:
                        kind, text = self.step(here, text)
                    else:
                        self.look.append(f"no step {f} at {place}")
                        kind, text = ("value",), text + "." + f
            elif kind[0] == "step":
                text += "." + f
                if f == "ensures":
                    kind = self.clauses((self.names["clauses"][self.at[kind[1]]] or {}).get("fields"))
                else:
                    kind = ("lent", kind[1], 0) if f in ("new", "auto") else ("value",)
            elif kind[0] == "clauses" and f.isdigit():
                k = 0
                while f == "1" and k + 2 < len(kind[1]) and fields:
                    k, f = k + 1, fields.pop(0)
                kind, text = ("value",), text + "." + kind[1][k + (f == "1")]
            else:
                kind, text = ("value",), text + "." + f
        if kind[0] == "clauses":
            self.look.append("all clauses at once: " + text)
        return kind, text

    def term(self, text, place):
        """A term of the older kit at a goal of this place."""
        self.start = place
        known = {"c": (("place", place), "c")}
        bound = {x for m in re.finditer(r"λ ([^.]*)\.", text) for x in m.group(1).split()}
        words, k, out = re.findall(r"--[^\n]*|[^\s(){}\[\];,]+|.", text, re.S), 0, []

        def led(word):
            head, *fields = word.split(".")
            return self.path(known[head][0], fields, known[head][1]) if head in known else None

        while k < len(words):
            word = words[k]
            if word == "λ":
                while not words[k].endswith("."):
                    out.append(words[k])
                    k += 1
            elif word == "let":
                near = [(j, w) for j, w in enumerate(words[k : k + 14]) if not w.isspace()]
                if len(near) > 4 and near[2][1] == "=" and near[4][1] == "in" and led(near[3][1]):
                    kind, path = led(near[3][1])
                    if kind[0] in ("place", "arm"):
                        known[near[1][1]] = (kind, "c")
                        k += near[4][0] + 1
                        while k < len(words) and words[k].isspace():
                            k += 1
                    else:
                        known[near[1][1]] = (kind, near[1][1])
                        out.append("".join(words[k : k + near[3][0]]) + path + " in")
                        k += near[4][0] + 1
                    continue
            elif led(word):
                kind, path = led(word)
                if kind[0] == "place" and word != "c" and word in bound:
                    path = word
                out.append(path)
                k += 1
                continue
            out.append(words[k])
            k += 1
        text = "".join(out)
        # The test of `!x` says today what x is, and `not x` no more.
        text = re.sub(r"(?<![\w.-])(c\.if-not-[^\s(){}\[\];,.]+\.(?:true|false))(?![\w.])", r"(ap not \1)", text)
        text = re.sub(r"\(not-(?:true|false) [^\s()]+ \(ap not ([^\s()]+)\)\)", r"\1", text)
        text = re.sub(r"not-(?:true|false) [^\s()]+ \(ap not ([^\s()]+)\)", r"\1", text)
        self.tests_negated |= "ap not" in text
        return text


# Writing the two files.


def in_place_of(names, text):
    def one(m):
        head, dot, rest = m.group(0).partition(".")
        return names[head] + dot + rest if head in names else m.group(0)

    return re.sub(r"--[^\n]*|[^\s(){}\[\];,]+", one, text)


def used(uses, text):
    """The `use` lines, with what the text uses of each."""
    plain = re.sub(r"--[^\n]*", "", text)
    words = set(re.findall(r"[^\s(){}\[\];,.]+", plain)) | set(re.findall(r"[^\s(){}\[\];,]+", plain))
    kept = []
    for use in uses:
        items = re.match(r"use (\S+)\.\{(.*)\}$", use, re.S)
        if items:
            names = [n.strip() for n in items.group(2).split(",")]
            spoken = {n: n.split(" as ")[-1].strip() for n in names}
            names = [n for n in names if spoken[n] in words or spoken[n] == "[]" in text or all(p in words for p in spoken[n].split("◌") if p)]
            if names:
                kept.append(f"use {items.group(1)}.{{{', '.join(names)}}}")
        else:
            alias = re.match(r"use (\S+)(?: as (\S+))?$", use)
            if (alias.group(2) or alias.group(1).split(".")[-1]) in words:
                kept.append(use)
    return kept


def answer(goal, term, comment, in_cycle):
    return f"{comment}pub {goal} : goal.{goal}\n{goal} {'t ' if in_cycle else ''}c =\n    {term.strip()}"


def answers(function, goal, term, asked, comment, in_cycle):
    """One answer, or one for each clause that is not left to the tactics."""
    if not asked or len(asked) < 2:
        return [answer(goal, term, comment, in_cycle)]
    lets, whole = lets_apart(term)
    parts = parts_of(whole, len(asked))
    if not parts:
        ends = [".1" * k + (".0" if k + 1 < len(asked) else "") for k in range(len(asked))]
        function.look.append("a law for all clauses of " + goal)
        whole = f"let law = {whole} in\n    record {{ " + "; ".join(f"{a} = law{e}" for a, e in zip(asked, ends)) + " }"
        return [answer(goal, "\n    ".join(lets + [whole]), comment, in_cycle)]
    left = [(a, p) for a, p in zip(asked, parts) if p not in ("search rules", "tt")]
    if len(left) < len(asked):
        return [answer(f"{goal}-clause-{a}", "\n    ".join(lets + [p]), comment, in_cycle) for a, p in left]
    whole = "record {\n" + "".join(f"      {a} = {p};\n" for a, p in left) + "    }"
    return [answer(goal, "\n    ".join(lets + [whole]), comment, in_cycle)]


def turn(crate, names, folder):
    name, path = os.path.basename(os.path.abspath(crate)), os.path.join(crate, "proofs", folder)
    module = f"Rattle.{name}.proofs.{folder.replace('/', '.')}"
    in_cycle = "+" in folder
    with open(os.path.join(path, "Proof.antt"), encoding="utf-8") as f:
        head, uses, found = declarations(f.read())
    steps = dict(m.groups()[::-1] for m in (re.match(r"use \S+\.Lts-(\S+) as (\S+)$", u) for u in uses) if m)
    uses = [u for u in uses if not re.search(r"\.(Reads|Kinds) as |\.Lts|borrow\.Fn|\.Tie|\{statement\}$" if in_cycle else r"\.Tie|\.Statement\.\{statement\}$", u)]
    local, measures, spec, gone = {}, [], None, set()
    for signature, clauses in found:
        own = re.match(r"(?:--[^\n]*\n)*(?:abbrev |unfoldable |pub )*(\S+) *:", signature).group(1)
        body = "\n".join(clauses)
        if in_cycle and re.search(r" Measures | In |lts\.Claims\s*$", signature):
            if " Measures " in signature:
                measures.append(body.split("=", 1)[1].strip())
        elif "tie.spec" in body or (in_cycle and re.search(r"=\s*close ", body)):
            spec = body
        else:
            local[own] = (signature, body)
    if spec is None:
        return "no list of goals: by hand"
    members = [(steps[m.group(1).lstrip("(")], m.end()) for m in re.finditer(r"(\S+)\.spec\s", spec)] if in_cycle else [(None, spec.index("tie.spec") + 8)]
    invariants, found, look, negated = [], [], [], False
    for k, (member, at) in enumerate(members):
        key = "-".join([f"Rattle-{name}-proofs.{folder.replace('/', '.')}.Lts"] + ([member] if in_cycle else []))
        function = Function(names[key], in_cycle)
        before = member + "-" if len(members) > 1 else ""
        given = arguments(spec, at)
        if in_cycle:
            given = given[3:]
            params = next(p for d in names.values() for f, p in ((d.get("params") or {}).items() if d else ()) if f.split("::")[-1] == member)
            measure = re.sub(r"(?<![\w.])a\.((?:1\.)*)([01])(?!\w)", lambda m: "l." + params[m.group(1).count("1.") + int(m.group(2))], measures[k])
            invariants.append(f"abbrev pub decreases-{member} : goal.decreases-{member}\ndecreases-{member} l = {measure}")
        while given and given[0] in local and re.search(r": *\S+\.(invariant|decreases)-", local[given[0]][0]):
            own = given.pop(0)
            gone.add(own)
            kind, loop = re.search(r": *\S+\.(invariant|decreases)-(\S+)", local[own][0]).groups()
            which = next(i for i, it in enumerate(function.names["loops"]) if same(it[0][0]) == same(loop))
            (_, today), variables = function.names["loops"][which]
            changed = function.names["changed"][which]
            m = re.match(re.escape(own) + r"((?:\s+\S+?)*?)\s+=\s", local[own][1])
            spelt = [("l.initial." if c else "l.") + v for v, c in zip(variables, changed)] + ["l." + v for v, c in zip(variables, changed) if c]
            body = in_place_of(dict(zip(m.group(1).split(), spelt)), local[own][1][m.end() :]).strip()
            goal = f"{kind}-{before}{today}"
            invariants.append(f"abbrev pub {goal} : goal.{goal}\n{goal} l = {body}")
        if len(given) != len(function.names["needs"]):
            look.append(f"{len(given)} terms for {len(function.names['needs'])} goals")
        for own, (old, today), (place, _) in zip(given, function.names["needs"], function.names["asked_at"]):
            applied = re.match(r"\((\S+) t\)$", own)
            own, comment = applied.group(1) if applied and applied.group(1) in local else own, ""
            if own in local:
                gone.add(own)
                comment = re.match(r"((?:--[^\n]*\n)*)", local[own][0]).group(1)
                m = re.match(re.escape(own) + r"(?:\s+t)?\s+c((?:\s+[^\s=]+)*)\s*=\s", local[own][1])
                term = local[own][1][m.end() :]
            else:
                m = re.match(r"\(λ c((?:\s+[^\s.]+)*)\.\s*(.*)\)$", own, re.S)
                term = m.group(2)
            more = [x for x in m.group(1).split() if x != "κs"]
            if term.strip() not in ("search rules", "tt"):
                term = function.term(("λ " + " ".join(more) + ". " if more else "") + term, place)
                asked = function.names["asked"].get(old) or function.names["asked"].get(today)
                found += answers(function, before + today, term, asked, comment, in_cycle)
        look += function.look
        negated |= function.tests_negated
    kept = [own for own in local if own not in gone]
    text = "\n\n".join([local[own][0] + "\n" + local[own][1] for own in kept] + found)
    for own in kept:
        if "-" in own:
            text = re.sub(r"(?<![^\s(){}\[\];,])" + re.escape(own) + r"(?![^\s(){}\[\];,.])", own.replace("-", "_"), text)
    for module_of, word in (("Path", "ap"), ("Bool", "not")):
        if negated and not any(re.search(rf"[{{ ]{word}[,}}]", u) for u in uses):
            uses.insert(0, f"use mathlib.Core.{module_of}.{{{word}}}")
    for file, body, top, last in (("Invariants", "\n\n".join(invariants), [], "Given"), ("Answers", text, [head] if head else [], "Goals")):
        if body:
            with open(os.path.join(path, file + ".antt"), "w", encoding="utf-8") as f:
                f.write("\n".join(top + used(uses, body) + [f"use {module}.{last} as goal"]) + "\n\n" + body + "\n")
    os.remove(os.path.join(path, "Proof.antt"))
    return "; ".join(look) or "ok"


def main(crate, names, *only):
    with open(names, encoding="utf-8") as f:
        names = json.load(f)
    proofs = os.path.join(crate, "proofs")
    for root, _, files in sorted(os.walk(proofs)):
        folder = os.path.relpath(root, proofs)
        if "Proof.antt" in files and (not only or folder in only):
            try:
                print(folder, turn(crate, names, folder))
            except Exception:
                print(folder, "by hand:", traceback.format_exc().strip().split("\n")[-1])


main(*sys.argv[1:])

#!/usr/bin/env python3
"""Turns proofs that walk the code, Proof.antt, into Invariants.antt and Answers.antt, each goal under its name of today.

usage: python3 tools/answers.py CRATE NAMES [FUNCTION ..]     at the top of the repository. NAMES is the names.json of
       'rt check --generated DIR --old-names' in the crate. A function is named as its folder below proofs/.

It goes by text: the check decides. It prints what it could not turn, and leaves that function's Proof.antt where it stands.
Answers that only say 'search rules' are left out, since the check tries that by itself.
"""
import json
import os
import re
import sys

NAME = r"[^\s(){}.;,@\"«»\[\]|]+"


def same(name):
    return name.replace("-", "_")


def blocks(text):
    """The items that begin at the left edge, each with the comments above it."""
    out, pending = [], []
    for line in text.split("\n"):
        if line.startswith("--") or not line.strip():
            pending.append(line)
        elif line[0] in " \t)]}":
            out[-1] += "\n" + "\n".join(pending + [line]) if pending else "\n" + line
            pending = []
        else:
            head = [p for p in pending if p.strip()]
            out.append("\n".join(head + [line]))
            pending = []
    return out


def code(block):
    return "\n".join(l for l in block.split("\n") if not l.startswith("--"))


def cut(text, ends):
    """The pieces of a text between the characters that end one and stand in no bracket."""
    out, depth, cur = [], 0, ""
    for ch in text:
        depth += (ch in "([{") - (ch in ")]}")
        if ends(ch) and depth == 0:
            out.append(cur.strip())
            cur = ""
        else:
            cur += ch
    return out + [cur.strip()] * bool(cur.strip())


def arguments(text):
    """The arguments of an application."""
    return [piece for piece in cut(text, str.isspace) if piece]


def split_top(text):
    """The components of a tuple or a list of imports."""
    return cut(text, lambda ch: ch == ",")


class Left(Exception):
    pass


SIGNATURES = {}


def lent_to(callee, params):
    """The parameters of a function that are lent to be written, by its source."""
    if not SIGNATURES:
        for folder, _, files in os.walk("crates"):
            for f in files:
                if f.endswith(".rt"):
                    with open(os.path.join(folder, f), encoding="utf-8") as text:
                        for m in re.finditer(r"\bfn (\w+)[^(]*\(([^)]*)\)", text.read()):
                            words = [w.strip() for w in m.group(2).split(",") if w.strip()]
                            names = [w.split(":")[0].strip() for w in words]
                            SIGNATURES.setdefault(m.group(1), []).append((names, [w.split(":")[0].strip() for w in words if "&mut" in w]))
    found = [lent for names, lent in SIGNATURES.get(callee.split("::")[-1], []) if names == params]
    return found[0] if found else []


class Function:
    def __init__(self, about):
        self.about = about
        self.places = {p[0]: i for i, p in enumerate(about["places"])}


    def dashed(self, word):
        """Whether a word with a dash is one that the check makes."""
        return word in ("ref-ptr", "ghost-name")

    def clause(self, fields, rest):
        """Nested pairs to the name of a clause: the path behind '.ensures' or '.requires'."""
        if not fields or len(fields) < 2:
            return "", rest
        at = 0
        rest = list(rest)
        while True:
            last = at == len(fields) - 1
            if last:
                return "." + fields[at], rest
            if not rest:
                return None, at
            step = rest.pop(0)
            if step == "0":
                return "." + fields[at], rest
            if step != "1":
                raise Left(f"clause {step} of {fields}")
            at += 1

    def here(self, place, words):
        """The path of a step that this place has, or None."""
        i = self.places[place]
        spec = self.about["places"][i]
        step, rest = words[0], words[1:]
        arms = self.about["arms"][i] if i < len(self.about["arms"]) else None
        if arms:
            best = None
            for field, old, way in arms[2]:
                if same(old) == same(step) and rest[: len(way)] == way and (best is None or len(way) > len(best[1])):
                    best = (field, way)
            if best and best[1]:
                return f"c.{arms[0]}.{best[0]}" + "".join("." + w for w in rest[len(best[1]) :])
        if same(step).lower() not in (same(spec[2][0]).lower(), same(spec[2][1]).lower()):
            return None
        new = "c." + spec[2][1]
        if arms and step == spec[2][0]:
            new = "c." + arms[0]
        if rest and rest[0] == "ensures":
            fields = (self.about["clauses"][i] or {}).get("fields")
            return self.clauses(new + ".ensures", fields, rest[1:])
        if len(rest) > 1 and rest[0] == "new" and rest[1] in ("0", "1") and spec[3]:
            lent = lent_to(spec[3], self.about["params"].get(spec[3], []))
            if len(lent) == 1:
                return self.clauses(f"{new}.new.{lent[0]}", None, rest[2:])
            name, more = self.clause(lent, rest[1:])
            if name:
                return f"{new}.new{name}" + "".join("." + w for w in more)
        return new + "".join("." + w for w in rest)

    def path(self, place, words):
        """A path from the record of a place, in today's names; a place itself gives None and the place."""
        chain = [place]
        while self.about["places"][self.places[chain[-1]]][1] is not None:
            chain.append(self.about["places"][self.places[chain[-1]]][1])
        words = list(words)
        words[:] = ["all-ascii" if w == "all_IsAscii" else re.sub(r"_Is([A-Z])", lambda m: "-" + m.group(1).lower(), re.sub(r"_(lem|when|it|fn)$", "", w)) for w in words]
        up = 0
        while words and words[0] == "before":
            up += 1
            words.pop(0)
        if not words:
            return None, place
        # A field of the source has no dash; a field of specs/ may.
        words[1:2] = [same(w) for w in words[1:2] if not self.dashed(w)] or words[1:2]
        if len(words) > 2 and words[1] in ("result", "new", "now"):
            words[2] = same(words[2])
        if len(words) > 3 and words[1] == "args" or words[0] == "args":
            words[2:4] = [same(w) if re.fullmatch(r"[a-z-]+", w) and w != "ref-ptr" else w for w in words[2:4]]
        step, rest = words[0], words[1:]
        if same(step) in ("args", "ranges"):
            return "c." + ".".join([step] + rest), None
        if step == "requires":
            fields = (self.about["pre"] or {}).get("fields")
            return self.clauses("c.requires", fields, rest), None
        # Where the older text had more or fewer places on the way, the step is the nearest of its name.
        for at in sorted(range(len(chain)), key=lambda k: abs(k - up)):
            found = self.here(chain[at], words)
            if found:
                return found, None
        raise Left(f"no step {step} above {place}")

    def clauses(self, head, fields, rest):
        if not fields or len(fields) < 2:
            return head + "".join("." + w for w in rest)
        name, more = self.clause(fields, rest)
        if name is None:
            whole = [f"{head}.{f}" for f in fields[more:]]
            out = whole[-1]
            for w in reversed(whole[:-1]):
                out = f"({w}, {out})"
            return out
        return head + name + "".join("." + w for w in more)


PATH = re.compile(rf"(?<![\w.'-])({NAME})((?:\.(?!\.)[^\s(){{}}.;,@\"«»\[\]|]+)*)")


def body(fn, place, var, text):
    """A body with its paths turned."""
    alias = {var: (place, [])}
    out, at = "", 0
    depth, hidden = 0, []
    let = re.compile(rf"let ({NAME}) = ({NAME})((?:\.[^\s(){{}}.;,@\"«»\[\]|]+)*) in(?=\s)")
    while at < len(text):
        m = let.match(text, at)
        if m and m.group(2) in alias:
            p, way = alias[m.group(2)]
            words = way + [w for w in m.group(3).split(".") if w]
            alias[m.group(1)] = (p, words)
            at = m.end()
            while at < len(text) and text[at].isspace():
                at += 1
            continue
        # A name that a λ binds is its own, up to where the brackets round the λ end.
        m = re.match(rf"λ (?:\(({NAME}) :|({NAME})\.\s)", text[at:])
        if m and (m.group(1) or m.group(2)) in alias:
            hidden.append((depth, m.group(1) or m.group(2), alias.pop(m.group(1) or m.group(2))))
        if text[at] in "([{":
            depth += 1
        elif text[at] in ")]}":
            depth -= 1
            while hidden and depth < hidden[-1][0]:
                _, name, was = hidden.pop()
                alias[name] = was
        m = PATH.match(text, at)
        if m and (at == 0 or not re.match(r"[\w.'-]", text[at - 1])) and m.group(1) in alias:
            p, way = alias[m.group(1)]
            words = way + [w for w in m.group(2).split(".") if w]
            new, where = fn.path(p, words)
            if new is None:
                raise Left(f"a place is used whole: {m.group(0)}")
            out += new
            at = m.end()
            continue
        m = re.match(NAME, text[at:])
        if m:
            out += m.group(0)
            at += m.end()
        else:
            out += text[at]
            at += 1
    return out


def lets(text):
    """Splits leading lets from what they end in."""
    at = 0
    while True:
        m = re.match(r"\s*let\b", text[at:])
        if not m:
            return text[:at], text[at:]
        depth, i, inner = 0, at + m.end(), 0
        while i < len(text):
            if text[i] in "([{":
                depth += 1
            elif text[i] in ")]}":
                depth -= 1
            elif depth == 0 and re.match(r"\blet\b", text[i:]) and text[i - 1].isspace():
                inner += 1
            elif depth == 0 and re.match(r"in\b", text[i:]) and text[i - 1].isspace():
                if inner == 0:
                    break
                inner -= 1
            i += 1
        else:
            return text[:at], text[at:]
        at = i + 2


def record(fields, text):
    head, tail = lets(text)
    tail = tail.strip()
    parts = []
    cur = tail
    for k in range(len(fields) - 1):
        if not (cur.startswith("(") and closes(cur)):
            return None
        inside = split_top(cur[1:-1])
        if len(inside) < 2:
            return None
        parts.append(inside[0])
        cur = inside[1] if len(inside) == 2 else "(" + ", ".join(inside[1:]) + ")"
    parts.append(cur)
    return head.rstrip() + ("\n    " if head else "") + "record {\n" + "".join(f"      {f} = {p};\n" for f, p in zip(fields, parts)) + "    }"


def closes(text):
    depth = 0
    for i, ch in enumerate(text):
        if ch in "([{":
            depth += 1
        elif ch in ")]}":
            depth -= 1
            if depth == 0:
                return i == len(text) - 1
    return False


def align(answers, named, needs, fits):
    """The goal of each answer, in order, where the check asks for other goals than it did; fits says whether the answer's paths can be read at a goal."""
    plain = lambda w: re.sub(r"_\d+$", "", re.sub(r"^overflow_", "", same(w)))

    known = {}

    def cost(a, k):
        if (a, k) not in known:
            known[a, k] = cost_of(a, k)
        return known[a, k]

    def cost_of(a, k):
        if a in named:
            label = plain(re.sub(r"^Need-", "", named[a][0]))
            if label not in (plain(needs[k][0]), plain(needs[k][1])):
                return 100
            return 0 if fits(a, k) else 40
        # The answer of a call's premise takes one argument more.
        odd = ("κs" in a.split(".")[0]) != ("requires" in needs[k][0])
        return 1 + 30 * odd + (0 if fits(a, k) else 40)

    def dropped(a):
        return 100 if a in named else 2 if "search rules)" in a and "let " not in a else 60

    n, m = len(answers), len(needs)
    best = [[0] * (m + 1) for _ in range(n + 1)]
    for i in range(n - 1, -1, -1):
        best[i][m] = best[i + 1][m] + dropped(answers[i])
    for j in range(m - 1, -1, -1):
        best[n][j] = best[n][j + 1] + 1
    for i in range(n - 1, -1, -1):
        for j in range(m - 1, -1, -1):
            best[i][j] = min(best[i + 1][j + 1] + cost(answers[i], j), best[i + 1][j] + dropped(answers[i]), best[i][j + 1] + 1)
    out, i, j = [], 0, 0
    while i < n:
        if j < m and best[i][j] == best[i + 1][j + 1] + cost(answers[i], j):
            out.append(j if cost(answers[i], j) < 100 else None)
            i, j = i + 1, j + 1
        elif best[i][j] == best[i + 1][j] + dropped(answers[i]):
            out.append(None)
            i += 1
        else:
            j += 1
    return out


def turn(path, about):
    fn = Function(about)
    with open(path, encoding="utf-8") as f:
        items = blocks(f.read())
    uses, helpers, named, final, unfolded = [], [], {}, None, ""
    for item in items:
        c = code(item)
        if re.match(r"(pub )?use ", c):
            uses.append(c)
            continue
        if re.match(r"(pub )?\S+_spec\b", c):
            final = (final or "") + "\n" + c
            continue
        if c.startswith("unfolding ") and final:
            unfolded = c.strip() + "\n"
            continue
        m = re.match(rf"(?:abbrev )?(?:pub )?({NAME}) : tie\.({NAME})(.*)$", c.split("\n")[0])
        if m:
            named[m.group(1)] = [m.group(2), item, []]
            last = m.group(1)
            continue
        m = re.match(rf"({NAME})", c)
        if m and m.group(1) in named:
            named[m.group(1)][2].append(item)
        elif c.startswith("unfolding ") and named:
            named[last][2].append(item)
        elif helpers and not re.match(rf"(?:abbrev |unfoldable |pub )*{NAME} :", c) and not re.match(r"(pub )?(record|data|abbrev|unfoldable|ruleset|syntax) ", c):
            # The equations of what stands above.
            helpers[-1] += "\n" + item
        else:
            helpers.append(item)
    if not final:
        raise Left("no proof of the function at its end")
    head = final
    m = re.search(r"\(tie\.spec\b", head)
    if not m:
        if re.search(r"tie\.spec\b", head):
            raise Left("the spec is not in brackets")
        args = []
    else:
        depth, i = 0, m.start()
        while True:
            if head[i] == "(":
                depth += 1
            elif head[i] == ")":
                depth -= 1
                if depth == 0:
                    break
            i += 1
        args = arguments(head[m.end() : i])
    extra = 2 * len(about["loops"])
    measures, answers = args[:extra], args[extra:]
    # Loops: every invariant and measure stands ahead of the answers.
    for a in list(answers):
        if a in named and re.match(r"(invariant|decreases)-", named[a][0]):
            measures.append(a)
            answers.remove(a)
    needs = about["needs"]
    fits = len(answers) == len(needs)
    where = list(range(len(answers)))
    if not fits:


        def readable(a, k):
            try:
                text = code("\n".join([named[a][1]] + named[a][2])).split(" =", 1)[1] if a in named else re.match(r"\(λ ((?:\S+ )*?\S+)\. (.*)\)$", a, re.S).group(2)
                body(fn, about["asked_at"][k][0], "c", text)
                return True
            except Left:
                return False

        where = align(answers, named, needs, readable)
    got = []
    for k, a in enumerate(answers):
        if a in named:
            if where[k] is None:
                raise Left(f"no goal {named[a][0]}")
            got.append((needs[where[k]][1], where[k], named[a][1], named[a][2], a))
        else:
            m = re.match(r"\(λ ((?:\S+ )*?\S+)\. (.*)\)$", a, re.S)
            if not m:
                raise Left(f"an answer that is no λ: {a[:60]}")
            if m.group(2).strip() == "search rules":
                continue
            if where[k] is None:
                raise Left("an answer with no name, and the goals do not fit")
            got.append((needs[where[k]][1], where[k], None, [m.group(2)], m.group(1)))
    out_given, out_answers = [], []
    variables = {}
    for (names, vars_), changed in zip(about["loops"], about["changed"]):
        variables[names[0]] = (names[1], vars_, changed)
    for a in measures:
        if a not in named:
            raise Left(f"a measure that has no name: {a[:40]}")
        kind, item, rest = named[a]
        kind_word, loop = kind.split("-", 1)
        found = [v for k, v in variables.items() if same(k) == same(loop)] or [v for v in variables.values() if same(v[0]) == same(loop)]
        if not found:
            raise Left(f"no loop {loop}")
        new, vars_, changed = found[0]
        text = code("\n".join(rest)) if rest else code(item).split("\n", 1)[1]
        comment = "\n".join(l for l in item.split("\n") if l.startswith("--"))
        m = re.match(rf"(unfolding [^\n]*\n)?({NAME})((?: {NAME})*?) =(?=\s)", text)
        if not m:
            raise Left(f"an invariant of another form: {text[:60]}")
        params = m.group(3).split()
        first = [(p, v) for p, v in zip(params, vars_)]
        moving = [v for v, ch in zip(vars_, changed) if ch]
        second = list(zip(params[len(vars_) :], moving))
        if len(params) != len(vars_) + len(moving):
            raise Left(f"{len(params)} parameters of {a}, of {len(vars_)} and {len(moving)} variables")
        table = {}
        for p, v in first:
            table[p] = f"l.initial.{v}" if v in moving else f"l.{v}"
        for p, v in second:
            table[p] = f"l.{v}"
        rhs = text[m.end() :]

        def put(mm):
            return table[mm.group(1)] + mm.group(2) if mm.group(1) in table else mm.group(0)

        rhs = re.sub(rf"(?<![\w.'-])({NAME})((?:\.[^\s(){{}}.;,@\"«»\[\]|]+)*)", put, rhs)
        out_given.append((comment + "\n" if comment else "") + f"abbrev pub {kind_word}-{new} : goal.{kind_word}-{new}\n" + (m.group(1) or "") + f"{kind_word}-{new} l ={rhs.rstrip()}")
    for new, k, item, rest, name in got:
        place = about["asked_at"][k][0]
        fields = about["asked"].get(needs[k][0])
        if item is None:
            var, text, lead, comment = name.split()[0], rest[0], unfolded, ""
        else:
            text = code("\n".join(rest)) if rest else "\n".join(code(item).split("\n")[1:])
            comment = "\n".join(l for l in item.split("\n") if l.startswith("--"))
            m = re.match(rf"(unfolding [^\n]*\n)?({NAME})((?: {NAME})*?) =(?=\s)", text)
            if not m:
                raise Left(f"an answer of another form: {text[:60]}")
            lead, var, text = m.group(1) or "", m.group(3).split()[0], text[m.end() :]
        done = body(fn, place, var, text).rstrip()
        # What the earlier arms left is read by omega where it stands.
        for gone in re.findall(r"let (\w+) = past \d+ \d+ \S+ c\.in_default\S* (?:\([^()]*\)|\S+) in ", done):
            done = re.sub(rf"let {gone} = past \d+ \d+ \S+ c\.in_default\S* (?:\([^()]*\)|\S+) in ", "", done)
            done = re.sub(rf"omega \(arith, {gone}(, [^()]*)?\)", "omega arith", done)
        # A test of a call behind a `!` says today what the call answered.
        called = {(p[3] or "").split("::")[-1] for p in about["places"]}

        def turned(m):
            return f"(ap not {m.group(0)})" if re.sub(r"-\d+$", "", m.group(1)) in called else m.group(0)

        step = r"c\.if-not-([^\s(),{};.]+)\.(?:true|false)\b"
        done = re.sub(rf"\bnot-(true|false) (?:_|\([^()]*\)|c\.[^\s()]+) ({step})", lambda m: "«" + m.group(2) if re.sub(r"-\d+$", "", m.group(3)) in called else m.group(0).replace("c.if-not-", "«c.if-not-"), done)
        done = re.sub(rf"(?<!«)\b{step}", turned, done).replace("«", "")
        if fields and len(fields) > 1:
            made = record(fields, done)
            if made is None:
                head, tail = lets(done)
                again = re.match(r"\s*rw (\S+) (\S.*)$", tail, re.S) if not tail.strip().startswith("rw (") else None
                if tail.strip().startswith("rw ("):
                    words = arguments(tail.strip())
                    again = words if len(words) == 3 else None
                else:
                    again = arguments(tail.strip()) if again else None
                if again and len(again) == 3:
                    inner = record(fields, again[2])
                    if inner:
                        pieces = re.findall(r"(?m)^      (\w+) = (.*);$", inner)
                        made = head.rstrip() + ("\n    " if head else "") + "record {\n" + "".join(f"      {f} = rw {again[1]} {t if closes(t) or ' ' not in t else '(' + t + ')'};\n" for f, t in pieces) + "    }"
            if made is None and lets(done)[1].strip().startswith("rw "):
                # A pair that is rewritten: each part by itself.
                head, tail = lets(done)
                words = arguments(tail.strip())
                inner = record(fields, words[3]) if len(words) == 4 and words[2] == "at" else None
                if inner:
                    made = head.rstrip() + ("\n    " if head else "") + re.sub(r"(?m)^      (\w+) = ", lambda m: f"      {m.group(1)} = rw {words[1]} at ", inner)
            if made is None and re.match(r"\s*(omega|grind|search)\b", lets(done)[1]):
                # A tactic proves each field by itself.
                head, tail = lets(done)
                made = head.rstrip() + ("\n    " if head else "") + "record { " + "; ".join(f"{f} = {tail.strip()}" for f in fields) + " }"
            if made is None and lets(done)[1].strip().startswith("rw "):
                # A pair behind a rewriting: what is rewritten stands in the first field, mostly what the call answered.
                head, tail = lets(done)
                words = arguments(tail.strip())
                if len(words) == 3:
                    way = [f"p" + ".1" * j + (".0" if j < len(fields) - 1 else "") for j in range(len(fields))]
                    inner = words[2][1:-1] if closes(words[2]) else words[2]
                    made = head.rstrip() + f"\n    let p = {inner} in record {{ " + "; ".join(f"{f} = {f'rw {words[1]} ' if j == 0 else ''}{w}" for j, (f, w) in enumerate(zip(fields, way))) + " }"
            if made is None:
                way = [f"p" + ".1" * j + (".0" if j < len(fields) - 1 else "") for j in range(len(fields))]
                made = head.rstrip() + f"\n    let p = {tail.strip()} in record {{ " + "; ".join(f"{f} = {w}" for f, w in zip(fields, way)) + " }"
            done = " " + made.lstrip() if not made.startswith("\n") else made
        if not done.startswith(("\n", " ")):
            done = " " + done
        out_answers.append((comment + "\n" if comment else "") + f"pub {new} : goal.{new}\n{lead}{new} c ={done}")
    module = next(re.search(r"use (\S+)\.Tie as tie", u).group(1) for u in uses if ".Tie as tie" in u)
    uses = [u for u in uses if ".Tie as tie" not in u and ".Statement." not in u]
    if any("(ap not " in a for a in out_answers):
        uses += [] if any(re.match(r"use mathlib\.Core\.Path\.\{(.*, )?ap[,}]", u) for u in uses) else ["use mathlib.Core.Path.{ap}"]
        uses += [] if any(re.match(r"use mathlib\.Core\.Bool\.\{(.*, )?not[,}]", u) for u in uses) else ["use mathlib.Core.Bool.{not}"]
    comment = "\n".join(l for l in items[0].split("\n") if l.startswith("--") and "Assumes nothing" not in l)
    folder = os.path.dirname(path)

    def needed(text):
        """The imports that a text names."""
        out = []
        for u in uses:
            m = re.match(r"((?:pub )?use [^\s{]+?\.)\{(.*)\}$", u, re.S)
            if not m:
                if re.search(r"(?<![\w.])" + re.escape(u.split(" as ")[-1].strip()) + r"(?![\w])", text):
                    out.append(u)
                continue
            keep = []
            for w in split_top(m.group(2)):
                shown = w.split(" as ")[-1].strip()
                parts = [p for p in shown.split("◌") if p]
                if all(re.search(r"(?<![^\s().,{};\[\]])" + re.escape(p) + r"(?![^\s().,{};\[\]])", text) for p in parts):
                    keep.append(w)
            if keep:
                out.append(m.group(1) + "{" + ", ".join(keep) + "}")
        return "\n".join(out)

    shared = [h for h in helpers if any(re.search(rf"(?<![\w.'-]){re.escape(re.match(NAME, re.sub(r'^(abbrev |unfoldable |pub )*', '', code(h))).group(0))}(?![\w'-])", g) for g in out_given)]
    if out_given:
        text = "\n\n".join(shared + out_given)
        with open(os.path.join(folder, "Invariants.antt"), "w", encoding="utf-8") as f:
            f.write((comment + "\n" if comment else "") + needed(text) + f"\nuse {module}.Given as goal\n\n" + text + "\n")
    rest = [h for h in helpers if h not in shared]
    if out_answers:
        text = "\n\n".join(rest + out_answers)
        with open(os.path.join(folder, "Answers.antt"), "w", encoding="utf-8") as f:
            f.write((comment + "\n" if comment and not out_given else "") + needed(text) + f"\nuse {module}.Goals as goal\n\n" + text + "\n")
    if shared:
        print(f"    the invariant has helpers of its own")
    os.rename(path, path + ".old")


def main():
    crate, names, only = sys.argv[1], sys.argv[2], sys.argv[3:]
    with open(names) as f:
        about = json.load(f)
    base = f"crates/{crate}/proofs"
    for folder, _, files in sorted(os.walk(base)):
        if "Proof.antt" not in files:
            continue
        name = os.path.relpath(folder, base)
        if only and name not in only:
            continue
        key = f"Rattle-{crate}-proofs.{name.replace('/', '.')}.Lts"
        try:
            if key not in about:
                raise Left(f"no names of it ({key})")
            turn(os.path.join(folder, "Proof.antt"), about[key])
            print(f"turned {name}")
        except Left as e:
            print(f"LEFT {name}: {e}")
        except Exception as e:  # noqa: BLE001
            print(f"LEFT {name}: {type(e).__name__} {e}")


if __name__ == "__main__":
    main()

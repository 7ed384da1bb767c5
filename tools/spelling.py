#!/usr/bin/env python3
"""Brings the names that specs/ and proofs/ declare to one spelling. It was run once, right after the port to the Rattle of
docs/PORT.md, and stands here so that it can be run again on the older text. It compares nothing and proves nothing.

usage: python3 tools/spelling.py [--list]      at the top of the repository; --list prints the table and writes nothing

The spelling: a word is in snake case, `numeralOf` is `numeral_of`. A dash stays where it joins two names, as in
`length-take`, or a type and what is said of it; before a plain word it is an underscore, `put-twice` is `put_twice`.
Functions of src/, types, C names and texts in quotes keep their spelling. Names that would fall together keep theirs and
are printed.
"""
import collections
import glob
import re
import sys

WORD = r"[^\s(){}.;,@\"«»`\[\]|:/\\]+"
QUOTED = r'"(?:[^"\\\n]|\\.)*"'
DECLARED = re.compile(rf"^(\s*)((?:abbrev |unfoldable |pub |cases )*)(?:(record|data|ruleset) )?({WORD})(?: +[^:=]*)? *:(?= |$)")
HEAD = re.compile(rf"^(\s*)((?:abbrev |unfoldable |pub )*)(record|data|ruleset) ({WORD})")


def sources(*patterns):
    return sorted(p for pattern in patterns for p in glob.glob(pattern, recursive=True))


def read(path):
    with open(path, encoding="utf-8") as f:
        return f.read()


def snake(name):
    return re.sub(r"(?<=[a-z0-9])[A-Z]", lambda m: "_" + m.group(0).lower(), name) if re.match(r"[a-z]", name) else name


def camel(name):
    return re.match(r"[a-z]", name) and snake(name) != name


def scan():
    """The names that are declared: all of them, the definitions among them, and the answers to a proof's goals."""
    every, definitions, answers, imported = set(), set(), set(), set()
    for path in sources("crates/*/specs/**/*.antt", "crates/*/proofs/**/*.antt"):
        laws = path.endswith("Laws.antt") or "/proofs/" in path
        for line in read(path).split("\n"):
            code = line.split("--")[0] if re.match(r"\s*--", line) else line
            use = re.match(r"(?:pub )?use ([^\s{]+?)\.?\{(.*)\}", code)
            if use:
                if not use.group(1).startswith("Rattle.") or use.group(1).startswith("Rattle.std"):
                    imported.update(w.split(" as ")[-1].strip() for w in use.group(2).split(","))
                continue
            head = HEAD.match(code)
            if head:
                every.add(head.group(4))
                definitions.add(head.group(4))
                continue
            m = DECLARED.match(code)
            if not m or m.group(4) in ("use", "where", "let", "in", "--"):
                continue
            name = m.group(4)
            every.add(name)
            if re.search(r": (tie|goal)\.", code):
                answers.add(name)
            elif not laws or "abbrev" in m.group(2) or "unfoldable" in m.group(2):
                definitions.add(name)
    functions = set()
    for path in sources("crates/*/src/*.rt"):
        functions.update(re.findall(r"\bfn (\w+)", read(path)))
        functions.update(re.findall(r"^    (?:pub )?(\w+): ", read(path), re.M))
    return every, definitions, answers, imported, functions


# Words of the library that lemmas are named after.
LIBRARY = "length take drop append map filter reverse concat get getD set cond eqb leb ltb lt le eq add mul sub div mod suc zero cons nil head tail put all any sum not and or min max".split()


def dashes(name, known):
    parts = name.split("-")
    out = parts[0]
    i = 1
    while i < len(parts):
        for j in range(len(parts), i, -1):
            if any(sep.join(parts[i:j]) in known for sep in "-_"):
                out += "-" + "_".join(parts[i:j])
                i = j
                break
        else:
            out += ("-" if re.match(r"[A-Z]", parts[i - 1]) else "_") + parts[i]
            i += 1
    return out


def table():
    every, definitions, answers, imported, functions = scan()
    known = {snake(d) for d in definitions if "-" not in d} | set(definitions) | functions | set(LIBRARY)
    known |= {snake(d).replace("_", "-") for d in definitions if "-" not in d}
    # A dash joins names as these are spelled now, so the words of a lemma are looked up one by one.
    rows = {}
    for name in sorted(every):
        if name in imported or name in answers or not re.match(r"[A-Za-z]", name):
            continue
        new = name
        if name.endswith("-spec") and name[:-5].replace("-", "_") in functions:
            new = name.replace("-", "_")
        elif name in definitions and "-" in name:
            new = snake(name.replace("-", "_")) if re.match(r"[a-z]", name) else name
        else:
            new = dashes("-".join(snake(p) for p in name.split("-")), known) if "-" in name else snake(name)
        if new != name:
            rows[name] = new
    return rows, every


def bare(path):
    """The names of a file that stand for themselves, so not behind a dot, each with whether all its places are of a module."""
    found = {}
    for m in re.finditer(rf"(?<![.\w'-])({WORD})(\.(?=\w))?", re.sub(QUOTED, "", re.sub(r"(?m)^\s*--.*$", "", read(path)))):
        found[m.group(1)] = found.get(m.group(1), True) and bool(m.group(2))
    return found


def part(rows, every, definitions, refusals, texts):
    """Gives other names to what would fall together with a definition in one file; and by file, to modules that would."""
    own = collections.defaultdict(dict)
    names = collections.defaultdict(set)
    for old in every:
        names[rows.get(old, old)].add(old)
    for path in texts:
        if path.endswith(".rt"):
            continue
        here = bare(path)
        seen = collections.defaultdict(set)
        for name in here:
            seen[rows.get(name, name)].add(name)
        for new, olds in seen.items():
            first = next((o for o in sorted(olds) if camel(o) and o in definitions), None) or next((o for o in sorted(olds) if o in definitions), None)
            if len(olds) < 2 or not first:
                continue
            for other in olds - {first}:
                if here[other] and other not in definitions:
                    own[path][other] = new + "_fn"
                elif other in every:
                    rows[other] = new + ("_when" if first in refusals else "_lem")
                else:
                    own[path][other] = new + "_it"
                print(f"together: {first} and {other} in {path}: {own[path].get(other, rows.get(other))}")
    return own


def main():
    rows, every = table()
    _, definitions, _, _, functions = scan()
    texts = sources("crates/*/specs/**/*.antt", "crates/*/proofs/**/*.antt", "crates/*/src/*.rt")
    refusals = set(re.findall(r"abbrev pub (\w+) : ", read("crates/text/specs/Refusal.antt")))
    # A field or a case that is named after a refusal is told from the number of it.
    for name in [n for n in every if n not in refusals]:
        if rows.get(name, name) in {snake(r) for r in refusals}:
            rows[name] = rows.get(name, name) + "_when"
    own = part(rows, every, definitions, refusals, texts)
    if "--list" in sys.argv:
        for old, new in sorted(rows.items()):
            print(f"{old}\t{new}")
        return 0
    token = re.compile(rf"{QUOTED}|{WORD}")

    def turn(m, only=None):
        word = m.group(0)
        if word.startswith('"') or (only and word not in only):
            return word
        if word in here and m.string[m.start() - 1 : m.start()] != ".":
            return here[word]
        if word in functions and m.string[m.start() - 1 : m.start()] == ".":
            return word
        return rows.get(word, word)

    camels = {old for old in rows if camel(old) and "-" not in old} | {old for old in rows if camel(old)}
    count = 0
    for path in texts:
        text = read(path)
        here = own.get(path, {})
        lines = []
        for line in text.split("\n"):
            if path.endswith(".rt") or re.match(r"\s*--", line):
                # Code of src/ and prose: a dash there may be a minus or a hyphen, so names with one turn in clauses alone.
                clause = path.endswith(".rt") and re.match(r"\s*(requires|ensures|ghost|invariant)\b", line)
                lines.append(token.sub(lambda m: turn(m, None if clause else camels), line))
            else:
                lines.append(token.sub(turn, line))
        new = "\n".join(lines)
        if new != text:
            count += 1
            with open(path, "w", encoding="utf-8") as f:
                f.write(new)
    for path in sources("README.md", "docs/*.md", "oracle/*.md", "tests/*.sh", "tests/after/*.sh", "bin/*", "trials/*.edits", "crates/*/must-fail/*.edit"):
        try:
            text = read(path)
        except (IsADirectoryError, UnicodeDecodeError):
            continue
        quotes = path.startswith(("tests", "bin"))
        new = re.sub(WORD if quotes else rf"{QUOTED}|{WORD}", lambda m: rows.get(m.group(0), m.group(0)) if m.group(0) in rows and (camel(m.group(0)) or path.endswith((".edit", ".edits"))) else m.group(0), text)
        if new != text:
            count += 1
            with open(path, "w", encoding="utf-8") as f:
                f.write(new)
    print(f"spelling: {len(rows)} names, {count} files")
    return 0


if __name__ == "__main__":
    raise SystemExit(main())

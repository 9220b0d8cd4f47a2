#!/usr/bin/env python3
"""Brings the names of this repository's own definitions and lemmas to the spelling of today's Rattle.

usage: tools/respell.py [--list]     at the top of the repository, once, after the kit's port.py

A word of specs/ and proofs/ is in snake case, a type in camel case. Only names that an .antt file here declares are
turned, and only where antt is read: .antt files, `ghost use` items, clauses and ghost members of .rt files, and the
edits that touch them. Comments, strings, Rust names and the goals that the checker names stay as they are.
"""
import collections, os, re, sys

ID = r"[A-Za-z_◌⊎][A-Za-z0-9_'◌₀-₉]*(?:-[A-Za-z0-9_'◌₀-₉]+)*"
GOALS = ("Answers.antt", "Choices.antt", "Invariants.antt", "Proof.antt")
# Names that would fall together with another, or that the plain rule would not make readable.
CHOSEN = {"readEnd": "end_of_read", "readBytes": "bytes_of_read"}


def files(*ends):
    for folder, dirs, names in os.walk("crates"):
        dirs[:] = sorted(d for d in dirs if d not in ("out", "target"))
        for n in sorted(names):
            if n.endswith(ends):
                yield os.path.join(folder, n)


def declared():
    found = collections.defaultdict(set)
    for p in files(".antt"):
        if os.path.basename(p) in GOALS:
            continue
        for line in open(p, encoding="utf-8"):
            line = re.sub(r"--.*$", "", line)
            m = re.match(r"^\s*(?:(?:pub|abbrev|unfoldable|record|data)\s+)*(" + ID + r"(?:\s+" + ID + r")*)\s*(?:\{[^}]*\}|\([^)]*\)|\s)*:(?!=)", line)
            if m:
                for n in m.group(1).split():
                    found[n].add(p)
            m = re.match(r"^\s*pub\s+(?:record|data)\s+(" + ID + ")", line)
            if m:
                found[m.group(1)].add(p)
    return found


def turned(name):
    if name in CHOSEN:
        return CHOSEN[name]
    # the library's word for it has another name now
    name = re.sub(r"^getD-", "get_or-", name)
    if name[0].isupper():
        return re.sub(r"-(\w)", lambda m: m.group(1).upper(), name)
    name = re.sub(r"(?<=[a-z0-9])([A-Z])", lambda m: "_" + m.group(1).lower(), name) if re.match(r"^[a-z]+[A-Z][A-Za-z]*$", name) else name
    return name.replace("-", "_")


def table():
    own = declared()
    return {n: turned(n) for n in own if n[0] != "_" and turned(n) != n}, own


def by_table(text, names):
    return re.sub(r"(?<![\w'◌-])" + ID, lambda m: names.get(m.group(0), m.group(0)), text)


def antt(text, names):
    out = []
    for line in text.split("\n"):
        m = re.search(r"(^|\s)--(\s|$)", line)
        code, note = (line, "") if not m else (line[: m.start()], line[m.start() :])
        out.append(by_table(code, names) + note)
    return "\n".join(out)


def rust(text, names):
    """Turns `ghost ..;` items, clauses and ghost members, each up to the brace or semicolon that ends it."""
    out, i = [], 0
    start = re.compile(r"^[ \t]*(?:pub(?:\(crate\))? )?(?:ghost\b|requires\b|ensures\b|invariant\b|#\[tactic\()", re.M)
    while True:
        m = start.search(text, i)
        if not m:
            out.append(text[i:])
            return "".join(out)
        out.append(text[i : m.start()])
        j, depth = m.start(), 0
        item = text[m.start() : m.end()].strip().split()[-1] == "ghost" or "ghost" in text[m.start() : m.end()]
        while j < len(text):
            c = text[j]
            if c in "{([":
                depth += 1
            elif c in "})]":
                depth -= 1
                if depth == 0 and c == "}" and not item:
                    j += 1
                    break
                if depth == 0 and c == "]" and text[m.start() : m.end()].strip().startswith("#"):
                    j += 1
                    break
            elif c == ";" and depth == 0:
                j += 1
                break
            j += 1
        part = text[m.start() : j]
        part = re.sub(r"(?m)^((?:(?!//).)*)(//.*)?$", lambda k: by_table(k.group(1), names) + (k.group(2) or ""), part)
        out.append(part)
        i = j


def main():
    names, own = table()
    if "--list" in sys.argv:
        sources = set()
        for p in files(".rt"):
            sources |= set(re.findall(r"\bfn (\w+)", open(p, encoding="utf-8").read()))
        said = collections.Counter(names.values())
        for n in sorted(names):
            to = names[n]
            marks = [w for w, hit in (("twice", said[to] > 1), ("declared", to in own), ("a function", to in sources)) if hit]
            print(n, to, *marks)
        return
    turnedfiles = 0
    for p in files(".antt", ".rt", ".edit"):
        text = open(p, encoding="utf-8").read()
        if p.endswith(".antt"):
            new = antt(text, names)
        elif p.endswith(".rt"):
            new = rust(text, names)
        else:
            new = antt(text, names) if re.search(r"^file: (specs|proofs)/", text, re.M) else text
        if new != text:
            open(p, "w", encoding="utf-8").write(new)
            turnedfiles += 1
    print(f"{len(names)} names, {turnedfiles} files")


main()

#!/usr/bin/env python3
"""Lists the places in crates/*/src that read like an older language, by the form that stands there.

usage: tools/forms.py [POINT..] [--count]      at the top of the repository

Points: 1 enums, flags and codes; 2 twins; 3 loops; 4 written conversions and printing; 5 facts and parameters that
travel together; 6 buffers with a length beside them; 7 tables and switches; 8 proofs, in lines. A line is a place to
look at, not a fault: what was found good is judged on docs/DESIGN-PASS.md.
"""
import collections, os, re, sys


def sources():
    for folder, dirs, names in os.walk("crates"):
        dirs[:] = sorted(d for d in dirs if d not in ("out", "target"))
        for n in sorted(names):
            if n.endswith(".rt") and "/src" in folder:
                p = os.path.join(folder, n)
                yield p, open(p, encoding="utf-8").read()


TEXTS = list(sources())


def grep(pattern, skip=None):
    for p, text in TEXTS:
        for i, line in enumerate(text.split("\n"), 1):
            if line.lstrip().startswith("//") or line.startswith("ghost use"):
                continue
            if re.search(pattern, line) and not (skip and re.search(skip, line)):
                yield f"{p}:{i}: {line.strip()}"


def functions():
    """path, name, head (parameters and clauses), body, with impls' names left out"""
    for p, text in TEXTS:
        for m in re.finditer(r"^( *)(?:#\[[^\n]*\n\s*)*(?:pub(?:\([a-z]+\))? )?(?:extern \"C\" )?(?:final )?fn (\w+)", text, re.M):
            indent = m.group(1)
            end = re.search(r"^%s\{\}?$|^%s[^\n]*\{\}?$|;$" % (indent, indent), text[m.start():], re.M)
            if not end:
                continue
            head = text[m.start():m.start() + end.end()]
            rest = text[m.start() + end.end():]
            close = re.search(r"^%s\}$" % indent, rest, re.M)
            body = rest[:close.start()] if close and head.endswith("{") else ""
            yield p, m.group(2), head, body


def shape(code):
    code = re.sub(r"//[^\n]*", "", code)
    code = re.sub(r"\b\d[\w_]*\b", "N", code)
    code = re.sub(r"\b[A-Z]\w*\b", "T", code)
    code = re.sub(r"\b[a-z_]\w*\b", lambda m: m.group(0) if m.group(0) in KEY else "x", code)
    return re.sub(r"\s+", " ", code).strip()


KEY = set("fn let mut match if else for in while return self true false as pub requires ensures result old new now".split())


def twins():
    seen = collections.defaultdict(list)
    for p, name, head, body in functions():
        if body.count("\n") >= 3:
            seen[shape(body)].append(f"{p}: {name}")
    for places in seen.values():
        if len(places) > 1:
            yield "one shape: " + ", ".join(places)


def facts():
    seen = collections.defaultdict(list)
    for p, name, head, body in functions():
        for clause in re.findall(r"(?:requires|ensures)(?: \w+)? \{ (.*) \}$", head, re.M):
            for part in re.split(r" × ", clause):
                part = re.sub(r"[«»()]", "", part)
                seen[(p.split("/")[1], part)].append(name)
    for (crate, part), names in sorted(seen.items()):
        if len(set(names)) >= 3:
            yield f"{crate}: {part} — in {', '.join(sorted(set(names)))}"


def travelling():
    seen = collections.defaultdict(set)
    for p, name, head, body in functions():
        pars = re.search(r"\((.*?)\)\s*(?:->|\n|\{|requires|ensures|$)", head, re.S)
        if not pars:
            continue
        names = [re.sub(r"\s+", " ", x).strip() for x in re.split(r",(?![^<]*>)", pars.group(1))]
        names = [n for n in names if ":" in n]
        for i, a in enumerate(names):
            for b in names[i + 1:]:
                seen[(p.split("/")[1], a, b)].add(name)
    for (crate, a, b), where in sorted(seen.items()):
        if len(where) >= 3:
            yield f"{crate}: {a} with {b} — in {', '.join(sorted(where))}"


def proofs():
    total = collections.Counter()
    for folder, dirs, names in os.walk("crates"):
        dirs[:] = [d for d in dirs if d not in ("out", "target")]
        if "/proofs" in folder:
            for n in names:
                if n.endswith(".antt"):
                    total[folder.split("/")[1]] += open(os.path.join(folder, n), encoding="utf-8").read().count("\n")
    for c in sorted(total):
        yield f"{c}: {total[c]} lines"


POINTS = {
    "1 enums": lambda: grep(r"^(pub(\([a-z]+\))? )?enum "),
    "1 flags": lambda: grep(r"^\s+(pub(\([a-z]+\))? )?\w+: bool,$"),
    "1 success as bool": lambda: grep(r"fn (read|write|copy|take|tick|put)\w*.*-> bool"),
    "1 codes and texts for kinds": lambda: grep(r"-> (u8|u32)$|&'static str"),
    "2 twins": twins,
    "3 while": lambda: grep(r"\bwhile\b"),
    "3 ranges that index": lambda: grep(r"\bfor \w+ in \(?\w+\.\.|\bfor \w+ in 0"),
    "4 impls": lambda: grep(r"^impl.* (PartialEq|Eq|Ord|PartialOrd|Clone|Copy|Debug|fmt::Debug) for "),
    "4 conversions": lambda: grep(r"fn (number|values|words|of|numbers|line|\w+_words)\("),
    "4 arithmetic of bytes": lambda: grep(r"\* 256|65536 \*|4294967296|\* 16 \+"),
    "5 facts": facts,
    "5 parameters": travelling,
    "6 lengths beside": lambda: grep(r"^\s+(pub(\([a-z]+\))? )?(len|length|size|count|blocks): (usize|u64|u32),"),
    "6 indexing": lambda: grep(r"\w\[[a-z]\w*( [+-] \w+)?\]", r"vec!|\[u8|\[u16|#\["),
    "7 tables": lambda: grep(r": fn\(|\[fn\(|dyn "),
    "8 proofs": proofs,
}


def main():
    wanted = [a for a in sys.argv[1:] if a.isdigit()]
    for name, places in POINTS.items():
        if wanted and name.split()[0] not in wanted:
            continue
        found = list(places())
        print(f"{name}: {len(found)}")
        if "--count" not in sys.argv:
            for f in found:
                print("    " + f)


main()

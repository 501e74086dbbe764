#!/usr/bin/env python3
"""Respells this repository's own definitions and lemmas in today's way, once, behind /opt/rattle/port/port.py.

usage: tools/respell.py LANDED [--check]      at the top of the repository, with port.py's changes in the work tree
       LANDED is the commit that port.py began with. --check writes nothing and prints the table old -> new.

A word is in snake case; a dash joins two names, and any other dash becomes `_`. Functions of src/, exported C names, strings,
inputs and outputs keep their names: a Rust name has no capital inside and no dash, so no row can be one. Two names that would
fall together are told apart by `_lem`, or stop the script. In docs/ and in comments a name turns inside backticks, and a
name with a capital inside everywhere. What port.py turned itself is turned in docs/ too: it is read off LANDED and the work tree.
"""

import glob
import os
import re
import subprocess
import sys

DELIMS = r"\s(){}.;,@\"«»\[\]`|"
TOKEN = re.compile(rf"[^{DELIMS}]+")
DECLARED = re.compile(r'^ *(?:(?:pub|abbrev|unfoldable)\s+)*([^\s(){}.;,@"«»]+) (?:[({][^\n]*?[)}] )*:(?= |$)')
HEAD = re.compile(r"^(?:(?:pub|abbrev|unfoldable)\s+)*(?:pub )?(?:data|record) (\S+)")
CAMEL = re.compile(r"^[a-z][A-Za-z0-9₀-₉']*$")
OLD_WORDS = {"getD": "get_or"}


def texts(*patterns):
    return sorted(p for it in patterns for p in glob.glob(it, recursive=True) if "/out/" not in p)


def declared(text):
    """The names that a text declares, in order: items, fields, and what stands below a `where`."""
    names = []
    for line in text.split("\n"):
        if line.lstrip().startswith("--"):
            continue
        m = HEAD.match(line) or DECLARED.match(line)
        if m:
            names.append(m[1])
    return names


def snake(part):
    if part in OLD_WORDS:
        return OLD_WORDS[part]
    if not CAMEL.match(part):
        return part
    return re.sub(r"(?<=[a-z0-9])[A-Z]", lambda m: "_" + m[0].lower(), part)


def is_type(part):
    return part[:1].isupper()


def joined(name, known):
    parts = [snake(it) for it in name.split("-")]
    said = parts[0]
    left = parts[0]
    for part in parts[1:]:
        both = left in known and part in known
        said += ("-" if both else "_") + part
        left = part if both else left + "_" + part
    return said


def table():
    specs = texts("crates/*/specs/**/*.antt")
    lemmas = [p for p in texts("crates/*/proofs/**/*.antt") if p.count("/") == 3]
    nested = [p for p in texts("crates/*/proofs/**/*.antt") if p.count("/") > 3]
    own, words, library = set(), set(), set()
    for p in specs + lemmas:
        text = open(p, encoding="utf-8").read()
        own.update(declared(text))
        if p in specs:
            words.update(it for it in declared(text) if "-" not in it)
        for m in re.finditer(r"^use ([^\s{]+?)\.?\{([^}]*)\}", text, re.M):
            if not m[1].startswith("Rattle.") or m[1].startswith("Rattle.std"):
                library.update(it.split(" as ")[-1].strip() for it in m[2].split(","))
    library = {it for it in library if it}
    turn = {it for it in own if it not in library and not is_type(it) and (("-" in it) or CAMEL.match(it) and re.search("[a-z0-9][A-Z]", it))}
    turn |= {it for it in own if it not in library and is_type(it) and "-" in it}
    # a name by itself: a definition of the repository or of the library, in its new spelling, and a type
    known = {snake(it) for it in words} | {it for it in library if "-" not in it}
    known |= {it for it in own if is_type(it) and "-" not in it}
    return {it: joined(it, known) for it in sorted(turn)}, own, specs + lemmas + nested


def apart(rows, own, files):
    """Rows that fall together are told apart: a definition keeps the plain name, a lemma gets `_lem`. What comes back is, for
    each file, the names that stand there already and give way to a definition."""
    there = set(own) - set(rows)
    by_new = {}
    for old, new in rows.items():
        by_new.setdefault(new, []).append(old)
    yielding = {}
    for new, olds in by_new.items():
        olds.sort(key=lambda it: ("-" in it, it))
        for k, old in enumerate(olds):
            if k > 0 or new in there and "-" in old:
                rows[old] = new + "_lem"
            elif new in there:
                for p in giving_way(old, new, files):
                    yielding.setdefault(p, {})[new] = new + "_lem"
    seen = list(rows.values())
    twice = {it for it in seen if seen.count(it) > 1}
    if twice:
        sys.exit(f"respell: fall together: {sorted(twice)}")
    for p in files:
        tokens = set(TOKEN.findall(re.sub(r"--[^\n]*|proofs\.[^\s.]+", "", open(p, encoding="utf-8").read())))
        for it in tokens & set(rows):
            if rows[it] in tokens and rows[it] not in rows and rows[it] not in yielding.get(p, {}):
                print(f"look: {p}: {it} -> {rows[it]}, which stands there already", file=sys.stderr)
    return yielding


def giving_way(old, new, files):
    """The files in which a lemma is called as the definition `old` is to be called, and those that import it from there."""
    held = {p: open(p, encoding="utf-8").read() for p in files}
    met = [p for p, it in held.items() if new in declared(it) and old in TOKEN.findall(it)]
    modules = {"Rattle." + p[len("crates/") : -len(".antt")].replace("/", ".") for p in met}
    users = [
        p
        for p, it in held.items()
        for m in re.finditer(r"^use (\S+?)\.\{([^}]*)\}", it, re.M)
        if m[1] in modules and new in TOKEN.findall(m[2])
    ]
    return sorted(set(met + users))


def by_port(landed):
    """The names that port.py turned: each file's declared names then and now, in order."""
    rows = {}
    for p in texts("crates/*/specs/**/*.antt", "crates/*/proofs/*.antt"):
        then = subprocess.run(["git", "show", f"{landed}:{p}"], capture_output=True, text=True)
        if then.returncode:
            continue
        a, b = declared(then.stdout), declared(open(p, encoding="utf-8").read())
        if len(a) != len(b):
            print(f"look: {p}: {len(a)} names then, {len(b)} now", file=sys.stderr)
            continue
        rows.update((x, y) for x, y in zip(a, b) if x != y)
    return rows


def words(text, rows):
    """No folder of a function in a path turns: a name behind `proofs.` is the function's own."""
    return TOKEN.sub(lambda m: m[0] if text[: m.start()].endswith("proofs.") else rows.get(m[0], m[0]), text)


def capitals(rows):
    return {a: b for a, b in rows.items() if "-" not in a and re.search("[a-z0-9][A-Z]", a)}


def comment(text, rows):
    """Inside backticks every row, elsewhere the rows with a capital inside."""
    halves = text.split("`")
    for k in range(len(halves)):
        halves[k] = words(halves[k], rows if k % 2 else capitals(rows))
    return "`".join(halves)


def antt(text, rows):
    out = []
    for line in text.split("\n"):
        m = re.search(r"(?:^|(?<=\s))--.*", line)
        out.append(words(line[: m.start()], rows) + comment(m[0], rows) if m else words(line, rows))
    return "\n".join(out)


def rt(text, rows):
    """Ghost items and clauses, and comments; Rust's own text has no such name."""
    out = []
    for line in text.split("\n"):
        m = re.search(r"(?:^|(?<=\s))//.*", line)
        code, said = (line[: m.start()], m[0]) if m else (line, "")
        pieces = re.split(r'("(?:[^"\\]|\\.)*")', code)
        code = "".join(it if k % 2 else words(it, capitals(rows)) for k, it in enumerate(pieces))
        out.append(code + comment(said, rows))
    return "\n".join(out)


def fenced(text, rows):
    """Markdown: code spans and blocks of antt; a name with a capital inside everywhere but in blocks of C and shell."""
    out, inside = [], None
    for line in text.split("\n"):
        m = re.match(r"\s*```(\w*)", line)
        if m:
            inside = None if inside is not None else m[1]
            out.append(line)
        elif inside is None:
            out.append(comment(line, rows))
        else:
            out.append(line if inside in ("c", "sh", "rust") else words(line, capitals(rows)))
    return "\n".join(out)


def main():
    args = sys.argv[1:]
    check = "--check" in args
    args = [it for it in args if it != "--check"]
    if len(args) != 1:
        sys.exit(__doc__)
    rows, own, files = table()
    yielding = apart(rows, own, files)
    before = {a: rows.get(b, b) for a, b in by_port(args[0]).items()}
    if check:
        for a, b in sorted(rows.items()):
            print(f"{a}\t{b}")
        for p, those in sorted(yielding.items()):
            print("-- in " + p, those)
        print("-- by port.py")
        for a, b in sorted(before.items()):
            print(f"{a}\t{b}")
        return
    changed = 0
    everywhere = {**before, **rows}
    for paths, turn, table_ in (
        (texts("crates/**/*.antt"), antt, rows),
        (texts("crates/**/*.rt"), rt, rows),
        (texts("*.md", "docs/**/*.md", "second/**/*.md", "tests/**/*.md"), fenced, everywhere),
    ):
        for p in paths:
            text = open(p, encoding="utf-8").read()
            new = turn(text, {**table_, **yielding.get(p, {})})
            if new != text:
                changed += 1
                with open(p, "w", encoding="utf-8") as f:
                    f.write(new)
    print(f"respell: {len(rows)} names, {changed} files")


if __name__ == "__main__":
    main()

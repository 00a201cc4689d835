#!/usr/bin/env python3
"""Respells the repository's own definitions, fields and lemmas: words in snake case, types in camel case.

usage: tools/respell.py           at the top: respells what the table tools/respell.tsv lists, in crates/, README.md and docs/
       tools/respell.py --table   at the top: writes that table from the names that the .antt files declare

A name is respelled where it stands as a whole word: in .antt files, in the ghost lines and clauses of .rt files, and in comments and pages between back quotes.
A file that brings in a name of the same spelling from elsewhere keeps it.
"""
import os
import re
import sys

TOP = os.path.dirname(os.path.dirname(os.path.abspath(__file__)))
TABLE = os.path.join(TOP, "tools", "respell.tsv")
# Lemmas without dashes that would fall together with a definition, and words of the library.
LEMMAS = ["is_digit", "digits_of", "skip_at", "is_within"]
OTHERS = ["non_neg"]
WORD = re.compile(r"[^\s(){}\[\],;.`⌜⌝«»]+")
DECLARED = re.compile(r"^( *)((?:(?:pub|abbrev|unfoldable|unfold|opaque|local|private|axiom|record|data|syntax|infixl|infixr|infix|ruleset|module)\s+)*)([^\s(){}\[\],;.:]+)\s*(.*)$")
GOAL = re.compile(r":\s*(?:.*→\s*)?(?:tie|given|goal)\.(?:Need-|invariant-|decreases-|measure)")


def files(*ends):
    for folder, dirs, names in os.walk(os.path.join(TOP, "crates")):
        dirs[:] = sorted(d for d in dirs if d not in ("out", "target"))
        for n in sorted(names):
            if n.endswith(ends):
                yield os.path.join(folder, n)


def snake(name):
    name = re.sub(r"(?<=[a-z0-9'])([A-Z])", lambda m: "_" + m[1].lower(), name.replace("-", "_"))
    return name


def camel(name):
    parts = re.split(r"[-_]", name)
    return "".join(p[:1].upper() + p[1:] for p in parts)


def declared(path, crates):
    """Yields each name that a file declares, with its type, 'field' or 'record'."""
    lines = open(path, encoding="utf-8").read().split("\n")
    inside = None
    for i, line in enumerate(lines):
        if not line.strip() or line.lstrip().startswith("--"):
            continue
        m = DECLARED.match(line)
        if not m:
            continue
        indent, words, name, rest = len(m[1]), m[2].split(), m[3], m[4]
        if indent == 0:
            inside = "record" if "record" in words else "data" if "data" in words else "module" if line.startswith(("module", "pub module")) else None
        if name in ("use", "mod", "where", "module", "in", "let", "unfolding", "|") or line.startswith(("use ", "pub use", "mod ", "pub mod", "infix")):
            continue
        if "record" in words or "data" in words:
            yield name, "type"
        elif rest.startswith(":") and (indent == 0 or (indent == 2 and inside)):
            body, j = rest[1:], i + 1
            while j < len(lines) and lines[j].startswith(" " * (indent + 4)) and not lines[j].lstrip().startswith("--"):
                body += " " + lines[j].strip()
                j += 1
            if GOAL.search(":" + body):
                continue
            yield name, "type" if re.search(r"(?:^|→)\s*Type \d\s*$", body) else "word"


def table():
    crates = set(os.listdir(os.path.join(TOP, "crates")))
    kinds = {}
    for path in files(".antt"):
        for name, kind in declared(path, crates):
            kinds.setdefault(name, set()).add(kind)
    rows = []
    for name in sorted(kinds):
        if not re.search(r"[A-Za-z]", name) or "◌" in name:
            continue
        new = camel(name) if kinds[name] == {"type"} else snake(name) if kinds[name] == {"word"} or "type" not in kinds[name] else None
        if new is None:
            print("both a type and a word:", name, file=sys.stderr)
            continue
        if re.match(r"[A-Z]", name) and kinds[name] == {"word"}:
            continue
        if new != name:
            rows.append((name, new))
    # Where two names fall together, the lemma, which had dashes, says that it is one.
    news = [b for _, b in rows]
    rows = [(a, b + "_law" if "-" in a and (news.count(b) > 1 or b in kinds or b in OTHERS) else b) for a, b in rows]
    rows = sorted(rows + [(a, a + "_law") for a in LEMMAS])
    with open(TABLE, "w", encoding="utf-8") as f:
        f.writelines(f"{a}\t{b}\n" for a, b in rows)
    print(len(rows), "names")


def brought(text, crates):
    """The names that a file brings in from another place than the repository's crates."""
    names = set()
    for m in re.finditer(r"(?m)^(?:pub )?(?:ghost )?use ([^\s;{]+?)\.\{([^}]*)\}", text):
        parts = m[1].split(".")
        if parts[0] == "Rattle" and len(parts) > 1 and parts[1] in crates:
            continue
        for it in m[2].split(","):
            names.add(it.split(" as ")[-1].strip())
            names.add(it.split(" as ")[0].strip())
    return names


def turned(line, names):
    """A line with its words respelled. In the path of an import nothing is; behind a dot stands a field or a step, and no lemma."""
    start = 0
    m = re.match(r"\s*(?:pub )?(?:ghost )?use [^{\s]*", line)
    if m:
        start = m.end()

    def one(m):
        new = names.get(m[0], m[0])
        if m.start() and m.string[m.start() - 1] == "." and new.endswith("_law"):
            return m[0] if m[0] + "_law" == new else new[:-4]
        return new

    return line[:start] + WORD.sub(one, line[start:])


def respell():
    crates = set(os.listdir(os.path.join(TOP, "crates")))
    names = dict(l.rstrip("\n").split("\t") for l in open(TABLE, encoding="utf-8"))
    new_words = set(names.values())
    for path in files(".antt", ".rt"):
        text = open(path, encoding="utf-8").read()
        keep = brought(text, crates)
        own = {a: b for a, b in names.items() if a not in keep}
        used = {w for w in WORD.findall(text)}
        fallen = {b for a, b in own.items() if a in used and b in used}
        if fallen:
            print("look:", os.path.relpath(path, TOP), "has both spellings of", ", ".join(sorted(fallen)))
        fallen = {a for a in keep & set(names) if a in used}
        if fallen:
            print("kept:", os.path.relpath(path, TOP), ", ".join(sorted(fallen)))
        code, out, clause = path.endswith(".rt"), [], False
        for line in text.split("\n"):
            mark = "//" if code else "--"
            at = line.find(mark) if code else (0 if line.lstrip().startswith("--") else line.find(" -- "))
            head, tail = (line, "") if at < 0 else (line[:at], line[at:])
            if code:
                clause = clause or bool(re.match(r"\s*(?:ghost\b|requires\b|ensures\b|invariant\b)", head))
                if clause or "ghost" in head:
                    head = turned(head, own)
                if clause and (head.rstrip().endswith(("}", ";"))) and not re.match(r"\s*ghost use [^;]*$", head):
                    clause = False
            else:
                head = turned(head, own)
            tail = quoted(tail, own)
            out.append(head + tail)
        new = "\n".join(out)
        if new != text:
            open(path, "w", encoding="utf-8").write(new)
    pages = ["README.md"] + [os.path.join(f, n) for f, _, ns in os.walk(os.path.join(TOP, "docs")) for n in ns if n.endswith(".md")]
    for page in pages:
        path = os.path.join(TOP, page)
        if os.path.basename(path).startswith("PORT"):
            continue
        text = open(path, encoding="utf-8").read()
        new = quoted(text, names)
        if new != text:
            open(path, "w", encoding="utf-8").write(new)


def quoted(text, names):
    return re.sub(r"`[^`\n]+`", lambda q: turned(q[0], names), text)


if __name__ == "__main__":
    table() if "--table" in sys.argv else respell()

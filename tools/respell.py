#!/usr/bin/env python3
"""Brings the repository's own definitions and lemmas to the spelling of today's Rattle: words in snake case.

usage: python3 tools/respell.py [--list]      at the top of the repository, right after the kit's port.py, once

A name in camel case (`levelOf`) gets underscores (`level_of`). A dash stays only where it joins two words that the
lemma's own statement cites (`length-drop`); elsewhere it becomes an underscore. A lemma that would have the name of a
function gets `_lem`, and a record's field that would have one `_rule`. Functions of src/, exported names, strings, inputs and outputs keep their names.
`--list` prints the table and changes nothing.
"""
import collections
import glob
import re
import sys

NAME = r"[^\s(){}\[\]⟦⟧,;.λ\"⌜⌝:]+"
HEAD = re.compile(r"^(?:abbrev |unfoldable )?(?:pub )?(?:abbrev |unfoldable )?(?:data |record )?(?:pub )?(" + NAME + r")((?: \(.*\)| \{.*\})*) :(?: |$)")
FIELD = re.compile(r"^\s+(?:pub )?(" + NAME + r") :(?: |$)")
TOKEN = re.compile(r"\"[^\"\n]*\"|" + NAME)
GENERATED = re.compile(r"^(invariant|decreases|returns|loop|needs?|In|Then|Else|After|At|Start)(-|$)")


def read(path):
    with open(path, encoding="utf-8") as f:
        return f.read()


def sources():
    kept = lambda ps: sorted(p for p in ps if "/out/" not in p)
    return kept(glob.glob("crates/**/*.antt", recursive=True)), kept(glob.glob("crates/*/src/**/*.rt", recursive=True))


def definitions(antt):
    """Each name that the repository defines in specs/ or proofs/, with the files and the statements."""
    found = collections.defaultdict(list)
    for path in antt:
        lines = read(path).split("\n")
        for i, line in enumerate(lines):
            m = HEAD.match(line)
            if m:
                said = line
                j = i + 1
                while j < len(lines) and lines[j].startswith((" ", "\t")):
                    said += " " + lines[j].strip()
                    j += 1
                found[m.group(1)].append((path, said))
                continue
            m = FIELD.match(line)
            if m and not line.strip().startswith("let "):
                found[m.group(1)].append((path, ""))
    return found


def camel(word):
    return re.match(r"^[a-z][a-z0-9_']*[A-Z]", word) is not None


def snake(word):
    return re.sub(r"([A-Z])", lambda m: "_" + m.group(1).lower(), word) if camel(word) else word


def kit_names():
    """Names that the kit defines: one of ours that has such a name keeps it."""
    names = set()
    for path in glob.glob("/opt/rattle/rattle/**/*.antt", recursive=True):
        if "/tests/" in path or "/examples/" in path:
            continue
        for line in read(path).split("\n"):
            m = HEAD.match(line)
            if m:
                names.add(m.group(1))
    return names


def cites(said, word):
    return any(t == word for t in TOKEN.findall(said.split(" : ", 1)[-1]))


def table():
    antt, rt = sources()
    found = definitions(antt)
    taken = collections.Counter()
    for path in antt + rt:
        for t in TOKEN.findall(read(path)):
            taken[t] += 1
    code = set()
    for path in rt:
        for m in re.finditer(r"\b(?:fn|struct|enum|const|mod)\s+(\w+)", read(path)):
            code.add(m.group(1))
    kit = kit_names()
    to = {}
    # camel case first: these are the definitions that contracts cite
    for name in sorted(found):
        if any(camel(p) for p in name.split("-")):
            to[name] = "-".join(snake(p) for p in name.split("-"))
    made = set(to.values())
    # a lemma that has the very name which a definition now gets
    for name in sorted(found):
        if name in made and name not in to and all(said for _, said in found[name]):
            to[name] = name + "_lem"
    used = set(to.values())
    for name in sorted(found):
        now = to.get(name, name)
        if "-" not in now.strip("-") or now.startswith("-"):
            continue
        where = found[name]
        if GENERATED.match(name) or name in kit or all(p.endswith("/Proof.antt") for p, _ in where):
            continue
        parts = name.split("-")
        if all(said and all(cites(said, p) for p in parts) for _, said in where):
            continue
        new = now.replace("-", "_")
        if new in taken or new in used or new in code or new in kit:
            new += "_rule" if any(not said for _, said in where) else "_lem"
        if new in taken or new in used or new in kit:
            print(f"left: {name}", file=sys.stderr)
            continue
        to[name] = new
        used.add(new)
    return to, antt, rt


def in_antt(text, to):
    lines = []
    for line in text.split("\n"):
        code, dash, note = line, "", ""
        m = re.search(r"(^|\s)--(\s|$)", line)
        if m and line[: m.start()].count('"') % 2 == 0:
            code, note = line[: m.start()], line[m.start() :]
        code = TOKEN.sub(lambda m: to.get(m.group(0), m.group(0)), code)
        lines.append(code + in_prose(note, to))
    return "\n".join(lines)


def in_prose(text, to):
    """In comments and documents: names in backticks, and names in camel case anywhere."""
    text = re.sub(r"`([^`\n]+)`", lambda m: "`" + TOKEN.sub(lambda t: to.get(t.group(0), t.group(0)), m.group(1)) + "`", text)
    return re.sub(r"(?<![\w`/.-])[a-z][a-z0-9_']*[A-Z]\w*'?(?![\w`/-])", lambda m: to.get(m.group(0), m.group(0)), text)


def in_rt(text, to):
    """In code only what is ghost: `ghost use` lines and clauses; and names in camel case, which no code has."""
    camels = {k: v for k, v in to.items() if camel(k)}
    out = []
    for line in text.split("\n"):
        if line.startswith("ghost use"):
            line = TOKEN.sub(lambda m: to.get(m.group(0), m.group(0)), line)
        elif line.lstrip().startswith("//"):
            line = in_prose(line, to)
        else:
            line = re.sub(r"\"[^\"\n]*\"|b'.'|[A-Za-z_][\w']*", lambda m: camels.get(m.group(0), m.group(0)), line)
        out.append(line)
    return "\n".join(out)


def in_edit(text, to):
    out, turn = [], in_rt
    for line in text.split("\n"):
        if line.startswith("file: "):
            turn = in_antt if line.endswith(".antt") else in_rt
            out.append(line)
        elif line[:5] in ("old: ", "new: "):
            out.append(line[:5] + turn(line[5:], to))
        else:
            out.append(line)
    return "\n".join(out)


def main():
    to, antt, rt = table()
    if "--list" in sys.argv:
        for k, v in sorted(to.items()):
            print(k, v)
        return
    pages = ["README.md", "CONTRIBUTING.md"] + glob.glob("docs/**/*.md", recursive=True)
    for paths, turn in ((antt, in_antt), (rt, in_rt), (glob.glob("crates/*/must-fail/*.edit"), in_edit), (pages, in_prose)):
        for path in paths:
            old = read(path)
            new = turn(old, to)
            if new != old:
                with open(path, "w", encoding="utf-8") as f:
                    f.write(new)


if __name__ == "__main__":
    main()

#!/usr/bin/env python3
"""Spells the repository's own words and lemmas as today's Rattle spells its own: snake case, with no dash and no capital inside.

usage: tools/respell.py            at the top of the repository, once, right after port.py
       tools/respell.py --list     the names that turn, a row each, and what they would meet; writes nothing

A name turns where specs/ or proofs/ declare it: a definition, a lemma, a field, a constructor. Types, modules, functions of src/, exported names, strings, and
the names that Rattle makes for the steps of a proof stay. The texts: .antt, the clauses and ghost lines of .rt, the edits, and the code spans of the pages.
"""
import collections
import os
import re
import subprocess
import sys

NAME = re.compile(r'[^\s(){}.;,@"«»`|]+')
DECLARED = re.compile(r"^\s*(?:(?:abbrev|unfoldable|pub|instance)\s+)*([^\s(){}:.;,]+) :(?:\s|$)")
# `getD` of the older library is `get_or` today, in the names of lemmas about it too.
OLDER = {"getD": "get_or"}


def turned(name):
    if not re.match(r"[a-zα-ω]", name):
        return name
    for old, new in OLDER.items():
        name = re.sub(rf"(?<![A-Za-z]){old}(?![a-z])", new, name)
    name = re.sub(r"(?<=[a-z0-9])[A-Z]", lambda m: "_" + m[0].lower(), name)
    return name.replace("-", "_")


def files(*tops):
    for top in tops:
        for folder, dirs, names in os.walk(top):
            dirs[:] = sorted(d for d in dirs if d not in ("out", "target", ".git"))
            for name in sorted(names):
                yield os.path.join(folder, name)


def read(path):
    with open(path, encoding="utf-8") as f:
        return f.read()


def is_lemmas(path):
    """A file of definitions or lemmas, not the proof of a function."""
    parts = path.split("/")
    return path.endswith(".antt") and len(parts) == 4 and parts[2] in ("specs", "proofs")


def declared():
    found = set()
    for path in files("crates"):
        if is_lemmas(path):
            for line in read(path).splitlines():
                line = line.split(" -- ")[0]
                m = DECLARED.match(line)
                if m and not line.lstrip().startswith("--"):
                    found.add(m[1])
    return without_meeting(found)


def without_meeting(found):
    """The rows. Where a word and a lemma fall together, the lemma ends in `_lem`."""
    groups = collections.defaultdict(list)
    for name in found:
        groups[turned(name)].append(name)
    rows = {}
    for new, olds in groups.items():
        # the word is the one with a capital inside, else the one that is so spelled already
        olds.sort(key=lambda n: (not re.search("[A-Z]", n) or "-" in n, n != new, n))
        for at, old in enumerate(olds):
            rows[old] = new if at == 0 else f"{new}_lem"
        if len(olds) > 2:
            raise SystemExit(f"respell: three names fall together: {' '.join(olds)}")
    return {old: new for old, new in rows.items() if old != new}


def imported(text):
    """The names that a file takes from a library that is not this repository's."""
    got = set()
    for m in re.finditer(r"^(?:ghost )?use ([^\s{]+)\.\{([^}]*)\}", text, re.M):
        if not m[1].startswith("Rattle.") or m[1].split(".")[1] not in OWN:
            got |= {it.strip().split(" as ")[0] for it in m[2].split(",")}
    return got


def turn_antt(text, rows, of_function):
    taken = imported(text)

    def each(m):
        name = m[0]
        if name not in rows or name in taken:
            return name
        # behind a dot a dash is a step's name, which Rattle made
        if of_function and m.start() and text[m.start() - 1] == "." and "-" in name:
            return name
        return rows[name]

    out, at = [], 0
    for m in re.finditer(r'"(?:[^"\\\n]|\\.)*"', text):
        out += [NAME.sub(each, text[at : m.start()]), m[0]]
        at = m.end()
    return "".join(out) + NAME.sub(each, text[at:])


def turn_words(text, rows):
    """Code: names with a capital inside or a dash do not occur but in clauses, so whole names turn."""
    word = re.compile(r"(?<![\w-])[a-zα-ω][\w'-]*(?![\w-])")
    return word.sub(lambda m: rows[m[0]] if m[0] in rows and re.search("[A-Z]", m[0]) else m[0], text)


def turn_page(text, rows):
    def span(m):
        return re.sub(r"(?<![\w-])[a-zα-ω][\w'-]*(?![\w-])", lambda n: rows.get(n[0], n[0]), m[0])

    return re.sub(r"`[^`\n]+`", span, text)


OWN = set(os.listdir("crates")) if os.path.isdir("crates") else set()


def main(argv):
    rows = declared()
    if argv == ["--list"]:
        for old in sorted(rows):
            print(f"{old}\t{rows[old]}")
        return meets(rows)
    changed = 0
    for path in [*files("crates", "edits", "docs"), "README.md"]:
        if path.endswith(".antt"):
            text = read(path)
            new = turn_antt(text, rows, not is_lemmas(path))
        elif path.endswith((".rt", ".edit")):
            text = read(path)
            new = turn_words(text, rows)
        elif path.endswith(".md"):
            text = read(path)
            new = turn_page(text, rows)
        else:
            continue
        if new != text:
            with open(path, "w", encoding="utf-8") as f:
                f.write(new)
            changed += 1
    for crate in sorted(OWN):
        subprocess.run(["rt", "fmt"], cwd=os.path.join("crates", crate), stdout=subprocess.DEVNULL, stderr=subprocess.DEVNULL)
    print(f"respell: {len(rows)} names, {changed} files")
    return 0


def meets(rows):
    """Names that fall together, and new names that a file has already."""
    back = collections.defaultdict(list)
    for old, new in rows.items():
        back[new].append(old)
    for new, olds in sorted(back.items()):
        if len(olds) > 1:
            print(f"meet: {new}: {' '.join(olds)}", file=sys.stderr)
    for path in files("crates"):
        if path.endswith((".antt", ".rt")):
            text = read(path)
            has = set(NAME.findall(re.sub(r"//.*|-- .*", "", text)))
            for old, new in rows.items():
                if new in has and old in has and new not in rows and old not in imported(text):
                    print(f"meet: {path}: {old} turns to {new}, which is there", file=sys.stderr)
    return 0


if __name__ == "__main__":
    raise SystemExit(main(sys.argv[1:]))

#!/usr/bin/env python3
"""Brings the repository's own definitions and lemmas to today's spelling: words in snake case, types and modules in camel case.

usage: python3 tools/respell.py        at the top of the repository, once, after the toolchain's own script for a port

It looks for names that specs/ and proofs/ declare (definitions, lemmas, fields, constructors) with a dash or a capital inside, and writes them with
underscores in every file that imports or declares them, in must-fail edits and in the pages. Names that the toolchain's library or its generated
modules have keep theirs, and so do functions of src/. It prints the pairs that fall together with a name that stood already.
"""

import os
import re
import sys

WORD = r"[^\s(){}\[\].,;:`\"]+"
TOKEN = re.compile(WORD)
TYPE = re.compile(r"^(?:unfoldable |pub |abbrev )*(?:record|data) (" + WORD + r")")
DECLARED = re.compile(r"^\s*(?:mutual |abbrev |unfoldable |pub )*(" + WORD + r") :(?= |$)")
BOUND = re.compile(r"\blet (" + WORD + r") :(?= )")
IMPORT = re.compile(r"\buse\s+([^\s{};]+?)(?:\.\{([^}]*)\}|\s+as\s+(\S+?))?;?\s*$", re.M)


# a lemma that would have its function's name
LEMMAS = {n: n.replace("-", "_") + "_lem" for n in ("entry_in", "home_below", "laid_in", "none_from", "row-in", "members-read", "owns-in", "sample-text", "visits-below")}


def spelled(name):
    if name in LEMMAS:
        return LEMMAS[name]
    if re.match(r"^[A-Z]\w*-", name):
        return "".join(p[:1].upper() + p[1:] for p in name.split("-"))
    if not re.match(r"^[^\W\d_A-Z]|^[⊕]", name):
        return name
    parts = name.split("-")
    out = []
    for i, p in enumerate(parts):
        if p[:1].isupper() and (i == 0 or len(p) == 1):
            out.append(p)
        else:
            out.append(re.sub(r"(?<=[a-z0-9])([A-Z])", lambda m: "_" + m.group(1), p).lower() if p.isascii() else p)
    return "_".join(out)


def files(top, ends):
    for folder, dirs, names in os.walk(top):
        dirs[:] = sorted(d for d in dirs if d not in ("out", ".git", "target"))
        for f in sorted(names):
            if f.endswith(ends):
                yield os.path.join(folder, f)


def read(p):
    with open(p, encoding="utf-8") as f:
        return f.read()


def code_of(line):
    """the line up to its comment"""
    i = line.find("-- ")
    return line if i < 0 else line[:i]


def is_walk(p):
    return os.path.basename(p) == "Proof.antt"


def own(path):
    return path.startswith("Rattle.") and not path.startswith("Rattle.std") and ".declared" not in path and ".contracts" not in path


# what is declared where
declared = {}
standing = set()
for p in files("crates", (".antt",)):
    if is_walk(p):
        continue
    names = set()
    for line in read(p).split("\n"):
        m = DECLARED.match(code_of(line)) or TYPE.match(code_of(line))
        if m:
            names.add(m.group(1))
    standing |= names
    declared[p] = {n: spelled(n) for n in names if spelled(n) != n}
everything = {}
for names in declared.values():
    everything.update(names)

# fields and constructors are read without an import: those of records and data
fields = {}
for p in declared:
    inside = False
    for line in read(p).split("\n"):
        code = code_of(line)
        if re.match(r"^(?:unfoldable |pub |abbrev )*(record|data)\b", code):
            inside = True
        elif code.strip() and not code.startswith(" "):
            inside = False
        m = DECLARED.match(code)
        if inside and code.startswith(" ") and m and m.group(1) in everything:
            fields[m.group(1)] = everything[m.group(1)]


def names_of(p, text):
    """the names to respell in a file: what it declares, and what it imports from a module of the repository"""
    names = dict(declared.get(p, {}))
    aliases = set()
    for path, items, alias in IMPORT.findall(text):
        path = path.replace("ghost ", "")
        if not own(path):
            continue
        for item in (items or "").split(","):
            item = item.strip().split(" as ")[0].strip()
            if item in everything:
                names[item] = everything[item]
        if alias:
            aliases.add(alias.rstrip(";"))
            if spelled(alias) != alias:
                names[alias] = spelled(alias)
        if not items and not alias:
            aliases.add(path.split(".")[-1])
    return names, aliases


def turn(text, names, aliases, all_dotted):
    def one(m):
        t = m.group(0)
        before = text[m.start() - 1 : m.start()] if m.start() else ""
        if before == "." and text[m.start() - 2 : m.start() - 1] != ".":
            head = re.search(r"([^\s(){}\[\],;]+)\.$", text[: m.start()])
            head = head.group(1) if head else ""
            if head.split(".")[-1] in aliases or head.startswith("Rattle."):
                return t if t in LEMMAS and "-" not in t else everything.get(t, t)
            if t in fields and all_dotted:
                return fields[t]
            return t
        # a field in a record that is written out
        if t in fields and re.match(r"\s*=\s", text[m.end() :]) and re.search(r"(?:^|\n)\s+$|[{;]\s*$", text[: m.start()]):
            return fields[t]
        return names.get(t, t)

    return TOKEN.sub(one, text)


def turn_comment(text, names):
    return re.sub(r"`([^`\n]+)`", lambda m: "`" + TOKEN.sub(lambda t: names.get(t.group(0), t.group(0)), m.group(1)) + "`", text)


def turn_antt(p, text):
    names, aliases = names_of(p, text)
    head = []
    for line in text.split("\n"):
        code = code_of(line)
        comment = line[len(code) :]
        head.append((code, comment))
    whole = "\n".join(c for c, _ in head)
    turned = turn(whole, names, aliases, True).split("\n")
    return "\n".join(t + turn_comment(c, everything) for t, (_, c) in zip(turned, head))


def turn_rt(p, text):
    names, aliases = names_of(p, text)
    out = []
    for line in text.split("\n"):
        i = line.find("//")
        code, comment = (line, "") if i < 0 else (line[:i], line[i:])
        if '"' not in code:
            code = TOKEN.sub(lambda t: names.get(t.group(0), t.group(0)), code)
        out.append(code + turn_comment(comment, everything))
    return "\n".join(out)


def turn_edit(p, text):
    names = {o: n for o, n in everything.items() if o not in LEMMAS or "-" in o}
    return "\n".join(TOKEN.sub(lambda t: names.get(t.group(0), t.group(0)), l) if l.startswith(("old:", "new:")) else turn_comment(l, names) for l in text.split("\n"))


def turn_page(p, text):
    names = {o: n for o, n in everything.items() if o not in LEMMAS or "-" in o}
    # what the toolchain's script has respelled already
    for t in set(TOKEN.findall(text)):
        if t not in names and spelled(t) != t and spelled(t) in standing:
            names[t] = spelled(t)
    out, fenced = [], False
    for line in text.split("\n"):
        if line.startswith("```"):
            fenced = not fenced
            out.append(line)
        elif fenced:
            out.append(TOKEN.sub(lambda t: names.get(t.group(0), t.group(0)), line))
        else:
            out.append(turn_comment(line, names))
    return "\n".join(out)


def main():
    if not everything:
        print("respell: nothing to do")
        return
    # names that fall together
    tokens = {}
    for p in files("crates", (".antt", ".rt")):
        for t in set(TOKEN.findall(read(p))):
            tokens.setdefault(t, set()).add(p)
    for old, new in sorted(everything.items()):
        together = [o for o, n in everything.items() if n == new and o != old]
        if together:
            print(f"look: {old} and {together} are both {new}")
        if new in tokens:
            print(f"look: {old} becomes {new}, which stands in {', '.join(sorted(tokens[new])[:4])}")
    changed = 0
    for p in list(files("crates", (".antt", ".rt", ".edit"))) + list(files("docs", (".md",))) + ["README.md"]:
        text = read(p)
        kind = turn_antt if p.endswith(".antt") else turn_rt if p.endswith(".rt") else turn_edit if p.endswith(".edit") else turn_page
        new = kind(p, text)
        if new != text:
            changed += 1
            with open(p, "w", encoding="utf-8") as f:
                f.write(new)
    print(f"respell: {len(everything)} names, {changed} files")


if __name__ == "__main__":
    sys.exit(main())

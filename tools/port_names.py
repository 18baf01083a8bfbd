#!/usr/bin/env python3
"""Brings the names of this repository's definitions and lemmas to snake case, as today's Rattle spells them.

usage: tools/port_names.py [--check]      at the top of the repository, once, after port.py

A name that some text of crates/*/specs or crates/*/proofs declares, and that has a dash or a capital inside, gets underscores in their place:
valid-accepted is valid_accepted, galleyOf is galley_of. A name that begins with an operator keeps its dash (as in ∈-map), and so do the names
that rattle makes of a function's code, and names of libraries. Functions, types, modules and exported C names keep their names. A pair of names
that would fall together in a file is named, and nothing is written then. --check writes nothing.
"""

import os
import re
import sys

TOKEN = re.compile(r'(?<![^\s(){}.;,@"«»\[\]`])[^\s(){}.;,@"«»\[\]`]+')
USE = re.compile(r"^use ([^\s;{]+)\.\{([^}]*)\}", re.M)
IMPORTED = re.compile(r"^use [^\n]*", re.M)
COMMENT = re.compile(r"(?<![^\s(){}.;,@\"«»])--[^\n]*|//[^\n]*")
SPAN = re.compile(r"`[^`\n]*`")
MADE = re.compile(r"\b(?:Tie|Statement|Goals|Given|Lts|declared|contracts)\b")
# Lemmas that port.py had in snake case already, beside a definition that now has their name.
LEMMAS = ("all_near", "came_from", "has_on", "place_at")


def texts(folders, kinds):
    for folder in folders:
        for root, dirs, files in os.walk(folder):
            dirs[:] = sorted(d for d in dirs if d not in ("out", ".git", "target"))
            for name in sorted(files):
                if name.endswith(kinds):
                    path = os.path.join(root, name)
                    with open(path, encoding="utf-8") as f:
                        yield path, f.read()


def of_a_function(path):
    """Whether a text is the proof of a function, where rattle's own labels stand beside the repository's names."""
    part = path.split("/proofs/")
    return len(part) == 2 and "/" in part[1]


def turned(name):
    if not re.match(r"[A-Za-z]", name):
        return name
    if name[0].isupper() and "-" not in name:
        return name
    words = re.sub(r"(?<=[a-z0-9])[A-Z]", lambda m: "_" + m[0].lower(), name)
    return words.replace("-", "_")


def of_library(module):
    steps = module.split(".")
    if steps[0] != "Rattle":
        return True
    return len(steps) < 2 or not os.path.isdir(os.path.join("crates", steps[1])) or bool(MADE.search(module))


def names():
    """The new spelling of each name that the repository declares."""
    lent, found = set(), set()
    for path, text in texts(["crates"], (".antt",)):
        bare = COMMENT.sub("", text)
        for use in USE.finditer(bare):
            if of_library(use[1]):
                lent |= {it.split(" as ")[0].strip() for it in use[2].split(",")}
        if of_a_function(path):
            found |= {m[1] for m in re.finditer(r"^pub (\S+-spec) :", bare, re.M)}
            continue
        for token in TOKEN.finditer(IMPORTED.sub("", bare)):
            found.add(token[0])
    for path, text in texts(["crates"], (".antt",)):
        if of_a_function(path):
            continue
        for use in USE.finditer(COMMENT.sub("", text)):
            if not of_library(use[1]):
                found |= {w.strip() for it in use[2].split(",") for w in it.split(" as ")}
    new = {}
    for name in found:
        if name in lent or name == "not-nil" or name.startswith("calls-") or re.search(r"[:*/+]", name):
            continue
        to = turned(name)
        if to != name:
            new[name] = to
    # A lemma that would have its function's name gets _lem.
    functions = {to for name, to in new.items() if "-" not in name} | {it for it in found if "-" not in it and it == turned(it)}
    for name, to in new.items():
        if "-" in name and to in functions and not name.endswith("-spec"):
            new[name] = to + "_lem"
    for name in LEMMAS:
        new[name] = name + "_lem"
    return new


def code(text, new, dotted):
    """A piece of code with its names turned; behind a dot only where dotted says so."""
    def one(m):
        word = m[0]
        head, tail = word, ""
        if head not in new:
            return word
        if head in LEMMAS and not dotted:
            return word
        behind = m.start() > 0 and text[m.start() - 1] == "."
        if behind and not dotted and "-" in word:
            return word
        return new[head] + tail
    return TOKEN.sub(one, text)


def rewritten(path, text, new):
    function = of_a_function(path)
    own = new
    if function:
        declared = set(re.findall(r"^ *(?:pub |abbrev )*(\S+) :", text, re.M))
        own = {k: v for k, v in new.items() if k not in declared or k.endswith("-spec")}
    out, at = [], 0
    for comment in COMMENT.finditer(text):
        out.append(code(text[at:comment.start()], own, not function))
        out.append(SPAN.sub(lambda m: code(m[0], own, True), comment[0]))
        at = comment.end()
    out.append(code(text[at:], own, not function))
    return "".join(out)


def rust(text, new):
    """A source or an edit: names with a capital inside stand in clauses alone, one with a dash is no Rust, and a comment keeps its words."""
    out, at = [], 0
    one = lambda m: m[0] if m[0] in LEMMAS else new.get(m[0], m[0])
    for comment in re.finditer(r"//[^\n]*|^#[^\n]*", text, re.M):
        out.append(TOKEN.sub(one, text[at:comment.start()]))
        out.append(SPAN.sub(lambda m: TOKEN.sub(one, m[0]), comment[0]))
        at = comment.end()
    out.append(TOKEN.sub(one, text[at:]))
    return "".join(out)


def page(text, new):
    return SPAN.sub(lambda m: TOKEN.sub(lambda w: new.get(w[0], w[0]), m[0]), text)


def fall_together(path, text, new):
    seen = {}
    for token in TOKEN.finditer(COMMENT.sub("", text)):
        to = new.get(token[0], token[0])
        if to in seen and seen[to] != token[0]:
            yield f"{path}: {seen[to]} and {token[0]} would both be {to}"
        seen.setdefault(to, token[0])


def main():
    new = names()
    write = "--check" not in sys.argv
    results, bad = {}, set()
    for path, text in texts(["crates"], (".antt", ".rt", ".edit")):
        if path.endswith(".antt"):
            result = rewritten(path, text, new)
            if not of_a_function(path):
                bad |= set(fall_together(path, text, new))
        else:
            result = rust(text, new)
        results[path] = (text, result)
    for path, text in texts(["docs"], (".md",)):
        results[path] = (text, page(text, new))
    for line in sorted(bad):
        print(line)
    if bad and "--anyway" not in sys.argv:
        print(f"port_names: {len(bad)} pairs of names would fall together, so nothing is written")
        return 1
    changed = 0
    for path, (text, result) in results.items():
        if text != result:
            changed += 1
            if write:
                with open(path, "w", encoding="utf-8") as f:
                    f.write(result)
    print(f"port_names: {len(new)} names, {changed} files")
    return 0


if __name__ == "__main__":
    raise SystemExit(main())

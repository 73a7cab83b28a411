#!/usr/bin/env python3
"""Respells the repository's own definitions and lemmas in snake case, as today's Rattle spells its words.

usage: python3 tools/respell_names.py      at the top of the repository, once, after the kit's port.py

A name that specs/ or proofs/ declares, as ended-means-no-drive, becomes ended_means_no_drive, in every .antt file, in the clauses of every .rt file, in the must-fail edits and in
the code spans of the documents. Names of the kit's library keep their spelling, and so do the kit's names of goals; but in the folders of functions' proofs a name of the source is
spelled there as the source spells it, as count_roads-count. It prints names that would fall together, and then writes nothing.
"""
import os
import re

WORD = re.compile(r"[^\s(){}.;,@\"«»`\[\]]+")
NAME = r"[^\s(){}.;,@\"«»`:\[\]]+"
DECLARED = re.compile(rf"(?m)^\s*(?:\| )?(?:abbrev |pub |data |record |irreducible |opaque )*((?:{NAME} )*{NAME}) :(?= )")
LET = re.compile(rf"\blet \(?({NAME})")
BOUND = re.compile(rf"[({{]((?:{NAME} )+): ")
# words that Rattle makes in the proofs of functions, in its older spelling
MADE = re.compile(r"(?<![^-+])(overflow-(?:add|sub|mul|shl|shr|cast|step)|nonzero-(?:div|rem)|(?:offset|slice)-bounds|invariant-of|type-inv|in-(?:default|ok|err)|In-(?:ok|err))(?![^-+'])")
GOAL = re.compile(r"(?:returns|loop|invariant|decreases|overflow|bounds|offset|match|then|else|if|in)-|\S*-(?:requires|init|preserved|smaller|len)$|deref-mut")
SPELLED = {"stored-getD": "stored_get_or", "has-getD": "has_get_or"}


def read(path):
    with open(path, encoding="utf-8") as f:
        return f.read()


def files(*ends):
    for top in ("crates", "docs", "README.md"):
        if top.endswith(ends):
            yield top
        for folder, dirs, names in os.walk(top):
            dirs[:] = sorted(d for d in dirs if d != "out")
            for name in sorted(names):
                if name.endswith(ends):
                    yield os.path.join(folder, name)


def of_a_function(path):
    return re.search(r"/proofs/.+/", path) is not None


def without_comments(path, text):
    return re.sub(r"(?m)(^|\s)--\s.*$", "", text) if path.endswith(".antt") else text


def own_names():
    """the names with a dash in files of definitions and lemmas, and those that answers give themselves, but for the library's"""
    found, imported, ours = set(), set(), {l.split(":")[0].split()[0] for l in read("crates.txt").splitlines() if l.strip() and l[0] != "#"}
    given = set()
    for path in files(".antt", ".rt"):
        text = without_comments(path, read(path))
        for module, names in re.findall(r"use ([^\s{};]+)\.\{([^}]*)\}", text):
            items = [n.strip() for n in names.split(",")]
            found |= {i.split(" as ")[1] for i in items if " as " in i}
            if module.split(".")[:1] != ["Rattle"] or module.split(".")[1] not in ours:
                imported |= {i.split(" as ")[0] for i in items}
        if not path.endswith(".antt"):
            continue
        if of_a_function(path):
            for pattern in (LET, DECLARED, BOUND):
                for names in pattern.findall(text):
                    given |= {n for n in names.split() if not GOAL.match(n) and not re.search(rf"goal\.{re.escape(n)}(?![^\s(){{}};,.])", text)}
        else:
            found |= set(WORD.findall(text))
    dashed = re.compile(r"[\w'\u2080-\u2089]-[\w^]")
    return {n for n in found | given if dashed.search(n) and re.search(r"[A-Za-z]", n)} - imported, imported


def source_names():
    """names of the source with an underscore, by their spelling with dashes"""
    found = {}
    for path in files(".rt"):
        for name in re.findall(r"\b[a-z0-9]+(?:_[a-z0-9]+)+\b", re.sub(r"(?m)//.*$", "", read(path))):
            found[name.replace("_", "-")] = name
    return found


def in_snake_case(name):
    return SPELLED.get(name, name.replace("-", "_"))


def as_the_source(word, source):
    word = MADE.sub(lambda m: m.group(0).replace("-", "_"), word)
    parts = re.split(r"(-|\+)", word)
    out, i = [], 0
    while i < len(parts):
        for j in range(len(parts), i + 1, -1):
            whole = "".join(parts[i:j])
            if (j - i) % 2 == 1 and whole in source:
                out.append(source[whole])
                i = j
                break
        else:
            out.append(parts[i])
            i += 1
    return "".join(out)


def respell(path, text, table, source):
    if path.endswith((".antt", ".edit")):
        def word(m):
            w = m.group(0)
            if w in table:
                return table[w]
            if of_a_function(path) and "-" in w:
                return as_the_source(w, source)
            return source.get(w, w)
        comment = r"(?:(?<=\s)|^)--\s[^\n]*|" if path.endswith(".antt") else ""
        return re.sub(comment + WORD.pattern, lambda m: m.group(0) if re.match(r"--\s", m.group(0)) else word(m), text, flags=re.M)
    if path.endswith(".rt"):
        # neither text nor comments
        clauses = re.compile(r'//[^\n]*|"(?:[^"\\]|\\.)*"|' + WORD.pattern)
        return clauses.sub(lambda m: table.get(m.group(0), m.group(0)), text)
    return re.sub(r"`[^`\n]+`", lambda m: WORD.sub(lambda w: table.get(w.group(0), w.group(0)), m.group(0)), text)


def main():
    names, imported = own_names()
    table = {n: in_snake_case(n) for n in sorted(names)}
    source = {k: v for k, v in source_names().items() if k not in table and k not in imported}
    words = set()
    for path in files(".antt"):
        # a path to the proof of a function spells the function's name, which is no definition
        words |= set(WORD.findall(re.sub(r"(?m)^use [^\s{};]+", "", without_comments(path, read(path)))))
    clash = sorted(f"{a} and {b}" for a, b in table.items() if b in words)
    back = {}
    for a, b in table.items():
        back.setdefault(b, []).append(a)
    clash += [" and ".join(v) for v in back.values() if len(v) > 1]
    if clash:
        print("these would fall together:\n" + "\n".join(clash))
        return 1
    changed = 0
    for path in files(".antt", ".rt", ".edit", ".md"):
        text = read(path)
        new = respell(path, text, table, source)
        if new != text:
            changed += 1
            with open(path, "w", encoding="utf-8") as f:
                f.write(new)
    print(f"{len(table)} names respelled, {changed} files")
    return 0


if __name__ == "__main__":
    raise SystemExit(main())

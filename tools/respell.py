#!/usr/bin/env python3
"""Brings the names of definitions and lemmas to snake case: python3 tools/respell.py, once, at the top of the repository.

A name is taken where specs/ or proofs/ declares it, as a definition, a lemma, a field or a constructor. Of each, the words between dashes that begin with
a small letter and have a capital are respelled wherever they stand as a word: in specs/, in proofs/, in clauses and ghost imports of src/ and in the must-fail
edits of these, and in the comments. Code of src/, strings, names of the Dafny text that begin with a capital, and words that no file declares stay. A dot in the middle of a name becomes a
line below. What would fall together with another name of its file is printed, and then nothing is written.
"""
import os
import re
import sys

WORD = r"[A-Za-z_\u2080-\u2089\u03b1-\u03c9\u2032'][\w\u2080-\u2089\u2032'\u00b7]*"
NAME = re.compile(r"(?<![\w'])[A-Za-z_][\w\u2080-\u2089\u2032'\u00b7]*(?:-[\w\u2080-\u2089\u2032'\u00b7]+)*")
DECLARED = re.compile(r"^\s*(?:(?:abbrev|unfoldable|pub|data|record)\s+)*((?:[^\s:(){}]+\s+)*?[^\s:(){}]+)\s+:\s")
# Lemmas and a field whose names would fall together with respelled definitions: they have a dash, as they had.
APART = {n: n.replace("_", "-") for n in "same_parts same_bytes left_over in_two ahead_in no_name goes_on inside_of".split()}
CAMEL = re.compile(r"^[a-z][a-z0-9]*[A-Z]")


def snake(word):
    word = re.sub(r"([a-z0-9])([A-Z])", r"\1_\2", word)
    return re.sub(r"([A-Z])([A-Z][a-z])", r"\1_\2", word).lower()


def files(ends):
    for folder, dirs, names in os.walk("crates"):
        dirs[:] = sorted(d for d in dirs if d != "out")
        for name in sorted(names):
            if name.endswith(ends):
                yield os.path.join(folder, name)


def read(path):
    with open(path, encoding="utf-8") as f:
        return f.read()


def code(text, dash):
    """A text without its comments."""
    return re.sub(re.escape(dash) + r" .*", "", text)


def gather():
    words = set()
    for path in files(".antt"):
        for line in code(read(path), "--").splitlines():
            m = DECLARED.match(line)
            for name in (m.group(1) if m else "").split() + re.findall(r"(?<= as )[a-z]\w*(?=[,}])", line):
                for part in re.split(r"[-\u00b7]", name):
                    if CAMEL.match(part):
                        words.add(part)
    return words


# In comments these are the Dafny text's.
THEIRS = set("applyPrefix enumCase newModDeclarations optText optType pathsToRemove recurseSubmodules typeKind typeParams".split())


def turner(words):
    comments = turn_words(words - THEIRS)
    plain = turn_words(words)

    def line(text):
        m = re.search(r"(?:^|\s)(?:--|//) ", text)
        return plain(text[: m.start()]) + comments(text[m.start() :]) if m else plain(text)

    return lambda text: "\n".join(line(it) for it in text.split("\n"))


def turn_words(words):
    def part(p):
        return snake(p) if p in words else p

    def name(m):
        n = m.group(0)
        return "-".join(part(p) if "\u00b7" not in p else "_".join(part(q) for q in p.split("\u00b7")) for p in n.split("-"))

    return lambda text: NAME.sub(name, text)


def ghost_lines(text):
    """The places of src/ that are ghost: imports, clauses, ghost fields and members; as pairs of start and end."""
    for m in re.finditer(r"ghost use [^;]*;", text):
        yield m.span()
    for m in re.finditer(r"^\s*(?:requires|ensures|ghost)\b\*?[^{\n;]*\{", text, re.M):
        depth, i = 1, m.end()
        while depth and i < len(text):
            depth += {"{": 1, "}": -1}.get(text[i], 0)
            i += 1
        yield m.start(), i
    for m in re.finditer(r"//.*", text):
        yield m.span()


def turn_source(text, turn):
    spans = sorted(ghost_lines(text))
    out, at = [], 0
    for a, b in spans:
        if a < at:
            continue
        out += [text[at:a], turn(text[a:b])]
        at = b
    return "".join(out) + text[at:]


def clashes(path, old, new, words):
    turned = {snake(w): w for w in words}
    if path.endswith(".rt"):
        old = " ".join(old[a:b] for a, b in ghost_lines(old) if not old[a:b].startswith("//"))
    body = code(old, "--")
    have = set(NAME.findall(re.sub(r"[\w.+-]+\.(?=[{\w])", "", body)))
    for n in sorted(have & set(turned)):
        # a function and the definition of what it answers may have one name
        if turned[n] in have and not re.search(r"proofs[./](?:[^/]*/)*" + n + r"\b|fn " + n + r"\b", path + old):
            yield n, turned[n]


def main():
    words = gather()
    turn = turner(words)
    results, bad = {}, []
    for path in files((".antt", ".rt", ".edit")):
        old = read(path)
        if path.endswith(".antt"):
            old = re.sub(r"(?<![\w'-])(" + "|".join(APART) + r")(?![\w'-])", lambda m: APART[m.group(1)], old)
        if path.endswith(".rt"):
            new = turn_source(old, turn)
        elif path.endswith(".edit") and "file: src/" in old and not re.search(r"ghost use|requires|ensures", old):
            new = old
        else:
            new = turn(old)
        bad += [(path, n, o) for n, o in clashes(path, old, new, words)]
        if new != read(path):
            results[path] = new
    for path, n, o in bad:
        print(f"{path}: {o} would be {n}, which stands there")
    if bad and "--anyway" not in sys.argv:
        return 1
    if "--check" not in sys.argv:
        for path, new in results.items():
            with open(path, "w", encoding="utf-8") as f:
                f.write(new)
    print(f"{len(words)} words in {len(results)} files")
    if "--list" in sys.argv:
        for w in sorted(words):
            print(w, snake(w))
    return 0


sys.exit(main())

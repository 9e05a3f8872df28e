#!/usr/bin/env python3
"""Brings the repository's own names to today's spelling: words in snake case, facts and types in camel case.

usage: python3 tools/spelling.py [--try]      at the top of the repository, once, after the kit's own script; --try changes nothing

Definitions and lemmas of specs/ and proofs/ are turned in every .antt file, in the clauses and `ghost use` lines of every .rt file and in the
texts of the must-fail edits. A name of more than one word is written with `_`; a lemma that speaks of two definitions keeps the dash between their
names, as `length-swapped`. Names of src/, names that Rattle makes (the steps and goals of a function) and the library's stay. A name that would
fall together with another one of its file is told and keeps its spelling."""
import collections
import os
import re
import sys

TOKEN = re.compile(r"[^\s(){}\[\];,.@\"`]+")
DECLARED = re.compile(r"^( *)(?:(?:abbrev|unfoldable|pub|opaque) +)*(?!(?:use|mod|where|let|in|unfolding|record|data|module|constructor|ruleset)\b)([^\s(){}:;,.λ\"]+) : ")
KIND = re.compile(r"^ *(?:(?:pub|unfoldable|abbrev) +)*(?:record|data|ruleset) +([^\s(){}:]+)")
LET = re.compile(r"\blet +([^\s(){}:;,.λ\"]+) (?::|=) ")
USE = re.compile(r"^(?:ghost )?use ([^\s{;]+?)\.\{([^}]*)\}")


def read(path):
    with open(path, encoding="utf-8") as f:
        return f.read()


def files(end):
    for folder, dirs, names in os.walk("crates"):
        dirs[:] = sorted(d for d in dirs if d != "out")
        for n in sorted(names):
            if n.endswith(end):
                yield os.path.join(folder, n)


def snake(name):
    name = name.replace("′", "'")
    return re.sub(r"(?<=[a-z0-9])([A-Z])", lambda m: "_" + m.group(1).lower(), name) if name[:1].islower() else name


def camel(name):
    return "".join(p[:1].upper() + p[1:] for p in re.split(r"[-_]", name))


def signature(lines, i):
    """The whole signature that begins in line i."""
    text = lines[i]
    j = i + 1
    indent = len(lines[i]) - len(lines[i].lstrip())
    while j < len(lines) and lines[j].strip() and len(lines[j]) - len(lines[j].lstrip()) > indent and not lines[j].lstrip().startswith(("unfolding", "--", "where")):
        text += " " + lines[j].strip()
        j += 1
    return text


def gather():
    """Every own name: where it stands, whether it is a fact, whether specs/ defines it at the top of a file."""
    own, facts, others, defined = collections.defaultdict(set), set(), set(), set()
    for path in files(".antt"):
        if os.path.basename(path) == "Proof.antt":
            continue
        lines = read(path).split("\n")
        for i, line in enumerate(lines):
            if line.lstrip().startswith("--"):
                continue
            m = DECLARED.match(line)
            if m:
                own[m.group(2)].add(path)
                if "/specs/" in path and len(m.group(1)) <= 2:
                    defined.add(m.group(2))
                if len(m.group(1)) <= 2 and re.search(r"(?:→|:) Type(?: \d)?\s*$", signature(lines, i)):
                    facts.add(m.group(2))
                else:
                    others.add(m.group(2))
            k = KIND.match(line)
            if k:
                own[k.group(1)].add(path)
                facts.add(k.group(1))
    return own, facts - others, defined


def library_words():
    """The names that files import from the library, by file, and all of them."""
    by_file, every = collections.defaultdict(set), set()
    for end in (".antt", ".rt"):
        for path in files(end):
            text = re.sub(r"\{\s+", "{", read(path))
            for line in text.split("\n"):
                m = USE.match(line)
                if m and m.group(1).startswith("Rattle.std"):
                    for w in m.group(2).split(","):
                        by_file[path].add(w.strip().split(" as ")[-1])
                        every.add(w.strip().split(" as ")[-1])
    return by_file, every


def joined(name, words):
    """A name of several parts: a dash between the names of two definitions, else `_`."""
    parts = name.split("-")
    segments, i = [], 0
    while i < len(parts):
        for j in range(len(parts), i, -1):
            if snake("_".join(parts[i:j])) in words or "-".join(parts[i:j]) in words:
                segments.append(("_".join(snake(p) for p in parts[i:j]), True))
                break
        else:
            j = i + 1
            segments.append((snake(parts[i]), False))
        i = j
    text, last = segments[0]
    for s, known in segments[1:]:
        text += ("-" if last and known else "_") + s
        last = known
    return text


def renames():
    own, facts, defined = gather()
    by_file, library = library_words()
    plain = {w for w in library if re.fullmatch(r"[a-z][a-z0-9_]*", w)}
    words = {snake(n.replace("-", "_")) for n in defined} | plain
    to = {}
    for n in sorted(own):
        if not re.match(r"[A-Za-z]", n) or "/" in n:
            continue
        if n in facts:
            new = camel(n)
        elif n in defined and n[0].islower():
            new = snake(n.replace("-", "_"))
        elif "-" in n:
            new = joined(n, words)
        else:
            new = snake(n)
        to[n] = OTHERWISE.get(n, new)
    # what falls together: a definition has the plain name, and a lemma of that name gets `_lem`
    back = collections.defaultdict(set)
    for a, b in to.items():
        back[b].add(a)
    for b, olds in sorted(back.items()):
        if len(olds) > 1:
            lemmas = sorted(n for n in olds if n not in defined and n not in facts)
            if len(lemmas) == len(olds):
                lemmas = [n for n in lemmas if "-" in n or "_" in n] if len([n for n in lemmas if "-" in n or "_" in n]) < len(olds) else lemmas[1:]
            for n in lemmas:
                to[n] = b + "_lem"
            print(f"together: {', '.join(sorted(olds))} -> {', '.join(to[n] for n in sorted(olds))}")
    return own, {a: b for a, b in to.items() if a != b}, by_file


def clauses(text):
    """The regions of a .rt file that are antt: `ghost use` lines and the braces of clauses."""
    spans = []
    for m in re.finditer(r"^ *(?:pub )?ghost use [^;]*;", text, re.M):
        spans.append(m.span())
    for m in re.finditer(r"(?:\b(?:requires|ensures|ghost|owns|invariant)\b\*?[^{;\n]*?)\{", text):
        depth, i = 1, m.end()
        while i < len(text) and depth:
            depth += {"{": 1, "}": -1}.get(text[i], 0)
            i += 1
        if not text[m.start():m.end()].startswith("ghost use"):
            spans.append((m.end(), i))
    return spans


# What would fall together with a name that the same file imports.
OTHERWISE = {"are-bytes": "are_bytes_lem"}
IN_FILE = {"crates/demands/proofs/Hints.antt": {"{advance as advances, drawsOf, start as starts, handIn}": "{advance as advances, drawsOf, start as starts, handIn as hands_in}", "(handIn K reduced": "(hands_in K reduced"}}


def turned(text, to, skip):
    return TOKEN.sub(lambda m: to[m.group()] if m.group() in to and m.group() not in skip else m.group(), text)


def turned_comment(line, to, skip):
    line = re.sub(r"`[^`]*`", lambda m: "`" + turned(m.group()[1:-1], to, skip) + "`", line)
    return TOKEN.sub(lambda m: to[m.group()] if re.search(r"[a-z][A-Z]", m.group()) and m.group() in to and m.group() not in skip else m.group(), line)


def turn_antt(path, to, by_file, own):
    text = read(path)
    for old, new in IN_FILE.get(path, {}).items():
        text = text.replace(old, new)
    skip = {w for w in by_file[path] if path not in own.get(w, ())}
    local = {m.group(1): snake(m.group(1).replace("-", "_")) for m in LET.finditer(text) if "-" in m.group(1) and m.group(1) not in own and m.group(1) not in skip}
    names = {**local, **to}
    tokens = {m.group() for m in TOKEN.finditer(text)}
    after = collections.defaultdict(set)
    for t in tokens:
        after[names[t] if t in names and t not in skip else t].add(t)
    for new, olds in sorted(after.items()):
        if len(olds) > 1 and os.path.basename(path) != "Proof.antt":
            print(f"in one file: {path}: {', '.join(sorted(olds))} -> {new}")
    out = []
    for line in text.split("\n"):
        at = line.find("-- ")
        if line.lstrip().startswith("--"):
            out.append(turned_comment(line, names, skip))
        elif at > 0:
            out.append(turned(line[:at], names, skip) + turned_comment(line[at:], names, skip))
        else:
            out.append(turned(line, names, skip))
    return "\n".join(out)


def turn_rt(path, to, by_file):
    text = read(path)
    skip = set(by_file[path])
    for a, b in sorted(clauses(text), reverse=True):
        text = text[:a] + turned(text[a:b], to, skip) + text[b:]
    return "\n".join(turned_comment(l, to, skip) if l.lstrip().startswith("//") else l for l in text.split("\n"))


def main():
    own, to, by_file = renames()
    changed = 0
    for end, turn in ((".antt", lambda p: turn_antt(p, to, by_file, own)), (".rt", lambda p: turn_rt(p, to, by_file)), (".edit", lambda p: "\n".join(turned(l, to, ()) if l.startswith(("old:", "new:")) else l for l in read(p).split("\n")))):
        for path in list(files(end)):
            new = turn(path)
            if new != read(path):
                changed += 1
                if "--try" not in sys.argv:
                    with open(path, "w", encoding="utf-8") as f:
                        f.write(new)
    print(f"{len(to)} names, {changed} files")


if __name__ == "__main__":
    main()

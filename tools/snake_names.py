#!/usr/bin/env python3
"""Spells the repository's own definitions and lemmas in snake case, as Rattle's libraries spell theirs. Run once, at the top, after port.py.

usage: python3 tools/snake_names.py

What turns: each name that a file of specs/ or proofs/ declares (a definition, a lemma, a field, a constructor), in files of .antt, in the ghost parts of
files of .rt, in edits, and in documents where it stands between backticks. Types, modules and Rust's own names stay. An answer that goes by a goal's name keeps it.
Where two names fall together, the definition takes the plain name, the lemma gets the ending _lem, and a record's field _holds.
"""

import collections
import os
import re

NAME = r'[^\s(){}.;,@"«»]+'
TOKEN = re.compile(NAME)
WORDS = r"(?:(?:pub|unfoldable|abbrev|mutual) +)*"
NOT = r"(?!(?:record|data|use|mod|infix\w*|syntax|unfolding|let|in|ruleset|rw|mutual)(?![^\s]))"
DECLARED = re.compile(rf"^( *){WORDS}{NOT}({NAME})((?: *\{{[^{{}}]*\}})*) +:(?: (\S+)|$)")
LIBRARY = re.compile(r"use +(?:Rattle\.(?:std|core|std_\w+|io|libc|os)|borrow|denote|native|mathlib|contract|lib|prog|mir|ghost|base|abs|store)\b[^\s{]*(?:\.?\{([^}]*)\})?")
OWN_ALIAS = re.compile(r"use +(Rattle\.[^\s{;]+) as ([^\s;]+)")
RENAMED = re.compile(rf"({NAME}) as ({NAME})")
CODE = re.compile(r"`[^`\n]+`")
GHOST = re.compile(r"ghost\s+use\b[^;]*;|(?:requires|ensures|ghost)\b[^{;\n]*\{")


def snake(name):
    words = re.sub(r"(?<=[a-z0-9₀-₉'])[A-Z]", lambda m: "_" + m[0].lower(), name)
    return words.replace("-", "_")


def files(kind):
    for folder, dirs, names in os.walk("crates"):
        dirs[:] = sorted(d for d in dirs if d not in ("out", "target"))
        for name in sorted(names):
            if name.endswith(kind):
                yield os.path.join(folder, name)


def documents():
    for folder, dirs, names in os.walk("."):
        dirs[:] = sorted(d for d in dirs if d not in ("out", "target", ".git", "requests"))
        for name in sorted(names):
            if name.endswith(".md"):
                yield os.path.join(folder, name)


def move(crate, old, new):
    """A file of specs/ takes another name, and so does each path that names it."""
    os.rename(f"crates/{crate}/specs/{old}.antt", f"crates/{crate}/specs/{new}.antt")
    for path in list(files(".antt")) + list(files(".rt")):
        text = read(path)
        turned = text.replace(f"Rattle.{crate}.specs.{old}.", f"Rattle.{crate}.specs.{new}.").replace(f"Rattle.{crate}.specs.{old}\n", f"Rattle.{crate}.specs.{new}\n")
        if path == f"crates/{crate}/specs/Lib.antt":
            turned = re.sub(rf"\bmod {old}\b", f"mod {new}", turned)
        if turned != text:
            with open(path, "w", encoding="utf-8") as f:
                f.write(turned)
    for path in files(".edit"):
        text = read(path)
        turned = text.replace(f"file: specs/{old}.antt", f"file: specs/{new}.antt") if path.startswith(f"crates/{crate}/") else text
        if turned != text:
            with open(path, "w", encoding="utf-8") as f:
                f.write(turned)


def read(path):
    with open(path, encoding="utf-8") as f:
        return f.read()


def comment_at(line):
    m = re.search(r"(?:^|(?<=\s))--", line)
    return m.start() if m else len(line)


def declarations():
    """Each declared name with the files that declare it, the names that stand indented, those of definitions, and those of records' fields."""
    where, inner, defined, fields = collections.defaultdict(set), set(), set(), set()
    for path in files(".antt"):
        record = False
        for line in read(path).split("\n"):
            if re.match(r"\S", line) and not line.startswith("--"):
                record = re.match(r"(?:pub )?record ", line) is not None
            m = DECLARED.match(line[: comment_at(line)])
            if not m or (m[4] or "").startswith(("tie.", "goal.")):
                continue
            where[m[2]].add(path)
            if m[1]:
                inner.add(m[2])
                if record:
                    fields.add(m[2])
            elif re.match(r"(?:abbrev|unfoldable) ", line):
                defined.add(m[2])
    return where, inner, defined, fields


def is_function_proof(path):
    return re.search(r"/proofs/.+/[A-Z]\w*\.antt$", path) is not None


def spellings(where, defined, fields):
    """The new spelling of each name; a lemma or a field that would meet another name in some file gets an ending."""
    words = [set(TOKEN.findall(read(path))) for path in list(files(".antt")) + list(files(".rt"))]
    rows, by_new = {}, collections.defaultdict(list)
    for name in where:
        if not name[0].isupper():
            by_new[snake(name)].append(name)
    for new, names in by_new.items():
        # Of names that fall together a definition comes first; port.py has turned some names of either kind.
        names.sort(key=lambda n: (n not in defined, n == new, "-" in n, n))
        if len(names) == 1 and names[0] != new:
            rows[names[0]] = new
        for i, name in enumerate(names if len(names) > 1 else []):
            met = any(name in w and any(other in w for other in names[:i]) for w in words)
            rows[name] = new + ("_holds" if name in fields else "_lem") if met else new
    return {old: new for old, new in rows.items() if old != new}


def library_names(text):
    found = set()
    for m in LIBRARY.finditer(text):
        for item in (m[1] or "").split(","):
            words = item.split()
            if words:
                found.add(words[-1])
    return found


def turn_code(text, rows, inner, keep, aliases):
    def one(m):
        word, before = m[0], text[: m.start()]
        if word in keep or word not in rows:
            return word
        if before.endswith("."):
            head = re.search(rf"({NAME})\.$", before)
            head = head[1] if head else ""
            if head in ("tie", "goal"):
                return word
            if word not in inner and not (head[:1].isupper() or head in aliases):
                return word
        return rows[word]

    return TOKEN.sub(one, text)


def turn_prose(text, rows):
    """A comment's or a document's bare word turns if it is in camel case, and any name between backticks."""
    def camel(m):
        return rows.get(m[0], m[0])

    text = re.sub(r"(?<![\w.-])[a-z]\w*[a-z0-9][A-Z]\w*(?![\w-])", camel, text)
    return CODE.sub(lambda m: TOKEN.sub(lambda t: rows.get(t[0], t[0]), m[0]), text)


def turn_antt(path, rows, inner):
    text = read(path)
    keep = library_names(text)
    if is_function_proof(path):
        for line in text.split("\n"):
            m = DECLARED.match(line)
            if m and (m[4] or "").startswith(("tie.", "goal.")):
                keep.add(m[2])
    aliases = {m[2] for m in OWN_ALIAS.finditer(text)} - {"tie", "goal"}
    out = []
    for line in text.split("\n"):
        at = comment_at(line)
        out.append((line[:at], line[at:]))
    # The code is turned as a whole, so that a name at a line's head is seen; comments go beside it.
    code = turn_code("\n".join(a for a, _ in out), rows, inner, keep, aliases).split("\n")
    return "\n".join(a + turn_prose(b, rows) for a, (_, b) in zip(code, out))


def turn_rt(path, rows, inner):
    text = read(path)
    at, out = 0, []
    for m in GHOST.finditer(text):
        if m.start() < at:
            continue
        end = m.end()
        if not m[0].startswith("ghost use") and text[end - 1] == "{":
            depth = 1
            while depth and end < len(text):
                depth += {"{": 1, "}": -1}.get(text[end], 0)
                end += 1
        out.append(comments_of_rust(text[at : m.start()], rows))
        out.append(turn_code(text[m.start() : end], rows, inner, library_names(text), set()))
        at = end
    out.append(comments_of_rust(text[at:], rows))
    return "".join(out)


def comments_of_rust(text, rows):
    return re.sub(r"//[^\n]*", lambda m: turn_prose(m[0], rows), text)


def main():
    # Rattle makes a module specs.contracts of its own in each crate.
    if os.path.exists("crates/evaluator/specs/Contracts.antt"):
        move("evaluator", "Contracts", "Promises")
    where, inner, defined, fields = declarations()
    rows = spellings(where, defined, fields)
    for path in list(files(".antt")) + list(files(".rt")):
        new = (turn_antt if path.endswith(".antt") else turn_rt)(path, rows, inner)
        if new != read(path):
            with open(path, "w", encoding="utf-8") as f:
                f.write(new)
    for path in documents():
        text = read(path)
        new = CODE.sub(lambda m: TOKEN.sub(lambda t: rows.get(t[0], t[0]), m[0]), text)
        if new != text:
            with open(path, "w", encoding="utf-8") as f:
                f.write(new)
    for path in files(".edit"):
        text = read(path)
        new = "\n".join(line if line.startswith("file:") else turn_code(line, rows, inner, set(), set()) for line in text.split("\n"))
        if new != text:
            with open(path, "w", encoding="utf-8") as f:
                f.write(new)
    with open("/tmp/snake-names.tsv", "w", encoding="utf-8") as f:
        for name in sorted(rows):
            f.write(f"{name}\t{rows[name]}\n")
    print(f"{len(rows)} names turned; the table is in /tmp/snake-names.tsv")


if __name__ == "__main__":
    main()

#!/usr/bin/env python3
"""Spells the repository's own definitions, lemmas and fields in snake case, as the language's library does.

usage: spell_names.py [--check] [FOLDER]

A name counts as one of ours if a file of specs/ or a lemma file of proofs/ declares it. A capital inside a word that begins small becomes an
underscore and a small letter (dueOf: due_of), and a dash between two small words an underscore (row-limits: row_limits); the dash beside a capital
or a sign stays, since it joins a type to a name. A lemma that would have a definition's name gets _lem behind it. Types, names of the Rattle source,
exported names, strings, inputs and outputs stay. Turned is the text of specs/ and proofs/, and of clauses and ghost items in src/; in comments the
names that have a capital inside. --check writes nothing, and prints each name and its new spelling.
"""

import os
import re
import sys


# Words of the library that stand in files beside a lemma of ours of that name.
LIBRARY = {"bit_and", "bit_or"}

# A definition that would have another's name, and the spelling that it has instead.
CLASHES = {"is-over": "is_over_now"}

NAME = r'[^\s(){}.;,@"«»`]+'
WORD = re.compile(NAME)
DECLARED = re.compile(
    rf"^ *(?P<words>(?:(?:pub|abbrev|unfoldable|opaque) )*)(?P<name>{NAME})(?: [({{][^:]*:[^)}}]*[)}}])* :(?:\s|$)"
)
RECORD = re.compile(r"^( *)(?:(?:pub|abbrev|unfoldable) )*record \S+.* where$")
# What is passed over: strings, and the path of a module. The last name of a path is a name of ours where it begins small.
QUIET = re.compile(r'"(?:[^"\\\n]|\\.)*"|(?<![^\s(){};,])Rattle(?:\.[^\s(){}.;,@"«»`]+)+')
COMMENT = re.compile(r'(?<![^\s(){}.;,@"«»`])--[^\n]*')
CLAUSE = re.compile(r"(?:requires|ensures|ghost(?: \w+)?\s*(?:[:=]\s*)?)\s*\*?\s*(?:\w+\s*)?\{|ghost\s+use\b")

USE = re.compile(r"^(?:ghost )?use ([^\s{]+?)\.\{([^}]*)\}", re.M)

# Names of fields, which stand behind a dot in proofs of functions too.
FIELDS = set()


def snake(name):
    turned = []
    for w in name.split("-"):
        if re.match(r"[a-z_]", w):
            w = re.sub(r"(?<=[a-z0-9])[A-Z]", lambda m: "_" + m[0].lower(), w)
        turned.append(w)
    out = turned[0]
    for before, w in zip(turned, turned[1:]):
        plain = re.fullmatch(r"[a-z0-9_']+", before) and re.fullmatch(r"[a-z0-9_']+", w)
        out += ("_" if plain else "-") + w
    return out


def files(root):
    for folder, dirs, names in os.walk(os.path.join(root, "crates")):
        dirs[:] = sorted(d for d in dirs if d != "out")
        for n in sorted(names):
            if n.endswith((".antt", ".rt")):
                yield os.path.join(folder, n)


def of_a_function(path):
    return re.search(r"/proofs/.+/", path) is not None


def declared(root):
    """Each name that a file of definitions or lemmas declares: whether some place declares it as a definition."""
    found = {}
    for path in files(root):
        if not path.endswith(".antt") or of_a_function(path):
            continue
        inside = None
        with open(path, encoding="utf-8") as f:
            for line in f:
                if not line.strip() or line.lstrip().startswith("--"):
                    continue
                indent = len(line) - len(line.lstrip(" "))
                if inside is not None and indent <= inside:
                    inside = None
                m = RECORD.match(line.rstrip())
                if m:
                    inside = len(m[1])
                    continue
                m = DECLARED.match(line)
                if m:
                    if inside is not None:
                        FIELDS.add(m["name"])
                    is_definition = "abbrev" in m["words"] or "unfoldable" in m["words"]
                    found[m["name"]] = found.get(m["name"], False) or is_definition
    return found


def table_of(root):
    """The new spelling of each name. Where a lemma would have a definition's name, or that of a word of the library, it gets _lem behind it."""
    found = declared(root)
    table = {name: to for name in found if (to := CLASHES.get(name, snake(name))) != name}
    taken = {}
    for name in found:
        taken.setdefault(table.get(name, name), []).append(name)
    for to, names in taken.items():
        if len(names) > 1 or to in LIBRARY:
            lemmas = [n for n in names if not found[n] and (n not in FIELDS or n in table)]
            if len([n for n in names if found[n]]) > 1:
                sys.exit(f"spell_names: these would be one name: {names}")
            for n in lemmas if len(lemmas) < len(names) or to in LIBRARY else lemmas[1:]:
                table[n] = to + "_lem"
    return table


def turn(text, table, function):
    """Code turned: words of the table, but for strings, paths and, in proofs of functions, what stands behind a dot and is no field of ours."""

    def word(m):
        if function and text[m.start() - 1 : m.start()] == "." and m[0] not in FIELDS:
            return m[0]
        return table.get(m[0], m[0])

    out, at = [], 0
    quiet = [m.span() for m in QUIET.finditer(text)]
    for m in WORD.finditer(text):
        while quiet and quiet[0][1] <= m.start():
            quiet.pop(0)
        if quiet and quiet[0][0] <= m.start() and not (m.end() == quiet[0][1] and re.search(r"\.specs\.[^{]*[A-Z]\w*\.$", text[quiet[0][0] : m.start()])):
            continue
        out.append(text[at : m.start()])
        out.append(word(m))
        at = m.end()
    out.append(text[at:])
    return "".join(out)


def comment(text, table):
    """A comment's words turned where a capital inside shows that they are names."""
    return WORD.sub(lambda m: table.get(m[0], m[0]) if re.search(r"[a-z][A-Z]", m[0]) else m[0], text)


def antt(text, table, function):
    out, at = [], 0
    for m in COMMENT.finditer(text):
        out.append(turn(text[at : m.start()], table, function))
        out.append(comment(m[0], table))
        at = m.end()
    out.append(turn(text[at:], table, function))
    return "".join(out)


def of_others(text, own):
    """The names that a file takes from libraries that are not ours: they stay in it."""
    names = set()
    for m in USE.finditer(text):
        steps = m[1].split(".")
        if steps[0] != "Rattle" or steps[1] not in own:
            names.update(re.split(r"[\s,]+", m[2]))
    return names


def end_of(text, at):
    """The end of the braces that open at `at`."""
    depth = 0
    for k in range(at, len(text)):
        depth += {"{": 1, "}": -1}.get(text[k], 0)
        if depth == 0:
            return k + 1
    return len(text)


def source(text, table):
    out, at = [], 0
    for m in re.finditer(r"//[^\n]*|" + CLAUSE.pattern, text):
        if m.start() < at:
            continue
        out.append(text[at : m.start()])
        if m[0].startswith("//"):
            at = m.end()
            out.append(comment(m[0], table))
            continue
        at = end_of(text, m.end() - 1) if m[0].endswith("{") else text.index(";", m.end()) + 1
        out.append(turn(text[m.start() : at], table, False))
    out.append(text[at:])
    return "".join(out)


def main(argv):
    check = "--check" in argv
    argv = [a for a in argv if a != "--check"]
    root = argv[0] if argv else "."
    table = table_of(root)
    if check:
        for a, b in sorted(table.items()):
            print(f"{a} {b}")
        return 0
    own = set(os.listdir(os.path.join(root, "crates")))
    for path in files(root):
        with open(path, encoding="utf-8") as f:
            text = f.read()
        others = of_others(text, own)
        here = {a: b for a, b in table.items() if a not in others}
        new = source(text, here) if path.endswith(".rt") else antt(text, here, of_a_function(path))
        if new != text:
            with open(path, "w", encoding="utf-8") as f:
                f.write(new)
    return 0


if __name__ == "__main__":
    sys.exit(main(sys.argv[1:]))

#!/usr/bin/env python3
"""Checks what public functions ask of their callers, and that each of them promises something.

    entries.py              checks crates/*/src/*.rt against docs/GUARANTEES.md
    entries.py --self-test  checks that faults put into copies of these files are found

docs/GUARANTEES.md has two tables. The entries for outside callers stand in the second column of the table headed

    | call | entry | contract |

and the public functions that ask for something, with the other crates that call them, in the section OWN of this script:

    | function | asks for | called by |

A function is named by its crate or its type, as `sheet::read` and `Run::slot`, and one that C calls by its name alone. It is
a fault if

  - an entry, a function that C calls, a `main`, or a public function of the crate `conclusions` has a `requires`;
  - an entry does not exist, or a function that C calls is not among the entries;
  - a function that C calls takes or promises something else than the function of its name in the crate BOUNDARY, or does more than to call it;
  - a public function has no `ensures`;
  - a function of the crate `conclusions` is not public, or its `ensures` neither names a record of that crate's Conclusions.antt
    nor gives its result as a figure;
  - a public function has a `requires` and does not stand in the second table;
  - a function in the second table does not exist, is not public, or has no `requires`;
  - the crates beside it are not those that call it.

One line is printed for each fault, and the exit status is 1 if there is any.
"""

import argparse
import re
import shutil
import sys
import tempfile
from pathlib import Path

GUARANTEES = Path("docs/GUARANTEES.md")
ENTRIES = "| call | entry | contract |"
OWN = "Public functions between crates that ask for something"
ASKING = "| function | asks for | called by |"
# Its functions do what callers do: one that asked for something would conclude less.
CONCLUSIONS = "conclusions"
CONCLUDED = Path("crates/conclusions/specs/Conclusions.antt")
# Its functions are those that C calls, each by a function of the same name that is exported.
BOUNDARY = "jasminebrace"

# Comments, texts and characters, whose braces and words are none. A lifetime such as 'a is no character.
NO_CODE = re.compile(r"""//[^\n]*|/\*.*?\*/|b?"(?:\\.|[^"\\])*"|b?'(?:\\[^\n]|[^'\\\n])'""", re.S)
EXTERN_C = re.compile(r'\bextern\s+"C"')
HEAD = re.compile(r"\b(pub\s+)?((?:(?:const|unsafe|extern)\s+)*)fn\s+(\w+)")
CONTRACT = re.compile(r"\s*(ghost|requires|ensures)\*?(?:\s+[^\s{]+)?\s*(?=\{)")
# A clause by which the result is a figure.
FIGURE = re.compile(r"\{ result ≡ \d+ \}")
IMPL = re.compile(r"^impl\b[^{;]*?\b(\w+)\s*(?:<[^{]*>)?\s*\{", re.M)
CLOSING = {"(": ")", "[": "]", "{": "}"}


def blanked(text):
    """The text with everything that is no code turned into spaces, so that places stay what they are."""
    text = EXTERN_C.sub(lambda found: "extern".ljust(len(found.group())), text)
    return NO_CODE.sub(lambda found: re.sub(r"[^\n]", " ", found.group()), text)


def after_group(code, at):
    """The place after the group that the bracket at this place opens."""
    opened = []
    for place in range(at, len(code)):
        mark = code[place]
        if mark in CLOSING:
            opened.append(CLOSING[mark])
        elif opened and mark == opened[-1]:
            opened.pop()
            if not opened:
                return place + 1
    return len(code)


def laid_flat(code):
    """Code on one line, whatever its layout is."""
    return re.sub(r",?\s*([)\]])", r"\1", re.sub(r"([(\[])\s+", r"\1", " ".join(code.split())))


class Function:
    """A function of a crate: its name, and where its contract and its body stand."""

    def __init__(self, crate, path, code, head, owner):
        self.crate, self.path, self.code = crate, path, code
        self.line = code.count("\n", 0, head.start()) + 1
        self.public = head.group(1) is not None
        self.extern = "extern" in head.group(2)
        self.plain = head.group(3)
        self.name = self.plain if self.extern else f"{owner or crate}::{self.plain}"
        self.method = owner is not None
        # Of each kind of clause all that stand there, one after another.
        self.parts, self.texts = {}, {}
        # From the parameters on: what the function hands back, its contract, and its body or a semicolon.
        opened = code.index("(", head.end())
        at = after_group(code, opened)
        self.takes, self.head = code[opened:at], opened
        while True:
            part = CONTRACT.match(code, at)
            if part is not None:
                at = after_group(code, part.end())
                self.parts.setdefault(part.group(1), []).append((part.start(), at))
                self.texts[part.group(1)] = self.texts.get(part.group(1), "") + code[part.start() : at]
            elif at >= len(code) or code[at] in "{;":
                break
            elif code[at] in CLOSING:
                at = after_group(code, at)
            else:
                at += 1
        self.body = at
        self.end = after_group(code, at) if at < len(code) and code[at] == "{" else at + 1

    def has(self, part):
        return part in self.parts

    def where(self):
        return f"{self.path}:{self.line}"

    def says(self):
        """Its parameters, what it hands back, and its contract, on one line."""
        return laid_flat(self.code[self.head : self.body])


def functions_of(root):
    """All functions in crates/*/src, and the code of each crate."""
    functions, codes = [], {}
    for path in sorted(root.glob("crates/*/src/**/*.rt")):
        crate = path.relative_to(root).parts[1]
        code = blanked(path.read_text(encoding="utf-8"))
        codes[crate] = codes.get(crate, "") + code
        blocks = [(block.group(1), block.start(), after_group(code, block.end() - 1)) for block in IMPL.finditer(code)]
        at = 0
        while (head := HEAD.search(code, at)) is not None:
            owner = next((name for name, start, end in blocks if start < head.start() < end), None)
            functions.append(Function(crate, path.relative_to(root), code, head, owner))
            at = functions[-1].end
    return functions, codes


def callers_of(function, codes):
    """The other crates that call a public function."""
    called = rf"\.{function.plain}\s*\(" if function.method else rf"\b{function.crate}::{function.plain}\s*\("
    return {crate for crate, code in codes.items() if crate != function.crate and re.search(called, code)}


class Entries:
    """The functions, the two tables, and the faults found so far."""

    def __init__(self, root):
        self.functions, self.codes = functions_of(root)
        self.named = {function.name: function for function in self.functions}
        self.text = (root / GUARANTEES).read_text(encoding="utf-8")
        self.records = set(re.findall(r"^pub record (\w+)", (root / CONCLUDED).read_text(encoding="utf-8"), re.M))
        self.faults = []

    def fault(self, where, what):
        self.faults.append(f"{where}: {what}")

    def check(self):
        entries = self.entries()
        asking = self.asking()
        for name in sorted(entries - set(self.named)):
            self.fault(GUARANTEES, f"the entry {name} does not exist")
        for function in self.functions:
            self.check_function(function, entries, asking)
        for name, callers in asking.items():
            self.check_asking(name, callers)
        if not self.functions:
            self.fault("crates", "no function is found")
        return self.faults

    def check_function(self, function, entries, asking):
        where, name = function.where(), function.name
        if function.extern and name not in entries:
            self.fault(where, f"{name} can be called from C and is not among the entries of {GUARANTEES}")
        total = (
            "is an entry for outside callers" if name in entries
            else "can be called from C" if function.extern
            else "is a program" if function.plain == "main" and not function.method
            else "draws a conclusion" if function.public and function.crate == CONCLUSIONS
            else None
        )
        if function.has("requires"):
            if total is not None:
                self.fault(where, f"{name} {total} and has a requires")
            elif function.public and name not in asking:
                self.fault(where, f"{name} is public, has a requires, and is not under '{OWN}' in {GUARANTEES}")
        if (function.public or function.extern) and not function.has("ensures"):
            self.fault(where, f"{name} is public and has no ensures")
        if function.crate == CONCLUSIONS:
            self.check_conclusion(function)
        if function.extern:
            self.check_export(function)

    def check_export(self, function):
        """What C calls is the boundary's function: its parameters, its clauses, and a call of it alone."""
        of = self.named.get(f"{BOUNDARY}::{function.plain}")
        if of is None or not of.public:
            self.fault(function.where(), f"{function.name} can be called from C, and {BOUNDARY} has no public function of that name")
            return
        if function.says() != of.says():
            self.fault(function.where(), f"{function.name} takes or promises something else than {of.name}")
        handed = ", ".join(re.findall(r"(\w+)\s*:", function.takes))
        if laid_flat(function.code[function.body : function.end]) != f"{{ {of.name}({handed}) }}":
            self.fault(function.where(), f"{function.name} does more than to call {of.name}")

    def check_conclusion(self, function):
        promise = function.texts.get("ensures", "")
        if not function.public:
            self.fault(function.where(), f"{function.name} is a conclusion and not public")
        if not self.records & set(re.findall(r"\w+", promise)) and FIGURE.search(promise) is None:
            self.fault(function.where(), f"{function.name} concludes nothing that {CONCLUDED} states")

    def check_asking(self, name, callers):
        function = self.named.get(name)
        if function is None or not function.public:
            self.fault(GUARANTEES, f"under '{OWN}': {name} is no public function")
        elif not function.has("requires"):
            self.fault(GUARANTEES, f"under '{OWN}': {name} has no requires")
        elif callers != callers_of(function, self.codes):
            called = ", ".join(sorted(callers_of(function, self.codes))) or "no other crate"
            self.fault(GUARANTEES, f"under '{OWN}': {name} is called by {called}")

    def table(self, text, head):
        """The cells of each row of the table with this head, as the names in backticks in them."""
        if head not in text:
            self.fault(GUARANTEES, f"the table '{head}' is missing")
            return []
        rows = []
        for line in text.split(head, 1)[1].split("\n")[2:]:
            if not line.startswith("|"):
                break
            rows.append([re.findall(r"`([^`]+)`", cell) for cell in line.strip().strip("|").split("|")])
        if not rows:
            self.fault(GUARANTEES, f"the table '{head}' is empty")
        return rows

    def entries(self):
        return {name for cells in self.table(self.text, ENTRIES) for name in cells[1]}

    def asking(self):
        """Each function of the second table, with the crates that are said to call it."""
        if f"## {OWN}\n" not in self.text:
            self.fault(GUARANTEES, f"section '{OWN}' is missing")
            return {}
        section = self.text.split(f"## {OWN}\n", 1)[1].split("\n## ", 1)[0]
        return {name: set(cells[-1]) for cells in self.table(section, ASKING) for name in cells[0]}


# ---- self-test


def copied(root, folder):
    """A copy of all that is checked."""
    for path in [*sorted(root.glob("crates/*/src/**/*.rt")), root / GUARANTEES, root / CONCLUDED]:
        copy = folder / path.relative_to(root)
        copy.parent.mkdir(parents=True, exist_ok=True)
        shutil.copyfile(path, copy)


def edits(root):
    """Name of a fault, what puts it into a copy, and what must be said of it."""
    clean = Entries(root)
    entries, asking = clean.entries(), clean.asking()
    asked = next(name for name in asking if not clean.named[name].method)
    free = next(f.name for f in clean.functions if f.public and not f.extern and not f.has("requires") and f.name not in entries)
    method = next(f.name for f in clean.functions if f.public and f.method and f.name in entries)
    long = next(f.name for f in clean.functions if f.extern and f.name != "jb_slot" and "\n" in signature(root, f))
    concluded = next(f.name for f in clean.functions if f.public and f.crate == CONCLUSIONS)
    program = next(f.name for f in clean.functions if f.plain == "main")

    def source(name, change):
        """Changes the file of a function at the place of one of its parts."""
        def put(folder):
            function = Entries(folder).named[name]
            path = folder / function.path
            path.write_text(change(path.read_text(encoding="utf-8"), function), encoding="utf-8")
        return put

    def asks(name):
        """A requires is put before the function's other parts, or before its body."""
        def change(text, function):
            at = min((start for clauses in function.parts.values() for start, _ in clauses), default=body_at(text, function))
            return text[:at] + "\n    requires { 0 ≡ 0 }\n    " + text[at:].lstrip()
        return source(name, change)

    def without(name, part):
        def change(text, function):
            for start, end in reversed(function.parts[part]):
                text = text[:start] + text[end:]
            return text
        return source(name, change)

    def promises(name, contract):
        def change(text, function):
            start, end = function.parts["ensures"][0][0], function.parts["ensures"][-1][1]
            return text[:start] + contract + text[end:]
        return source(name, change)

    def taking(name, parameters):
        return source(name, lambda text, function: text[: function.body].replace("supply: u32", parameters) + text[function.body :])

    def calling(name, called):
        def change(text, function):
            return text[: function.body] + text[function.body :].replace(f"::{function.plain}(", f"::{called}(", 1)
        return source(name, change)

    def hidden(text, function):
        return text.replace(f"pub fn {function.plain}(", f"fn {function.plain}(")

    def said(old, new):
        def put(folder):
            text = (folder / GUARANTEES).read_text(encoding="utf-8")
            (folder / GUARANTEES).write_text(text.replace(old, new, 1), encoding="utf-8")
        return put

    row = next(line for line in clean.text.splitlines() if line.startswith(f"| `{asked}`"))
    return [
        ("a requires on jb_slot", asks("jb_slot"), "jb_slot is an entry for outside callers and has a requires"),
        ("a requires after a signature of many lines", asks(long), f"{long} is an entry for outside callers and has a requires"),
        ("a requires on sheet::read", asks("sheet::read"), "sheet::read is an entry for outside callers and has a requires"),
        ("a requires on a method", asks(method), f"{method} is an entry for outside callers and has a requires"),
        ("a requires on a program", asks(program), f"{program} is a program and has a requires"),
        ("a requires on a conclusion", asks(concluded), f"{concluded} draws a conclusion and has a requires"),
        ("a conclusion that says nothing", promises(concluded, " ensures { result ≡ result }"), f"{concluded} concludes nothing"),
        ("a conclusion that nobody can call", source(concluded, hidden), f"{concluded} is a conclusion and not public"),
        ("a public function with a requires that is not listed", asks(free), f"{free} is public, has a requires, and is not under"),
        ("an ensures removed from an entry", without("planner::plan", "ensures"), "planner::plan is public and has no ensures"),
        ("an ensures removed between crates", without(asked, "ensures"), f"{asked} is public and has no ensures"),
        ("an ensures removed from a method", without(method, "ensures"), f"{method} is public and has no ensures"),
        ("a listed function that asks for nothing", without(asked, "requires"), f"{asked} has no requires"),
        ("a listed function that does not exist", said(row, f"{row}\n{row.replace(asked, f'{asked}x')}"), f"{asked}x is no public function"),
        ("a listed function with another caller", said(row, f"{row[: row.rindex('|', 0, -1)]}| `none` |"), f"{asked} is called by"),
        ("a function that is listed no more", said(f"{row}\n", ""), f"{asked} is public, has a requires, and is not under"),
        ("an entry that does not exist", said("`sheet::read`", "`sheet::reads`"), "the entry sheet::reads does not exist"),
        ("a function for C that is no entry", said("`jb_slot`", "jb_slot"), "jb_slot can be called from C and is not among the entries"),
        ("a function for C that promises less", promises("jb_slot", " ensures { result ≡ result }"), "jb_slot takes or promises something else"),
        ("a function for C that takes more", taking("jb_slot", "supply: u64, supplied: u32"), "jb_slot takes or promises something else"),
        ("a function for C that calls another", calling("jb_slot", "jb_coming"), "jb_slot does more than to call"),
        ("a function for C that does more", calling("jb_slot", "jb_version(); jasminebrace::jb_slot"), "jb_slot does more than to call"),
        ("a function for C that is not behind it", source("jasminebrace::jb_slot", hidden), "jasminebrace has no public function of that name"),
        ("no table of entries", said(ENTRIES, "| call | entry |"), "is missing"),
        ("no table of those that ask", said(f"## {OWN}", "## Functions"), "is missing"),
    ]


def signature(root, function):
    """A function's code up to its contract, without the space before that."""
    code = blanked((root / function.path).read_text(encoding="utf-8"))
    return code[code.index(f"fn {function.plain}") : min(start for clauses in function.parts.values() for start, _ in clauses)].rstrip()


def body_at(text, function):
    """The place of the bracket that opens the body of a function without a contract."""
    code = blanked(text)
    return code.index("{", code.index(f"fn {function.plain}"))


def self_test(root):
    missed = 0
    made = edits(root)
    before = set(Entries(root).check())
    for name, put, told in made:
        with tempfile.TemporaryDirectory() as folder:
            copied(root, Path(folder))
            put(Path(folder))
            found = set(Entries(Path(folder)).check()) - before
        if not any(told in fault for fault in found):
            missed += 1
            print(f"self-test: not found: {name}")
    print(f"entries: {len(made) - missed} of {len(made)} faults put in were found")
    return missed


def main():
    parser = argparse.ArgumentParser(description="Checks what public functions ask of their callers, and that each promises something.")
    parser.add_argument("--self-test", action="store_true", help="check that faults put into copies are found")
    arguments = parser.parse_args()
    root = Path(__file__).resolve().parent.parent
    if arguments.self_test:
        return 1 if self_test(root) else 0
    entries = Entries(root)
    faults = entries.check()
    for fault in faults:
        print(fault)
    if not faults:
        public = sum(1 for function in entries.functions if function.public or function.extern)
        asking = len(entries.asking())
        total = len(entries.entries())
        print(f"entries: {public} public functions with a contract, {total} entries that ask for nothing, {asking} listed that ask")
    return 1 if faults else 0


if __name__ == "__main__":
    sys.exit(main())

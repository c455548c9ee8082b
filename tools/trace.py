#!/usr/bin/env python3
"""Checks the way from each rule to its definition, its proof and its test.

    trace.py              checks docs/GUARANTEES.md against docs/RULES.md and the repository
    trace.py --self-test  checks that faults put into copies of the documents are found

The trace table in docs/GUARANTEES.md has one row for each rule:

    | 2.3 | definition | kept by | run by |

A cell holds references, with a semicolon between two of them. A reference is a path and a name, each in backticks; a test
that is a whole file has no name. Besides, every rule that is cited anywhere, every decision that a rule names, and every file
in backticks in README.md and docs/ must exist. One line is printed for each fault, and the exit status is 1 if there is any.
"""

import argparse
import os
import re
import sys
from pathlib import Path

SECTION = "From each rule to its definition, its proof and its test"
COLUMNS = ("definition", "kept by", "run by")
TOP = ("crates/", "model/", "compiled/", "c/", "docs/", "tools/", "samples/", ".ci/")
SKIPPED = {".git", "target", "out", "__pycache__"}

NUMBER = r"\d+\.\d+"
RULE = re.compile(rf"^(?:\| )?\*\*({NUMBER})(?: [^*]+)?\*\*", re.M)
ROW = re.compile(rf"^\| ({NUMBER}) \|(.*)\|\s*$")
REFERENCE = re.compile(r"^`([^`]+)`(?: `([^`]+)`)?$")
# Between two words of a citation there may be a line end and the mark of a comment.
GAP = r"\s+(?:(?:///|//!|//|--|#|\*)\s+)?"
CITED = re.compile(rf"\b[Rr]ules?{GAP}({NUMBER}(?:(?:,|{GAP}and|{GAP}or|{GAP}to)*{GAP}{NUMBER})*)")


class Source:
    """A file without its comments, and what it defines."""

    def __init__(self, path):
        self.kind = path.suffix
        self.stem = path.stem
        self.code = without_comments(path.suffix, path.read_text(encoding="utf-8", errors="replace"))

    def defines(self, name):
        """The name is that of a definition, theorem, field, function, type, constant, test or edit."""
        if self.kind == ".antt":
            name = re.escape(name)
            return self.has(rf"^\s*(?:(?:pub|abbrev|unfoldable)\s+)*(?:{name}\s*:|(?:record|data)\s+{name}\s)")
        if self.kind in (".rt", ".rs"):
            if "::" in name:
                owner, name = name.split("::", 1)
                block = re.search(rf"^impl\s+{re.escape(owner)}\b.*?^}}", self.code, re.M | re.S)
                return block is not None and re.search(rf"\bfn\s+{re.escape(name)}\b", block.group()) is not None
            return self.has(rf"\b(?:fn|struct|enum|const|type)\s+{re.escape(name)}\b")
        if self.kind in (".c", ".h"):
            return self.has(rf"\b{re.escape(name)}\s*\(")
        if self.kind == ".py":
            return self.has(rf"^\s*(?:def|class)\s+{re.escape(name)}\b")
        return self.kind == ".edit" and name == self.stem

    def promises(self, name):
        """The function has a contract: `ensures` stands between its name and the next function."""
        return self.has(rf"\bfn\s+{re.escape(name.split('::')[-1])}\b(?s:(?:(?!\bfn\s).)*?)\bensures\b")

    def tests(self, name):
        return self.has(rf"#\[test\]\s*(?:#\[[^\]]*\]\s*)*fn\s+{re.escape(name)}\b")

    def has(self, pattern):
        return re.search(pattern, self.code, re.M) is not None


def without_comments(kind, text):
    if kind == ".antt":
        return re.sub(r"(^|\s)--.*", r"\1", text)
    if kind in (".rt", ".rs", ".c", ".h"):
        return re.sub(r"//.*", "", re.sub(r"/\*.*?\*/", "", text, flags=re.S))
    if kind in (".py", ".sh"):
        return re.sub(r"(^|\s)#.*", r"\1", text)
    return text


def line_of(text, at):
    return text.count("\n", 0, at) + 1


class Trace:
    """The documents, the repository, and the faults found so far."""

    def __init__(self, root, documents):
        self.root = root
        self.documents = documents
        self.sources = {}
        self.faults = []

    def fault(self, where, what):
        self.faults.append(f"{where}: {what}")

    def source(self, path):
        if path not in self.sources:
            self.sources[path] = Source(self.root / path)
        return self.sources[path]

    def check(self):
        rules = self.rules()
        rows = self.rows()
        for rule in rules:
            if rule not in rows:
                self.fault("docs/GUARANTEES.md", f"rule {rule} has no row in the trace table")
        for rule, cells in rows.items():
            if rule not in rules:
                self.fault("docs/GUARANTEES.md", f"the trace table has a row for {rule}, which is no rule")
            self.check_row(rule, cells)
        self.check_files()
        self.check_decisions()
        self.check_citations(set(rules))
        return self.faults

    def rules(self):
        """The numbers of all rules, in their sequence; the glossary has none."""
        numbers = RULE.findall(self.documents[Path("docs/RULES.md")])
        if not numbers:
            self.fault("docs/RULES.md", "no rule is found")
        for number in sorted({n for n in numbers if numbers.count(n) > 1}):
            self.fault("docs/RULES.md", f"rule {number} stands there twice")
        return list(dict.fromkeys(numbers))

    def rows(self):
        """The cells of each rule's row."""
        text = self.documents[Path("docs/GUARANTEES.md")]
        if f"## {SECTION}\n" not in text:
            self.fault("docs/GUARANTEES.md", f'section "{SECTION}" is missing')
            return {}
        section = text.split(f"## {SECTION}\n", 1)[1].split("\n## ", 1)[0]
        rows = {}
        for line in section.splitlines():
            row = ROW.match(line)
            if row is None:
                continue
            if row.group(1) in rows:
                self.fault("docs/GUARANTEES.md", f"rule {row.group(1)} has two rows in the trace table")
            rows[row.group(1)] = [cell.strip() for cell in row.group(2).split("|")]
        return rows

    def check_row(self, rule, cells):
        if len(cells) != len(COLUMNS):
            self.fault("docs/GUARANTEES.md", f"the row of rule {rule} has {len(cells)} cells after its number, not {len(COLUMNS)}")
            return
        for column, cell in zip(COLUMNS, cells):
            found = [self.check_reference(rule, column, part.strip()) for part in cell.split(";") if part.strip()]
            if not any(found):
                self.fault("docs/GUARANTEES.md", f"rule {rule} has nothing under '{column}'")

    def check_reference(self, rule, column, written):
        """Whether this names something that can stand in the column by itself; what is wrong with it is noted."""
        where = f"docs/GUARANTEES.md: rule {rule}, {column}"
        reference = REFERENCE.match(written)
        if reference is None:
            self.fault(where, f"not a reference: {written}")
            return True
        path, name = reference.groups()
        if not (self.root / path).is_file():
            self.fault(where, f"no such file: {path}")
            return True
        source = self.source(path)
        if name is None:
            if column != "run by" or source.kind in (".antt", ".rt", ".rs"):
                self.fault(where, f"no name beside {path}")
        elif not source.defines(name):
            self.fault(where, f"{path} does not define {name}")
        elif column == "definition" and source.kind not in (".antt", ".rt"):
            self.fault(where, f"{path} holds no definitions")
        elif column == "kept by" and source.kind not in (".antt", ".rt"):
            self.fault(where, f"{path} holds no theorems or contracts")
        elif column == "kept by" and source.kind == ".rt" and not source.promises(name):
            self.fault(where, f"{name} in {path} has no contract")
        elif column == "run by" and source.kind == ".rs" and not source.tests(name):
            self.fault(where, f"{name} in {path} is no test")
        return column != "run by" or source.kind != ".edit"

    def check_files(self):
        """Every path in backticks in a document is that of a file or folder."""
        for document, text in self.documents.items():
            for cited in re.finditer(r"`([^`\s]+)`", text):
                path = cited.group(1).rstrip("/")
                if path.startswith(TOP) and not (self.root / path).exists():
                    self.fault(f"{document}:{line_of(text, cited.start())}", f"no such file: {path}")

    def check_decisions(self):
        """Every decision that a rule names is in docs/DECISIONS.md, in bold."""
        text = self.documents[Path("docs/RULES.md")]
        taken = self.documents[Path("docs/DECISIONS.md")]
        for named in re.finditer(r'decision "([^"]+)"', text):
            if f"**{named.group(1)}" not in taken:
                self.fault(f"docs/RULES.md:{line_of(text, named.start())}", f"no such decision: {named.group(1)}")

    def check_citations(self, rules):
        """Every rule that is cited anywhere is in docs/RULES.md."""
        for path, text in self.texts():
            for citation in CITED.finditer(text):
                for number in re.findall(NUMBER, citation.group(1)):
                    if number not in rules:
                        self.fault(f"{path}:{line_of(text, citation.start())}", f"cites rule {number}, which does not exist")

    def texts(self):
        """All texts of the repository, without this script, whose self-test cites what does not exist."""
        for folder, folders, files in os.walk(self.root):
            folders[:] = sorted(set(folders) - SKIPPED)
            for file in sorted(files):
                path = (Path(folder) / file).relative_to(self.root)
                if path in self.documents:
                    yield path, self.documents[path]
                elif path != Path("tools/trace.py"):
                    yield path, (self.root / path).read_text(encoding="utf-8", errors="replace")


def documents_of(root):
    """The text of README.md and of every page in docs."""
    paths = [root / "README.md", *sorted((root / "docs").glob("*.md"))]
    return {path.relative_to(root): path.read_text(encoding="utf-8") for path in paths}


def faults_of(root, changed):
    """The faults of a repository in which these documents are changed."""
    return Trace(root, documents_of(root) | changed).check()


# ---- self-test


def edits(root, rules, guarantees):
    """Name, edited rules, edited guarantees, and what a fault must say. Those of the table are made from its first row."""
    head, table = guarantees.split(f"## {SECTION}\n", 1)
    row = next(line for line in table.splitlines() if ROW.match(line))
    number, rest = ROW.match(row).groups()
    definition, kept, run = [cell.strip() for cell in rest.split("|")]
    path, name = REFERENCE.match(definition.split(";")[0].strip()).groups()
    source = Source(root / path)
    comments = re.findall(r"(?:--|//) (.*)", (root / path).read_text(encoding="utf-8"))
    said = next(word for word in re.findall(r"\b[a-z]{5,}\b", " ".join(comments)) if not source.defines(word))

    def rows(*new):
        return f"{head}## {SECTION}\n" + table.replace(row, "\n".join(new), 1)

    def cells(a, b, c):
        return rows(f"| {number} | {a} | {b} | {c} |")

    return [
        ("a rule removed from the trace", rules, rows(), f"rule {number} has no row"),
        ("a rule added without a row", f"{rules}\n**98.1 New.** Text.\n", guarantees, "rule 98.1 has no row"),
        ("a row for no rule", rules, rows(row, f"| 98.2 |{rest}|"), "98.2, which is no rule"),
        ("two rows for a rule", rules, rows(row, row), f"rule {number} has two rows"),
        ("two rules with one number", f"{rules}\n**{number} Again.** Text.\n", guarantees, f"rule {number} stands there twice"),
        ("a rule without a definition", rules, cells("", kept, run), "nothing under 'definition'"),
        ("a rule that nothing keeps", rules, cells(definition, "", run), "nothing under 'kept by'"),
        ("a rule without a test", rules, cells(definition, kept, ""), "nothing under 'run by'"),
        ("a name misspelt", rules, cells(f"`{path}` `{name}x`", kept, run), f"{path} does not define {name}x"),
        ("a name that only a comment has", rules, cells(f"`{path}` `{said}`", kept, run), f"{path} does not define {said}"),
        ("a file that does not exist", rules, cells(f"`{path}x` `{name}`", kept, run), f"no such file: {path}x"),
        ("a definition without a name", rules, cells(f"`{path}`", kept, run), f"no name beside {path}"),
        ("a contract that is none", rules, cells(definition, "`crates/plan/src/main.rt` `main`", run), "has no contract"),
        ("a test that is none", rules, cells(definition, kept, "`model/src/run.rs` `chosen`"), "is no test"),
        ("a file cited elsewhere that does not exist", rules, guarantees + "\n`docs/NONE.md`\n", "no such file: docs/NONE.md"),
        ("a decision that was not taken", rules + '\n(decision "None")\n', guarantees, "no such decision: None"),
        ("a citation of an unknown rule", rules, guarantees + "\nSee rules 1.1 and 98.3.\n", "cites rule 98.3"),
        ("a citation over a line end", rules, guarantees + "\n    // See rule\n    // 98.4.\n", "cites rule 98.4"),
    ]


def self_test(root):
    rules, guarantees, decisions = Path("docs/RULES.md"), Path("docs/GUARANTEES.md"), Path("docs/DECISIONS.md")
    texts = documents_of(root)
    made = [
        (name, {rules: new_rules, guarantees: new_guarantees}, told)
        for name, new_rules, new_guarantees, told in edits(root, texts[rules], texts[guarantees])
    ]
    cited = texts[decisions] + "\n`tools/none.py`\n"
    back = texts[decisions].replace("**The coming slot**", "The coming slot")
    made.append(("a file cited in another document that does not exist", {decisions: cited}, "no such file: tools/none.py"))
    made.append(("a decision taken back", {decisions: back}, "no such decision: The coming slot"))
    before = set(faults_of(root, {}))
    missed = 0
    for name, changed, told in made:
        new = set(faults_of(root, changed)) - before
        if not any(told in fault for fault in new):
            missed += 1
            print(f"self-test: not found: {name}")
    print(f"trace: {len(made) - missed} of {len(made)} faults put in were found")
    return missed


def main():
    parser = argparse.ArgumentParser(description="Checks the way from each rule to its definition, its proof and its test.")
    parser.add_argument("--self-test", action="store_true", help="check that faults put into copies of the documents are found")
    arguments = parser.parse_args()
    root = Path(__file__).resolve().parent.parent
    if arguments.self_test:
        return 1 if self_test(root) else 0
    faults = faults_of(root, {})
    for fault in faults:
        print(fault)
    if not faults:
        rules = RULE.findall((root / "docs/RULES.md").read_text(encoding="utf-8"))
        print(f"trace: {len(rules)} rules, each with its definition, what keeps it and its test")
    return 1 if faults else 0


if __name__ == "__main__":
    sys.exit(main())

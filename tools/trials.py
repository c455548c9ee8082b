#!/usr/bin/env python3
"""No trial and no counting of a word divides, a planning works out each need once, before its trials, and a counting once, before its words, and a
planning stops at its ceiling: looks through the source, from the loops that try the rows of a place, from the loop that fills the places, from the loop
that counts the words of a table, and from the whole planning and the whole counting down through every crate that they call.

    trials.py              looks through crates/*/src, and lists the ways of calls from planning and from counting to needs
    trials.py --self-test  checks that faults put into copies of the sources are found, and that what is no code is not taken for one

Contracts, comments and texts are no code. A name leads to every function and constant that it may be: to all of that name in the crate and
in what `use` brings, and that of a method to all in every crate. One that is not called leads nowhere if it is a field before its value, or a
variable that a `let` of the block around it has made; one that is called leads nowhere if it is the closure that ROWS is handed, since what a
closure does stands where it is made, and is looked through there. So more is looked through than is called, never less. What ROWS or a method of
EACH is handed is done in turns: it is looked through and counted as a loop is, though it is none where a call has to stand in a loop. It is a fault if

  - what a trial, the filling of a place or the loop of WORDS comes to divides, takes a remainder or names NEED;
  - a name that is called, or a path, there or in what PLAN or COUNT comes to, leads to nothing in these sources and is not among the operations
    built into the language, or leads to a function without a body;
  - there a closure is made, or a function named and not called, that is not handed straight to ROWS or to a method of EACH, or one of these is handed
    something else: how often that is done could not be seen;
  - one of NAMED is not one function, or TRIAL, LOW, PLACES, WORDS or STANDING has no loop;
  - ROWS has not one loop, or does not name what it is handed just once, to call it in that loop;
  - the loop of TRIAL calls nothing; LOW is called outside of the loops of PLACES, TRIAL outside of those of PLACES and LOW, PART outside of
    those of LOW and outside of STANDS, SWEEP outside of TRIAL and ALL, ALL or STANDING outside of the loops of WORDS, or STANDS outside of those of
    STANDING; or one of these is not called in each of the places named; or PART does not call MOMENT;
  - PLAN does not come to PLACES, or COUNT not to WORDS;
  - in PLACES the entries that are searched are not cut once for each place to the trials that the ceiling has left, a search there is handed
    others, or these or the ceiling are set anew by a statement, in a value taken apart or as what a closure takes; WITHIN hands PLACES, BOUNDARY WITHIN, or
    EXPORTED BOUNDARY, another ceiling than its own, or PLAN hands WITHIN another one than the most trials of the table's rows; or not just one way of
    calls leads from each of the four to PLACES, so that more is planned than is answered;
  - PLAN or COUNT comes to NEED in a function that is not among ASKING, or in one of these for another column than it is for; or for one of these
    columns by no way of calls or by more than one; or around the calls of such a way there is no loop, or another besides the one over the
    rows, as that over the words would be; or what PLAN or COUNT comes to calls itself: then ways have no end;
  - a function's end or a contract is not understood, a function stands in another, or one has a name of UNSEEN.

That one loop takes each row once is not looked at here: contracts say what it leaves of each row. Nor is it looked at whether a `for` or a case of a
`match` gives the name of the entries or of the ceiling to another value: what is answered at a ceiling is in a contract too.

One line is printed for each fault, and the exit status is 1 if there is any.
"""

import argparse
import re
import sys
import tempfile
from pathlib import Path

# How sources are read is said in the script beside this one, and no compiled file of it is left in the tree.
sys.path.insert(0, str(Path(__file__).resolve().parent))
sys.dont_write_bytecode = True

from entries import after_group, blanked, copied, functions_of

# The loop of the first tries the rows of a place at one speed; that of the second tries the LO rows and asks each for its promised part, by the
# third; the loop of the fourth fills the places; the fifth is the whole planning.
TRIAL = "BusyPeriods::first_in_time"
LOW = "BusyPeriods::first_low"
PART = "Promises::part_in_time"
PLACES = "planner::choose"
PLAN = "planner::plan"
# The first is the whole counting of choices; the loop of the second counts the words of a table; there all rows of a word share the sweep of the third,
# and the loop of the fourth asks each of them whether it may stand lowest, by the fifth.
COUNT = "counter::count"
WORDS = "counter::count_words"
ALL = "counter::all_in_time"
STANDING = "counter::standing"
STANDS = "counter::stands"
# Planning at a ceiling, over lent words, and as C calls it; and how its places are cut to the trials left: what is searched there is a part of this word.
WITHIN = "planner::plan_within"
BOUNDARY = "jasminebrace::jb_plan_within"
EXPORTED = "jb_plan_within"
CUT = re.compile(r"\blet allowed = trials::first_entries\(tries, ceiling - made\);")
SEARCHED = re.compile(r"allowed & w\.\w+")
SET = re.compile(r"\b(?:let\s+(?:mut\s+)?)?(?:allowed|ceiling)\s*(?:[-+*/%&|^]|<<|>>)?=(?!=)|\blet\b[^=;]*\b(?:allowed|ceiling)\b")
# What there is of it goes by these names; and after brackets, what shows that a value is taken apart by them, in a case of a `match`.
LIMIT = re.compile(r"\b(?:allowed|ceiling)\b")
CASE = re.compile(r"\s*=>|(?<!\})\s*if\b")
# The passes over the rows left that find finishes and a promised moment, and the need of a job.
SWEEP = "AtSpeed::renew"
MOMENT = "Workload::part_finish"
NEED = "checks::need"
# What goes over the rows of a table with a closure.
ROWS = "sweep::by_row"
NAMED = (TRIAL, LOW, PART, PLACES, PLAN, COUNT, WORDS, ALL, STANDING, STANDS, WITHIN, BOUNDARY, EXPORTED, SWEEP, MOMENT, NEED, ROWS)
# Where a planning and a counting work out needs, and what is handed over to have its need worked out: each row's work (at N) and each row's promised part
# (at G), to the function that asks for the need, and a HI row's work (at G), with the question itself.
ASKING = (("sweep::needs", "&t.work", -2), ("sweep::needs", "&t.promised", -2), ("sweep::degraded_caps", "t.work[i]", -1))

# All that the language has besides functions of its crates; none of it divides.
BUILT_IN = re.compile(r"[iu](8|16|32|64|size)::(MAX|MIN|leading_zeros|trailing_zeros|count_ones)|\.(all|and|count_ones|is_sorted|iter|len|max|min|rev|skip|trailing_zeros)|Err|Ok|Some")
# Of these methods, those that do what they are handed in turns: for each of what they go over, until they know enough.
EACH = re.compile(r"(?<!\.)\.\s*all\s*\(")
# What these methods may call of a type of the sources' own, with no name in the code.
UNSEEN = ("next", "cmp", "partial_cmp", "deref")
KEYWORDS = {"as", "break", "else", "for", "if", "in", "let", "loop", "match", "mut", "return", "while"}

DIVIDES = re.compile(r"[/%]=?")
DIVIDING_NAME = re.compile(r"(?<![a-z])(?:div|rem)(?![a-z])|multiple_of")
PATH = re.compile(r"(?<![\w'])[A-Za-z_]\w*(?:\s*::\s*[A-Za-z_]\w*)*")
OF_A_VALUE = re.compile(r"(?<!\.)\.\s*$")
CALLED = re.compile(r"\s*!?\s*\(|\s*!\s*[\[{]")
# A field before its value or a variable before its type, and a variable that a statement makes.
TYPED = re.compile(r"\s*:(?!:)")
LET = re.compile(r"[{};]\s*let\s+(?:mut\s+)?([a-z_]\w*)\s*[:=](?![:=])")
# A call of something that has no name, or whose name goes on in a way that the language does not have.
NAMELESS = re.compile(r"[)\]]\s*\(|::\s*<")
LOOP = re.compile(r"\b(?:while|loop|for)\b")
# Where a closure is made, and the bars around what it takes: a bar after a value is an operator. And a function that stands in another.
MADE = re.compile(rf"(?:[(\[{{}},;:&]|#\[[^]]*\]|(?<![=!<>])=>?|\b(?:move|{'|'.join(sorted(KEYWORDS))})\b)\s*(\|[^|]*\|)")
INNER = re.compile(r"\bfn\s+\w+")
# In what stands before a function's body: the type of a closure that it is handed.
CLOSURE = re.compile(r"\b(\w+)\s*:\s*(?:impl\s+)?Fn(?:Mut|Once)?\s*\(")
OPENED = re.compile(r"[(\[{]")
# What may stand before a value that is handed over.
BEFORE_VALUE = re.compile(r"\s*(?:move\b\s*)?")
GOES_ON = re.compile(r"\s*(?:(?:else\b|[-=<>!&|^+*/%.])[^{};]*)?(?=\{)")
AFTER_ITEM = re.compile(r"\s*(?:$|[}#]|(?:pub|fn|const|struct|enum|type|impl|mod|use|ghost|extern)\b)")

USE = re.compile(r"(?<!ghost )\buse\s+([^;]+);")
BRANCH = re.compile(r"[^,{}]+(?:\{(?:[^{}]|\{[^{}]*\})*\})?")
MODULE = re.compile(r"\bmod\s+(\w+)")
TYPE = re.compile(r"\b(?:struct|enum|type)\s+(\w+)")
ENUM = re.compile(r"\benum\s+\w+\s*(?=\{)")
CONSTANT = re.compile(r"\bconst\s+(\w+)\s*:[^=]*=")


def before(code, at, mark):
    """The place of the first such mark from here on that is in no group."""
    while at < len(code) and code[at] != mark:
        at = after_group(code, at) if code[at] in "([{" else at + 1
    return at


class Part:
    """A piece of code with a name: the body of a function, a loop of one, the value of a constant; nothing of a type or a variant."""

    def __init__(self, name, path, code, start, end):
        self.name, self.path, self.code, self.start, self.end = name, path, code, start, end
        self.crate = path.parts[1]

    def line(self, at):
        return self.code.count("\n", 0, at) + 1

    def where(self, at):
        return f"{self.path}:{self.line(at)}"

    def found(self, pattern):
        return pattern.finditer(self.code, self.start, self.end)

    def loops(self):
        """The loops of this part, each with its head."""
        loops = []
        for head in self.found(LOOP):
            at = head.end()
            while self.code[at] != "{":
                at = after_group(self.code, at) if self.code[at] in "([" else at + 1
            # A head may have blocks or patterns with braces of its own before the loop's block.
            while (more := GOES_ON.match(self.code, at)) is not None:
                at = after_group(self.code, more.end())
            loops.append(Part(self.name, self.path, self.code, head.start(), at))
        return loops

    def last_value(self, opened):
        """The last value that is handed over in the brackets from here on."""
        closed, at = after_group(self.code, opened) - 1, opened + 1
        while self.code[(more := before(self.code, at, ",") + 1) : closed].strip():
            at = more
        return Part(self.name, self.path, self.code, BEFORE_VALUE.match(self.code, at).end(), closed)

    def closures(self):
        """The closures that the function around this part is handed, by their names."""
        before_body = self.code[self.code.rfind("fn ", 0, self.start) : self.start].partition("{")[0]
        types = CLOSURE.findall(before_body)
        return {*types, *re.findall(rf"\b(\w+)\s*:\s*(?:&\s*)?(?:mut\s+)?(?:{'|'.join(types)})\b", before_body)} if types else set()

    def limits(self):
        """Where what there is of the ceiling is set here: by a statement, in a case, or as what a closure takes; each with how."""
        groups = [(mark.start(), after_group(self.code, mark.start())) for mark in self.found(OPENED)]
        taken = [(at, self.code[at:end]) for at, end in groups if CASE.match(self.code, end)]
        taken += [(mark.start(1), mark.group(1)) for mark in self.found(MADE)]
        return [(mark.start(), mark.group()) for mark in self.found(SET)] + [(at, said) for at, said in taken if LIMIT.search(said)]

    def variables(self):
        """The variables that statements make here, each with where it is made, where it is known from and where its block ends."""
        made = []
        for let in self.found(LET):
            known = before(self.code, let.end(), ";")
            made.append((let.group(1), let.start(1), known, before(self.code, known, "}")))
        return made


def imported(tree, before=()):
    """The names that a `use` brings, each with its path; those of a whole module come under *."""
    head, brace, inner = tree.partition("{")
    written, *renamed = re.split(r"\s+as\s+", head.strip())
    path = (*before, *re.findall(r"\w+|\*", written))
    if brace:
        return [name for branch in BRANCH.findall(inner.rstrip()[:-1]) if branch.strip() for name in imported(branch, path)]
    return [(renamed[0] if renamed else path[-1], path)]


class Crate:
    """What the names of a crate may lead to: its own parts, those that it imports, and which words begin a path of its own."""

    def __init__(self):
        self.parts, self.imports, self.heads = {}, {}, {"Self"}

    def add(self, plain, part):
        self.parts.setdefault(plain, []).append(part)

    def read(self, name, path, code):
        """Everything in a file but its functions."""
        for tree in USE.findall(code):
            for plain, whole in imported(tree):
                self.imports.setdefault(plain, []).append(whole)
        self.heads.update(MODULE.findall(code), TYPE.findall(code))
        known = TYPE.findall(code)
        for enum in ENUM.finditer(code):
            known += re.findall(r"\b[A-Z]\w*", code[enum.end() : after_group(code, enum.end())])
        for plain in known:
            self.add(plain, Part(f"{name}::{plain}", path, code, 0, 0))
        for constant in CONSTANT.finditer(code):
            end = before(code, constant.end(), ";")
            # From the sign before the value on, so that a closure or a function is not all that the part has.
            self.add(constant.group(1), Part(f"{name}::{constant.group(1)}", path, code, constant.end() - 1, end))


def shown(way):
    return " > ".join(f"{part.name}:{part.line(at)}" for part, at in way)


def said(asking):
    return f"{asking[0]} for {asking[1]}"


def handed(way, call):
    """What this call of a way hands over, counted from the last, which asks for the need."""
    if len(way) < -call:
        return []
    return arguments(*way[call])


def asking(way):
    """Which of ASKING a way comes to, if any."""
    return [each for each in ASKING if way[-1][0].name == each[0] and each[1] in handed(way, each[2])]


def arguments(part, at):
    """What a call hands over."""
    start = part.code.index("(", at)
    return [value.strip() for value in part.code[start + 1 : after_group(part.code, start) - 1].split(",")]


def is_variable(name, at, variables):
    """Whether a name at this place, if it is not called, is that of a variable: where it is made, or from the end of that statement to that of its block."""
    return any(name == made and (at == start or known <= at < end) for made, start, known, end in variables)


class Trials:
    """The sources, the parts that trials and counted words come to, the ways from planning and counting to the need, and the faults found so far."""

    def __init__(self, root):
        self.crates, self.functions, self.known, self.faults = {}, [], {}, []
        self.reached, self.whole, self.needs = {}, {}, {}
        for path in sorted(root.glob("crates/*/src/**/*.rt")):
            name, code = path.relative_to(root).parts[1], blanked(path.read_text(encoding="utf-8"))
            self.crates.setdefault(name, Crate()).read(name, path.relative_to(root), code)
            if (comment := code.find("--")) >= 0:
                whole = Part(name, path.relative_to(root), code, 0, len(code))
                self.fault(whole.where(comment), "'--' is not read here: a comment of a contract stands above its function")
        for function in functions_of(root)[0]:
            self.functions.append(Part(function.name, function.path, function.code, function.body, function.end))
            self.crates[function.crate].add(function.plain, self.functions[-1])
            if not AFTER_ITEM.match(function.code, function.end):
                self.fault(function.where(), f"where {function.name} ends is not understood")
            for inner in self.functions[-1].found(INNER):
                self.fault(self.functions[-1].where(inner.start()), f"{function.name} has a function in it, which is not read here: {inner.group()}")
            if function.plain in UNSEEN:
                self.fault(function.where(), f"{function.name} may be called with no name in the code, which is not read here")

    def fault(self, where, what):
        self.faults.append(f"{where}: {what}")

    def named(self, name):
        """The function of this name; a fault if there is not one."""
        found = [part for part in self.functions if part.name == name]
        if len(found) != 1:
            self.fault("crates", f"there are {len(found)} functions {name}, not one")
        return found[0] if len(found) == 1 else None

    def check(self):
        named = {name: self.named(name) for name in NAMED}
        if None not in named.values():
            self.check_starts(named)
            self.check_rows(named[ROWS])
            self.check_dividing("a trial", [named[TRIAL], named[LOW], named[PART], *self.turns(named[PLACES])])
            self.check_dividing("counting a word", self.turns(named[WORDS]))
            self.check_whole("planning", named[PLAN], named[PLACES])
            self.check_whole("counting", named[COUNT], named[WORDS])
            self.check_stopping(named)
            self.check_needs("planning", named[PLAN])
            self.check_needs("counting", named[COUNT])
        return self.faults

    def check_starts(self, named):
        """The trials and the counting of words are where this search starts, and nowhere else."""
        trial, low, part, places = named[TRIAL], named[LOW], named[PART], named[PLACES]
        words, standing = named[WORDS], named[STANDING]
        for looping in (trial, low, places, words, standing):
            if not looping.loops():
                self.fault(looping.where(looping.start), f"{looping.name} has no loop")
        if trial.loops() and not any(self.next(loop) for loop in trial.loops()):
            self.fault(trial.where(trial.start), f"the loop of {TRIAL} calls nothing")
        self.check_callers(low, looping=[places])
        self.check_callers(trial, looping=[places, low])
        self.check_callers(part, looping=[low], anywhere=[named[STANDS]])
        self.check_callers(named[SWEEP], anywhere=[trial, named[ALL]])
        self.check_callers(named[ALL], looping=[words])
        self.check_callers(standing, looping=[words])
        self.check_callers(named[STANDS], looping=[standing])
        if not self.calls(part, named[MOMENT]):
            self.fault(part.where(part.start), f"{MOMENT} is not called in {PART}")

    def check_rows(self, rows):
        """What goes over the rows with a closure has one loop, and asks the closure once in each turn, and does nothing else with it."""
        loops = self.turns(rows)
        marks = [[mark for mark in part.found(PATH) if mark.group() in rows.closures()] for part in (rows, *loops)]
        asked = [CALLED.match(rows.code, mark.end()) is not None for part in marks for mark in part]
        if len(loops) != 1 or [len(each) for each in marks] != [1, 1] or not all(asked):
            self.fault(rows.where(rows.start), f"{ROWS} does not ask what it is handed once for each row")

    def turns(self, part):
        """What is done in turns in this part: its loops, and what it hands over to be done in turns."""
        return [*part.loops(), *(value for value in self.handed_over(part) if self.is_seen(value, part))]

    def handed_over(self, part):
        """What this part hands to ROWS and to methods of EACH, to be done in turns: the last value in the brackets of each call."""
        opened = [part.code.index("(", at) for at in self.calls(part, self.named(ROWS))] + [mark.end() - 1 for mark in part.found(EACH)]
        return [part.last_value(at) for at in opened]

    def is_seen(self, value, part):
        """Whether a value that a part hands over is a closure that is made there, or a function by its name."""
        return part.code[value.start] == "|" or any(at == value.start for at, _ in self.uncalled(part))

    def uncalled(self, part):
        """The functions that are named and not called here, each with where."""
        names = [(at, name) for at, name, targets in self.names(part) if any(target in self.functions for target in targets)]
        return [(at, name) for at, name in names if not CALLED.match(part.code, PATH.match(part.code, at).end())]

    def unseen(self, part):
        """What might be done any number of times, as names that lead to nothing: a closure, or a function named and not called, that is not handed over to be
        done in turns, and anything else that is."""
        handed = self.handed_over(part)
        # The part itself may be what is handed over.
        starts = {part.start, *(value.start for value in handed)}
        made = [(mark.start(1), mark.group(1)) for mark in part.found(MADE)]
        kept = [(at, name) for at, name in made + self.uncalled(part) if at not in starts]
        others = [(value.start, part.code[value.start : value.end].strip()) for value in handed if not self.is_seen(value, part)]
        return [(at, name, []) for at, name in kept + others]

    def check_callers(self, called, looping=(), anywhere=()):
        """A function is called in the loops of each of some functions, anywhere in each of others, and nowhere else."""
        places = [(caller, caller.loops(), f"the loops of {caller.name}") for caller in looping]
        places += [(caller, [caller], caller.name) for caller in anywhere]
        inside = set()
        for caller, parts, said in places:
            calls = {(part.path, at) for part in parts for at in self.calls(part, called)}
            if not calls:
                self.fault(caller.where(caller.start), f"{called.name} is not called in {said}")
            inside |= calls
        for part in self.functions:
            for at in self.calls(part, called):
                if (part.path, at) not in inside:
                    allowed = " and ".join(said for _, _, said in places)
                    self.fault(part.where(at), f"{part.name} calls {called.name} outside of {allowed}")

    def check_dividing(self, what, starts):
        """What these come to divides nothing and asks for no need; what is looked through already is not looked through again."""
        for part, chain in self.followed(starts).items():
            if part in self.reached:
                continue
            self.reached[part] = chain
            for mark in part.found(DIVIDES):
                self.fault(part.where(mark.start()), f"{what} divides ({mark.group()}): {chain}")
            for at, name, targets in self.names(part):
                if any(target.name == NEED for target in targets):
                    self.fault(part.where(at), f"{what} works out a need ({name}): {chain}")
                elif DIVIDING_NAME.search(name):
                    self.fault(part.where(at), f"{what} divides ({name}): {chain}")
                elif not targets:
                    self.fault(part.where(at), f"{what} uses {name}, which cannot be followed: {chain}")

    def check_whole(self, what, whole, inner):
        """Planning comes to the places and counting to the words, and all that they come to can be followed."""
        followed = self.followed([whole])
        for part, chain in followed.items():
            if part in self.whole:
                continue
            self.whole[part] = chain
            if part in self.functions and part.code[part.start] != "{":
                self.fault(part.where(part.start), f"{part.name} has no body: {chain}")
            for at, name, targets in self.names(part):
                if not targets and part not in self.reached:
                    self.fault(part.where(at), f"{what} uses {name}, which cannot be followed: {chain}")
        if inner not in followed:
            self.fault(whole.where(whole.start), f"{whole.name} does not come to {inner.name}")

    def check_stopping(self, named):
        """No search of a place goes over more entries than the ceiling has trials left (rule 23.6)."""
        places, within = named[PLACES], named[WITHIN]
        cuts = [cut for loop in self.turns(places) for cut in loop.found(CUT)]
        if len(cuts) != 1:
            self.fault(places.where(places.start), f"{PLACES} cuts the entries of a place {len(cuts)} times, not once")
        for at, how in places.limits():
            if not any(cut.start() <= at < cut.end() for cut in cuts):
                self.fault(places.where(at), f"{PLACES} sets what it has of the ceiling: {how}")
        for called in (named[LOW], named[TRIAL]):
            for at in self.calls(places, called):
                if not any(SEARCHED.fullmatch(value) for value in arguments(places, at)) or any(at < cut.start() for cut in cuts):
                    self.fault(places.where(at), f"{PLACES} searches by {called.name} more than the ceiling allows")
        boundary = named[BOUNDARY]
        handing = ((within, places, -1, "ceiling"), (boundary, within, -1, "ceiling"), (named[EXPORTED], boundary, 1, "ceiling"),
                   (named[PLAN], within, -1, "most_trials(t.n)"))
        for caller, called, place, ceiling in handing:
            handed_over = [arguments(caller, at)[place] for at in self.calls(caller, called)]
            if handed_over != [ceiling] or caller.limits():
                self.fault(caller.where(caller.start), f"{caller.name} hands {called.name} another ceiling than {ceiling}")
            ways = [shown(way) for way in self.ways(caller, (caller,), (), PLACES)]
            if len(ways) != 1:
                self.fault(caller.where(caller.start), f"{len(ways)} ways, not one, lead from {caller.name} to {PLACES}: {'; '.join(ways)}")

    def check_needs(self, what, whole):
        """One way of calls leads to each place where planning, or counting, works out needs, and one loop is on it."""
        needs = self.needs[whole.name] = list(self.ways(whole, (whole,), ()))
        for way in needs:
            part, at = way[-1]
            if not asking(way):
                known = ", ".join(said(each) for each in ASKING)
                self.fault(part.where(at), f"{part.name} works out needs of a {what} besides {known}: {shown(way)}")
            loops = sum(loop.start <= at < loop.end for part, at in way for loop in self.turns(part))
            if loops != 1:
                self.fault(part.where(at), f"{loops} loops, not one, are around a need: {shown(way)}")
        for each in ASKING:
            ways = [shown(way) for way in needs if each in asking(way)]
            if len(ways) != 1:
                self.fault("crates", f"{len(ways)} ways, not one, lead from {whole.name} to {NEED} in {said(each)}: {'; '.join(ways) or 'none'}")

    def followed(self, starts):
        """Every part that these may come to, they among them, each with the names on the way there."""
        chains, waiting = {part: part.name for part in starts}, list(starts)
        while waiting:
            part = waiting.pop(0)
            for target in self.next(part):
                if target not in chains:
                    chains[target] = f"{chains[part]} > {target.name}"
                    waiting.append(target)
        return chains

    def ways(self, part, entered, before, goal=NEED):
        """Every way of calls to the need, or to another function, as the functions and places of the calls."""
        for at, _, targets in self.names(part):
            way = (*before, (part, at))
            for target in targets:
                if target.name == goal:
                    yield way
                elif target in entered:
                    self.fault(part.where(at), f"{entered[0].name} comes back to {target.name}: {shown(way)}")
                else:
                    yield from self.ways(target, (*entered, target), way, goal)

    def calls(self, part, called):
        """The places in a part where a function may be called."""
        return [at for at, _, targets in self.names(part) if called in targets]

    def next(self, part):
        """The parts with code that a part may come to at once."""
        return [target for _, _, targets in self.names(part) for target in targets if target.end > 0]

    def names(self, part):
        """The names in a part that lead to others, and those that should and lead to none: place, name, and where it leads."""
        if part not in self.known:
            self.known[part] = [(mark.start(), mark.group(), []) for mark in part.found(NAMELESS)]
            variables = part.variables()
            self.known[part] += filter(None, (self.name(part, found, variables) for found in part.found(PATH)))
            self.known[part] += self.unseen(part)
        return self.known[part]

    def name(self, part, found, variables):
        path = tuple(re.findall(r"\w+", found.group()))
        called = CALLED.match(part.code, found.end()) is not None and path[0] not in KEYWORDS
        if len(path) == 1 and not called and (TYPED.match(part.code, found.end()) or is_variable(path[0], found.start(), variables)):
            return None
        if not OF_A_VALUE.search(part.code, part.start, found.start()):
            written, targets = "::".join(path), self.targets(part.crate, path)
        elif called:
            written, targets = f".{path[0]}", [target for crate in self.crates.values() for target in crate.parts.get(path[0], [])]
        else:
            # A field.
            return None
        if len(path) == 1 and not targets and part.name == ROWS and path[0] in part.closures():
            return None
        leads = called or len(path) > 1
        return (found.start(), written, targets) if targets or (leads and not BUILT_IN.fullmatch(written)) else None

    def targets(self, name, path, used=frozenset()):
        """All that a path written in the crate of this name may lead to, by its own names and by imports that are not used yet."""
        crate = self.crates[name]
        while len(path) > 1 and path[0] in ("crate", "self", "super"):
            path = path[1:]
        found = list(crate.parts.get(path[-1], [])) if len(path) == 1 or path[0] in crate.heads else []
        if len(path) > 1 and path[0] in self.crates:
            found += self.targets(path[0], path[1:], used)
        for plain, whole in [(plain, whole) for plain in (path[0], "*") for whole in crate.imports.get(plain, [])]:
            if (name, plain, whole) not in used:
                goes_on = whole[:-1] + path if plain == "*" else whole + path[1:]
                found += self.targets(name, goes_on, used | {(name, plain, whole)})
        return list(dict.fromkeys(found))


# ---- self-test

# The crate whose methods the trials are.
TRYING = "periods"
# What a planning works out before its trials, and a counting before its words; and the sum for one word.
PREPARE = "trials::prepare"
TOTAL = "counter::total"


def changed(name, change):
    """An edit of a function: what stands before its body, its body, and what stands after it are put together anew."""
    def put(folder):
        part = Trials(folder).named(name)
        text = (folder / part.path).read_text(encoding="utf-8")
        (folder / part.path).write_text(change(text[: part.start], text[part.start : part.end], text[part.end :]), encoding="utf-8")
    return put


def first(name, code):
    """Code at the beginning of a function."""
    return changed(name, lambda before, body, after: f"{before}{{ {code} {body[1:]}{after}")


def becomes(name, body):
    """Another body of a function."""
    return changed(name, lambda before, _, after: before + body + after)


def with_clause(name, clause):
    """One more clause of a function's contract."""
    return changed(name, lambda before, body, after: f"{before}{clause}\n{body}{after}")


def instead(name, old, new):
    """Other code for the first of a piece of a function."""
    return changed(name, lambda before, body, after: before + body.replace(old, new, 1) + after)


def looped(name, code):
    """Code at the beginning of a function's first loop."""
    def put(folder):
        loop = Trials(folder).named(name).loops()[0]
        text = (folder / loop.path).read_text(encoding="utf-8")
        at = loop.code.index("{", loop.start) + 1
        (folder / loop.path).write_text(f"{text[:at]} {code} {text[at:]}", encoding="utf-8")
    return put


def added(crate, code, file="lib.rt"):
    """Code at the end of a crate's file, which is made if there is none."""
    def put(folder):
        with (folder / "crates" / crate / "src" / file).open("a", encoding="utf-8") as source:
            source.write(f"\n{code}\n")
    return put


def again(code):
    """Other code for the needs of works at N in a preparation; in it NEEDS stands for them."""
    needs = "sweep::needs(t.n, t.loading, &t.work, t.normal)"
    return instead(PREPARE, f"let normal = {needs};", f"let mut normal = [0; 64]; {code.replace('NEEDS', needs)}")


def asked(code):
    """Other code for the needs of all rows, in `a`; in it FIGURE stands for the closure that asks for the need of one."""
    figure = "|i| checks::need(loading, work[i], speed)"
    return becomes(ASKING[0][0], f"{{ let mut a = [0; 64]; {code.replace('FIGURE', figure)} a }}")


def implemented(trait, head):
    """A type that does what the language has a name for by a function of its own, which asks for a need."""
    return f"struct A {{ a: u32 }}\nimpl {trait} for A {{ fn {head} {{ checks::need(0, 1, self.a) }} }}"


def edits():
    """Name of a fault, what puts it into a copy, and the pieces of what must be said of it."""
    crate, sweep = TRYING, SWEEP.split("::")[1]
    whose, trial = TRIAL.split("::")
    counts, words = WORDS.split("::")
    (rows, *_), _, (high, *_) = ASKING
    works, parts, highs = map(said, ASKING)
    hidden = "fn hidden(work: u32) -> u32\n    ensures { result ≡ result }\n{\n    checks::need(0, work, 1)\n}"
    halved = "impl Table { fn halved(self) -> u32 { self.n / 2 } }"
    value = "const G: u32 = 7; static F: fn(u32) -> u32 = hidden;"
    many = "fn many<F: Fn() -> [u32; 64]>(make: F) -> [u32; 64] { for k in 0..64 { make(); } make() }"
    own = "fn own() -> [u32; 64] { sweep::needs(t.n, t.loading, &t.work, t.normal) }"
    twice = "fn twice<F: Fn(usize) -> u32>(n: u32, figure: F) -> [u32; 64] { by_row(n, &figure); by_row(n, figure) }"
    return [
        ("a division in the trial", [looped(TRIAL, "let a = 7 / 2;")], f"a trial divides (/): {TRIAL}"),
        ("a division beside the trial", [looped(PLACES, "let mut a = 7; a /= 2;")], f"a trial divides (/=): {PLACES}"),
        ("a division in a loop's head", [first(PLACES, "while (S { a: 1 }).a < 7 / 2 {}")], f"a trial divides (/): {PLACES}"),
        ("a division after a head's braces", [first(PLACES, "while let S { a } = b { let c = 7 / 2; }")], f"a trial divides (/): {PLACES}"),
        ("a remainder in the sweep", [first(SWEEP, "let mut a = 7; a %= 2;")], f"a trial divides (%=): .. > {SWEEP}"),
        ("a remainder two crates down", [first(SWEEP, "checks::odd(7);"), added("checks", "pub fn odd(a: u32) -> u32 { a % 2 }")],
         f"crates/checks/src/lib.rt .. a trial divides (%): .. > {SWEEP} > checks::odd"),
        ("a division in a constant", [first(SWEEP, "for a in 0..HALF[0] {}"), added(crate, "const HALF: [u32; 1] = [64 / 2];")],
         f"a trial divides (/): .. > {SWEEP} > {crate}::HALF"),
        ("a division in a method", [first(SWEEP, "let a = t.halved();"), added("rules", halved)],
         f"a trial divides (/): .. > {SWEEP} > Table::halved"),
        ("a call that divides", [first(SWEEP, "let a = u32::div_euclid(7, 2);")], "a trial divides (u32::div_euclid)"),
        ("a method that divides", [first(SWEEP, "let a = 7.is_multiple_of(2);")], "a trial divides (.is_multiple_of)"),
        ("the need in the sweep", [first(SWEEP, "checks::need(0, 1, 1);")], f"a trial works out a need (checks::need): .. > {SWEEP}"),
        ("the need behind a new function", [first(SWEEP, "hidden(1);"), added(crate, hidden)],
         f"a trial works out a need (checks::need): .. > {SWEEP} > {crate}::hidden"),
        ("the need in another file", [first(SWEEP, "crate::more::hidden(1);"), added(crate, "mod more;"), added(crate, hidden, "more.rt")],
         f"crates/{crate}/src/more.rt:5: a trial works out a need"),
        ("the need under another name", [first(SWEEP, "slots(0, 1, 1);"), added(crate, "use checks::{need as slots};")],
         f"a trial works out a need (slots): .. > {SWEEP}"),
        ("the need from a whole crate", [first(SWEEP, "(need)(0, 1, 1);"), added(crate, "use checks::*;")],
         f"a trial works out a need (need): .. > {SWEEP}"),
        ("the need from a crate between", [first(SWEEP, "rules::slots(0, 1, 1);"), added("rules", "pub use checks::need as slots;")],
         f"a trial works out a need (rules::slots): .. > {SWEEP}"),
        ("a call into no crate of these", [first(SWEEP, f"io::{sweep}(1);")], f"a trial uses io::{sweep}, which cannot be followed"),
        ("a call of an unknown name", [first(SWEEP, "unknown(1);")], f"a trial uses unknown, which cannot be followed: .. > {SWEEP}"),
        ("a method of an unknown name", [first(SWEEP, "left.unknown(1);")], "a trial uses .unknown, which cannot be followed"),
        ("a constant of no crate of these", [first(SWEEP, "let a = io::LIMIT;")], "a trial uses io::LIMIT, which cannot be followed"),
        ("a macro", [first(SWEEP, "unknown!(left);")], "a trial uses unknown, which cannot be followed"),
        ("a call with types", [first(SWEEP, "unknown::<u8>(1);")], "a trial uses ::<, which cannot be followed"),
        ("a call of no name", [first(SWEEP, "(left)(1);")], "a trial uses )(, which cannot be followed"),
        ("a function in a function", [again("fn Some(t: Table) -> [u32; 64] { NEEDS } normal = Some(t); normal = Some(t);")],
         f"{PREPARE} has a function in it, which is not read here: fn Some"),
        ("an iterator of its own", [first(PREPARE, "A { a: 1 }.all(|_| true);"), added("trials", implemented("Iterator", "next(&mut self) -> Option<u32>"))],
         "A::next may be called with no name in the code"),
        ("an order of its own", [first(PREPARE, "A { a: 1 }.max(A { a: 2 });"), added("trials", implemented("Ord", "cmp(&self, other: &A) -> Ordering"))],
         "A::cmp may be called with no name in the code"),
        ("a partial order of its own",
         [first(PREPARE, "[A { a: 1 }].is_sorted();"), added("trials", implemented("PartialOrd", "partial_cmp(&self, other: &A) -> Option<Ordering>"))],
         "A::partial_cmp may be called with no name in the code"),
        ("a pointer of its own", [first(PREPARE, "A { a: 1 }.iter();"), added("trials", implemented("Deref", "deref(&self) -> &[u32]"))],
         "A::deref may be called with no name in the code"),
        ("an unknown call in planning", [first(PLAN, "unknown(1);")], f"planning uses unknown, which cannot be followed: {PLAN}"),
        ("the trial under another name", [changed(TRIAL, lambda a, body, b: a.replace(f"fn {trial}", "fn other") + body + b)],
         f"there are 0 functions {TRIAL}, not one"),
        ("two trials of one name", [added(crate, f"impl {whose} {{ fn {trial}() {{}} }}")], f"there are 2 functions {TRIAL}, not one"),
        ("a need in the question for a part", [first(PART, "checks::need(0, 1, 1);")],
         f"a trial works out a need (checks::need): {PART}"),
        ("a division in the pass for a moment", [first(MOMENT, "let a = 7 / 2;")], f"a trial divides (/): .. > {MOMENT}"),
        ("a remainder beside the question for parts", [looped(LOW, "let a = 7 % 2;")], f"a trial divides (%): {LOW}"),
        ("needs of all parts in a trial", [looped(LOW, "sweep::needs(n, 0, promised, 1);")],
         f"a trial works out a need (checks::need): {LOW} > {rows}"),
        ("parts that no pass is made for", [becomes(PART, "{ true }")], f"{MOMENT} is not called in {PART}"),
        ("parts that are not asked for", [becomes(LOW, "{ while true { self.first_in_time(t); } }")], f"{PART} is not called in the loops of {LOW}"),
        ("a part asked for elsewhere", [looped(PLACES, "parts.part_in_time(t);")], f"{PLACES} calls {PART} outside of the loops of {LOW} and {STANDS}"),
        ("LO rows tried elsewhere", [first(PLAN, f"{LOW}(t);")], f"{PLAN} calls {LOW} outside of the loops of {PLACES}"),
        ("LO rows without a loop", [becomes(LOW, "{ }")], f"{LOW} has no loop"),
        ("LO rows that are not tried", [becomes(LOW, "{ while true { parts.part_in_time(t); } }")], f"{TRIAL} is not called in the loops of {LOW}"),
        ("a trial without a loop", [becomes(TRIAL, "{ checks::and_then() }")], f"{TRIAL} has no loop"),
        ("a trial that calls nothing", [becomes(TRIAL, "{ while true { rules::Refusal::NoRoom; } }")], f"the loop of {TRIAL} calls nothing"),
        ("a trial that does not sweep", [becomes(TRIAL, "{ while true { checks::and_then(); } }")], f"{SWEEP} is not called in {TRIAL}"),
        ("a sweep elsewhere", [looped(LOW, f"{sweep}(t);")], f"{LOW} calls {SWEEP} outside of {TRIAL} and {ALL}"),
        ("a sweep from another crate", [first("judge::timed", f"{crate}::{SWEEP}(t);")], f"judge::timed calls {SWEEP} outside of {TRIAL} and {ALL}"),
        ("a trial elsewhere", [first(PLAN, f"{TRIAL}(t);")], f"{PLAN} calls {TRIAL} outside of the loops of {PLACES} and the loops of {LOW}"),
        ("a trial before the places", [first(PLACES, f"{TRIAL}(t);")], f"{PLACES} calls {TRIAL} outside of the loops of {PLACES} and the loops of {LOW}"),
        ("places without trials", [becomes(PLACES, "{ while true {} }")], f"{TRIAL} is not called in the loops of {PLACES}"),
        ("places without a loop", [becomes(PLACES, "{ }")], f"{PLACES} has no loop"),
        ("a planning without places", [becomes(PLAN, "{ }")], f"{PLAN} does not come to {PLACES}"),
        ("a planning without needs", [becomes(PLAN, "{ }")], f"0 ways, not one, lead from {PLAN} to {NEED} in {works}"),
        ("needs of works twice", [first(PREPARE, "let a = sweep::needs(t.n, t.loading, &t.work, t.normal);")],
         f"2 ways, not one, lead from {PLAN} to {NEED} in {works}"),
        ("needs of works at G too", [first(PREPARE, "let a = sweep::needs(t.n, t.loading, &t.work, t.degraded);")],
         f"2 ways, not one, lead from {PLAN} to {NEED} in {works}"),
        ("needs of parts twice", [first(PREPARE, "let a = sweep::needs(t.n, t.loading, &t.promised, t.degraded);")],
         f"2 ways, not one, lead from {PLAN} to {NEED} in {parts}"),
        ("needs of another column", [first(PREPARE, "let a = sweep::needs(t.n, t.loading, &t.deadline, t.normal);")],
         f"{rows} works out needs of a planning besides {works}, {parts}, {highs}: {PLAN}"),
        ("a preparation twice", [first(PLACES, f"let a = {PREPARE}(t);")], f"2 ways, not one, lead from {PLAN} to {NEED} in {highs}"),
        ("a row's need twice", [instead(rows, "checks::need(", "checks::need(0, 1, 1) + checks::need(")],
         f"2 ways, not one, lead from {PLAN} to {NEED} in {works}"),
        ("a HI row's need twice", [instead(high, "checks::need(", "checks::need(t.loading, t.work[i], 1) + checks::need(")],
         f"2 ways, not one, lead from {PLAN} to {NEED} in {highs}"),
        ("a HI row's need of its part", [instead(high, "t.work[i]", "t.promised[i]")],
         f"{high} works out needs of a planning besides {works}, {parts}, {highs}: {PLAN}"),
        ("a HI row's need beside the rows", [first(high, "checks::need(t.loading, t.work[i], 1);")], f"0 loops, not one, are around a need: {PLAN} .. {high}"),
        ("a need in the preparation", [first(PREPARE, "checks::need(0, 1, 1);")],
         f"{PREPARE} works out needs of a planning besides {works}, {parts}, {highs}: {PLAN}"),
        ("needs of works in a loop", [becomes(PREPARE, "{ while true { sweep::needs(1, 0, &t.work, 1); } sweep::degraded_caps(1) }")],
         f"2 loops, not one, are around a need: {PLAN} .. {rows}"),
        ("a need beside the rows", [first(rows, "checks::need(loading, work[0], speed);")], f"0 loops, not one, are around a need: {PLAN} .. {rows}"),
        ("rows gone through twice", [instead(rows, "by_row(", "by_row(n, |j| by_row(n, |i| checks::need(0, 1, 1))[j]); by_row(")],
         f"2 loops, not one, are around a need: {PLAN} .. {rows}"),
        ("needs of works in a method's turns", [again("(0..64).all(|_| { normal = NEEDS; true });")],
         f"2 loops, not one, are around a need: {PLAN} .. {rows}"),
        ("needs of works in the turns of a chain", [again("t.work.iter().rev().skip(1).all(|_| { normal = NEEDS; true });")],
         f"2 loops, not one, are around a need: {PLAN} .. {rows}"),
        ("rows gone through in a method's turns", [asked("(0..64).all(|_| { a = by_row(n, FIGURE); true });")],
         f"2 loops, not one, are around a need: {PLAN} .. {rows}"),
        ("a need in turns of turns", [asked("(0..64).all(|_| (0..64).all(|k| { a[k] = checks::need(loading, work[k], speed); true }));")],
         f"2 loops, not one, are around a need: {PLAN} .. {rows}"),
        ("places filled in a method's turns", [instead(WITHIN, "choose(t, ceiling)", "{ (0..64).all(|_| { choose(t, ceiling); true }); refused(0) }")],
         f"2 loops, not one, are around a need: {PLAN} .. {rows}"),
        ("a need for how many rows there are", [asked("a = by_row(n.min(checks::need(loading, work[0], speed)), |i| 7);")],
         f"0 loops, not one, are around a need: {PLAN} .. {rows}"),
        ("a closure that another function calls", [again("normal = many(|| NEEDS);"), added("trials", many)],
         f"planning uses make, which cannot be followed: {PLAN} > .. > trials::many"),
        ("a closure handed to another function", [again("normal = many(|| NEEDS);"), added("trials", many)],
         f"planning uses ||, which cannot be followed: {PLAN} > .. > {PREPARE}"),
        ("a function handed to another function", [again("normal = many(own);"), added("trials", many), added("trials", own)],
         f"planning uses own, which cannot be followed: {PLAN} > .. > {PREPARE}"),
        ("a closure handed on to the rows twice", [asked("for k in 0..1 { a = twice(n, FIGURE); }"), added("sweep", twice)],
         f"planning uses |i|, which cannot be followed: {PLAN} > .. > {rows}"),
        ("a closure that is kept", [asked("for k in 0..1 { let f = FIGURE; a = by_row(n, f); a = by_row(n, f); }")],
         f"planning uses |i|, which cannot be followed: {PLAN} > .. > {rows}"),
        ("a closure that is kept and called", [asked("for k in 0..1 { let entry = FIGURE; entry(1); entry(2); }")],
         f"planning uses |i|, which cannot be followed: {PLAN} > .. > {rows}"),
        ("a closure in a value", [asked("while let Some(f) = Some(FIGURE) { a = by_row(n, f); a = by_row(n, f); }")],
         f"planning uses |i|, which cannot be followed: {PLAN} > .. > {rows}"),
        ("a closure in a field", [asked("for k in 0..1 { let f = F { f: FIGURE }; a = by_row(n, f.f); a = by_row(n, f.f); }")],
         f"planning uses |i|, which cannot be followed: {PLAN} > .. > {rows}"),
        ("a closure in an array", [asked("for k in 0..1 { let f = [FIGURE]; a = by_row(n, f[0]); a = by_row(n, f[0]); }")],
         f"planning uses |i|, which cannot be followed: {PLAN} > .. > {rows}"),
        ("a closure after a block", [asked("for k in 0..1 { let f = { if n == 0 { return a; } FIGURE }; a = by_row(n, f); a = by_row(n, f); }")],
         f"planning uses |i|, which cannot be followed: {PLAN} > .. > {rows}"),
        ("a value that rows are asked by", [first(PREPARE, "let a = sweep::by_row(t.n, F);"), added("trials", f"{value} {hidden}")],
         f"planning uses F, which cannot be followed: {PLAN} > .. > {PREPARE}"),
        ("a value that a method asks", [first(PREPARE, "(0..64).all(F);"), added("trials", f"{value} {hidden}")],
         f"planning uses F, which cannot be followed: {PLAN} > .. > {PREPARE}"),
        ("a closure in a constant", [first(PREPARE, "let f = F;"), added("trials", "const F: fn(usize) -> u32=|i| 7;")],
         f"planning uses |i|, which cannot be followed: {PLAN} > .. > trials::F"),
        ("a function that is kept", [asked("for k in 0..1 { let f = checks::need; a = by_row(n, f); a = by_row(n, f); }")],
         f"planning uses checks::need, which cannot be followed: {PLAN} > .. > {rows}"),
        ("a function in a constant", [first(PREPARE, "let f = F;"), added("trials", "const F: fn(u32) -> u32=hidden;"), added("trials", hidden)],
         f"planning uses hidden, which cannot be followed: {PLAN} > .. > trials::F"),
        ("a function kept in the rows' turns", [asked("a = by_row(n, |i| { let f = checks::need; by_row(n, f)[i] + by_row(n, f)[i] });")],
         f"planning uses checks::need, which cannot be followed: {PLAN} > .. > {rows}"),
        ("what goes over rows, named before another call", [asked("let f = by_row; a = twice(n, FIGURE);"), added("sweep", twice)],
         f"planning uses by_row, which cannot be followed: {PLAN} > .. > {rows}"),
        ("a row asked twice", [instead(ROWS, "figure(i)", "figure(i) + figure(i)")], f"{ROWS} does not ask what it is handed once for each row"),
        ("one row asked", [becomes(ROWS, "{ [figure(0); 64] }")], f"{ROWS} does not ask what it is handed once for each row"),
        ("a row asked beside the loop", [first(ROWS, "figure(0);")], f"{ROWS} does not ask what it is handed once for each row"),
        ("a row asked in a method's turns", [instead(ROWS, "column[i] = figure(i);", "(0..64).all(|_| { column[i] = figure(i); true });")],
         f"{ROWS} does not ask what it is handed once for each row"),
        ("what rows are asked by, handed on", [first(ROWS, "(0..64).all(&figure);")], f"{ROWS} does not ask what it is handed once for each row"),
        ("a closure that divides", [first(SWEEP, "let a = sweep::by_row(n, |i| 7 / i);")], f"a trial divides (/): .. > {SWEEP}"),
        ("a function handed on that divides", [first(SWEEP, "let a = sweep::by_row(n, half);"), added(crate, "fn half(a: usize) -> u32 { 7 / 2 }")],
         f"a trial divides (/): .. > {SWEEP} > {crate}::half"),
        ("a function handed on that asks for the need", [first(SWEEP, "let a = sweep::by_row(n, hidden);"), added(crate, hidden)],
         f"a trial works out a need (checks::need): .. > {SWEEP} > {crate}::hidden"),
        ("an unknown call beside a closure", [first(ROWS, "unknown(1);")], f"planning uses unknown, which cannot be followed: {PLAN} > .. > {ROWS}"),
        ("a need of one row", [becomes(rows, "{ checks::need(0, 1, 1) }")], f"0 loops, not one, are around a need: {PLAN} .. {rows}"),
        ("a planning that calls itself", [first(PREPARE, f"{PLAN}(t);")], f"{PLAN} comes back to {PLAN}: {PLAN} .. {PREPARE}"),
        ("a sweep without a body", [becomes(SWEEP, ";")], f"{SWEEP} has no body: {PLAN}"),
        ("all LO entries searched", [instead(PLACES, "allowed & w.low", "tries & w.low")], f"searches by {LOW} more than the ceiling allows"),
        ("all HI entries searched", [instead(PLACES, "allowed & w.high", "tries & w.high")], f"searches by {TRIAL} more than the ceiling allows"),
        ("a ceiling for each place", [instead(PLACES, "ceiling - made", "ceiling - 0")], f"{PLACES} cuts the entries of a place 0 times"),
        ("entries allowed again", [instead(PLACES, "let found =", "let allowed = tries; let found =")], f"{PLACES} sets what it has of the ceiling"),
        ("a ceiling that grows", [looped(PLACES, "ceiling += 1;")], f"{PLACES} sets what it has of the ceiling"),
        ("entries allowed again out of a value", [instead(PLACES, "let found =", "let Some(allowed) = Some(tries) else { return a; }; let found =")],
         f"{PLACES} sets what it has of the ceiling: let Some(allowed"),
        ("entries allowed again out of two", [instead(PLACES, "let found =", "let (Ok(a), allowed) = (Ok(0), tries) else { return b; }; let found =")],
         f"{PLACES} sets what it has of the ceiling: let (Ok(a), allowed"),
        ("entries allowed again in a case", [instead(PLACES, "let found =", "match Ok((0, tries)) { Ok((a, allowed)) => b, Err(why) => c } let found =")],
         f"{PLACES} sets what it has of the ceiling: ((a, allowed))"),
        ("entries allowed again by a closure", [instead(PLACES, "let found =", "(tries..tries + 1).all(|allowed| a.has(allowed & w.low)); let found =")],
         f"{PLACES} sets what it has of the ceiling: |allowed|"),
        ("entries cut in a method's turns", [instead(PLACES, "let allowed = trials::first_entries(tries, ceiling - made);",
                                                     "(0..2).all(|_| { let allowed = trials::first_entries(tries, ceiling - made); true });")],
         f"{PLACES} cuts the entries of a place 2 times"),
        ("all trials made first", [instead(WITHIN, "choose(t, ceiling)", "choose(t, most_trials(t.n))")], f"{WITHIN} hands {PLACES} another ceiling"),
        ("a whole planning before", [first(EXPORTED, "let whole = planner::plan(t);")], f"2 ways, not one, lead from {EXPORTED} to {PLACES}"),
        ("a whole planning before, over words", [first(BOUNDARY, "let whole = planner::plan(t);")], f"2 ways, not one, lead from {BOUNDARY} to {PLACES}"),
        ("all trials over words made first", [instead(BOUNDARY, "table_in(table), ceiling)", "table_in(table), 2080)")], f"{BOUNDARY} hands {WITHIN} another"),
        ("all trials for C made first", [instead(EXPORTED, "(table, ceiling,", "(table, 2080,")], f"{EXPORTED} hands {BOUNDARY} another ceiling"),
        ("another ceiling that is enough", [instead(PLAN, "most_trials(t.n)", "2080")], f"{PLAN} hands {WITHIN} another ceiling"),
        ("a ceiling raised before", [first(WITHIN, "let ceiling = ceiling | 4095;")], f"{WITHIN} hands {PLACES} another ceiling"),
        ("a ceiling out of a value", [instead(WITHIN, "choose(t, ceiling)", "match Some(4095) { Some(ceiling) => choose(t, ceiling), None => a }")],
         f"{WITHIN} hands {PLACES} another ceiling"),
        ("a ceiling out of two", [instead(WITHIN, "choose(t, ceiling)", "match (4095, Ok(1)) { (ceiling, Ok(a)) if a > 0 => choose(t, ceiling), b => c }")],
         f"{WITHIN} hands {PLACES} another ceiling"),
        ("a ceiling that a closure takes", [instead(WITHIN, "choose(t, ceiling)", "(4095..4096).all(|ceiling| choose(t, ceiling))")],
         f"{WITHIN} hands {PLACES} another ceiling"),
        ("a preparation without a body", [becomes(PREPARE, ";")], f"{PREPARE} has no body: {PLAN}"),
        ("the need for a variable", [first(SWEEP, "let need = need;"), added(crate, "use checks::*;")], f"a trial works out a need (need): .. > {SWEEP}"),
        ("the need after a variable's block", [first(SWEEP, "{ let need = 7; } let a = need;"), added(crate, "use checks::*;")],
         f"a trial works out a need (need): .. > {SWEEP}"),
        ("the need beside a variable of its name", [first(SWEEP, "let need = 7; let a = need(0, 1, 1);"), added(crate, "use checks::*;")],
         f"a trial works out a need (need): .. > {SWEEP}"),
        ("a division in the loop of counting", [looped(WORDS, "let a = 7 / 2;")], f"counting a word divides (/): {WORDS}"),
        ("a division in the head of that loop", [instead(WORDS, "1..all + 1", "1..all / 1")], f"counting a word divides (/): {WORDS}"),
        ("a division in a method's turns before that loop", [first(WORDS, "(1..64).all(|a| 7 / a == 1);")], f"counting a word divides (/): {WORDS}"),
        ("a division in a method's turns before the places", [first(PLACES, "(1..64).all(|a| 7 / a == 1);")], f"a trial divides (/): {PLACES}"),
        ("a division in the rows' turns before that loop",
         [first(WORDS, "let a = sweep::by_row(t.n, half);"), added(counts, "fn half(a: usize) -> u32 { 7 / 2 }")],
         f"counting a word divides (/): {WORDS} > {counts}::half"),
        ("a division in a word's sum", [first(TOTAL, "let a = 7 / 2;")], f"counting a word divides (/): {WORDS} > {TOTAL}"),
        ("a remainder in the question for standing", [first(STANDS, "let mut a = 7; a %= 2;")], f"counting a word divides (%=): .. > {STANDS}"),
        ("a remainder beside the shared sweep", [first(ALL, "let a = 7 % 2;")], f"counting a word divides (%): {WORDS} > {ALL}"),
        ("a call that divides in a word's sum", [looped(TOTAL, "let a = u32::div_euclid(7, 2);")], "counting a word divides (u32::div_euclid)"),
        ("the need in the loop of counting", [looped(WORDS, "checks::need(0, 1, 1);")], f"counting a word works out a need (checks::need): {WORDS}"),
        ("the need in a word's sum", [first(TOTAL, "checks::need(0, 1, 1);")], f"counting a word works out a need (checks::need): .. > {TOTAL}"),
        ("an unknown call in a word's sum", [first(TOTAL, "unknown(1);")], "counting a word uses unknown, which cannot be followed"),
        ("an unknown call in counting", [first(COUNT, "unknown(1);")], f"counting uses unknown, which cannot be followed: {COUNT}"),
        ("a preparation in the loop of counting", [looped(WORDS, f"let w = {PREPARE}(t);")],
         f"counting a word works out a need (checks::need): .. > {PREPARE}"),
        ("the preparation moved into that loop", [instead(WORDS, f"let w = {PREPARE}(t);", ""), looped(WORDS, f"let w = {PREPARE}(t);")],
         f"2 loops, not one, are around a need: {COUNT} .. > {WORDS} .. > {PREPARE}"),
        ("a preparation for counting twice", [first(WORDS, f"let a = {PREPARE}(t);")], f"2 ways, not one, lead from {COUNT} to {NEED} in {works}"),
        ("all words counted twice", [first(COUNT, f"let a = {words}(t, scratch);")], f"2 ways, not one, lead from {COUNT} to {NEED} in {parts}"),
        ("a need before the words", [first(WORDS, "checks::need(0, 1, 1);")],
         f"{WORDS} works out needs of a counting besides {works}, {parts}, {highs}: {COUNT}"),
        ("words without needs", [instead(WORDS, f"{PREPARE}(t)", "t")], f"0 ways, not one, lead from {COUNT} to {NEED} in {highs}"),
        ("a counting without words", [instead(COUNT, f"{words}(t, scratch)", "refused(why)")], f"{COUNT} does not come to {WORDS}"),
        ("a counting that calls itself", [first(TOTAL, "count(t, scratch);")], f"{COUNT} comes back to {COUNT}: {COUNT} .. {TOTAL}"),
        ("words without a loop", [becomes(WORDS, "{ }")], f"{WORDS} has no loop"),
        ("words without a sweep", [becomes(WORDS, "{ while true { standing(t); } }")], f"{ALL} is not called in the loops of {WORDS}"),
        ("a shared sweep that does not sweep", [becomes(ALL, "{ left }")], f"{SWEEP} is not called in {ALL}"),
        ("a shared sweep before the words", [first(WORDS, "all_in_time(t);")], f"{WORDS} calls {ALL} outside of the loops of {WORDS}"),
        ("a shared sweep for each row", [first(STANDS, "all_in_time(t);")], f"{STANDS} calls {ALL} outside of the loops of {WORDS}"),
        ("a sweep for each row of a word", [first(STANDS, f"{SWEEP}(t);")], f"{STANDS} calls {SWEEP} outside of {TRIAL} and {ALL}"),
        ("a sweep in the loop of counting", [looped(WORDS, f"{SWEEP}(t);")], f"{WORDS} calls {SWEEP} outside of {TRIAL} and {ALL}"),
        ("words of which no row is asked", [becomes(WORDS, "{ while true { all_in_time(t); } }")], f"{STANDING} is not called in the loops of {WORDS}"),
        ("rows of a word asked before it", [first(WORDS, "standing(t);")], f"{WORDS} calls {STANDING} outside of the loops of {WORDS}"),
        ("rows of a word without a loop", [becomes(STANDING, "{ }")], f"{STANDING} has no loop"),
        ("rows of a word that are not asked", [becomes(STANDING, "{ while true { sweep::with(1); } }")], f"{STANDS} is not called in the loops of {STANDING}"),
        ("a row of a word asked elsewhere", [looped(TOTAL, "stands(t);")], f"{TOTAL} calls {STANDS} outside of the loops of {STANDING}"),
        ("parts of a word that are not asked for", [becomes(STANDS, "{ true }")], f"{PART} is not called in {STANDS}"),
        ("a part asked for in the loop of counting", [looped(WORDS, f"{PART}(t);")], f"{WORDS} calls {PART} outside of the loops of {LOW} and {STANDS}"),
        ("a trial in the loop of counting", [looped(WORDS, f"{crate}::{TRIAL}(t);")], f"{WORDS} calls {TRIAL} outside of"),
        ("a trial in the loop of counting, as a method", [looped(WORDS, f"t.{trial}(&normal, word, all);")], f"{WORDS} calls {TRIAL} outside of"),
        ("the words under another name", [changed(WORDS, lambda a, body, b: a.replace(f"fn {words}", "fn other") + body + b)],
         f"there are 0 functions {WORDS}, not one"),
        ("two countings of one name", [added(counts, f"mod more {{ fn {words}() {{}} }}")], f"there are 2 functions {WORDS}, not one"),
        ("a word's sum without a body", [becomes(TOTAL, ";")], f"{TOTAL} has no body: {COUNT}"),
        ("a contract of another kind", [with_clause(SWEEP, "keeps { 0 }")], f"where {SWEEP} ends is not understood"),
        ("a comment in a contract", [with_clause(SWEEP, "ensures { 0 -- {\n }")], f"crates/{crate}/src/lib.rt .. '--' is not read here"),
    ]


def no_faults():
    """What is no fault, and what puts it into a copy."""
    crate = TRYING
    clauses = "ghost { 7 / 2 } requires { checks::need 7 } ensures named { ⟦checks::need(0, 1, 1)⟧ { 7 % 2 } }"
    return [
        ("nothing", []),
        ("comments and texts", [first(SWEEP, "/* 7 / 2 { */ let a = b\"checks::need(7 % 2) }\"; // unknown(7 / 2)\n let b = b'/';")]),
        ("contracts", [with_clause(SWEEP, clauses)]),
        ("built-in operations", [first(SWEEP, "let a = u64::trailing_zeros(left) >> u32::MIN; let b = queue.len();")]),
        ("turns of a method", [first(SWEEP, "let a = period.iter().rev().skip(1).all(|row| *row == 0);")]),
        ("a closure and a function that rows are asked by",
         [first(PREPARE, "let a = sweep::by_row(t.n, move |i| t.level[i]); let b = sweep::by_row(t.n, seven,);"),
          added("trials", "fn seven(a: usize) -> u32 { 7 }")]),
        ("bars around no closure",
         [first(SWEEP, "let a = (left | 1) | 2 | n as u64; if n == 1 || n == 2 || !(n > 3) { match n { 1 | 2 | 3 => {} _ => {} } }")]),
        ("brackets after words of the language", [first(SWEEP, "if (n > 0) & !(n > 64) { return (n); }")]),
        ("a value of an enum", [first(SWEEP, "let a = C::NoOrder(left);"), added(crate, "use rules::Plan as C;")]),
        ("fields and variables named as a function",
         [first(SWEEP, "let need = 7; let mut a = S { need: need }; a.need = need;"), added(crate, "use checks::*;")]),
        ("divisions outside of the loop of counting", [first(WORDS, "let a = 7 / 2;"), first(COUNT, "let a = 7 % 2;")]),
        ("divisions outside of trials", [first(PLAN, f"let a = {crate}::half(7) / 2;"), added(crate, "fn half(a: u32) -> u32 { a / 2 }")]),
    ]


def faults_of(root, puts):
    """The faults of a copy with these edits."""
    with tempfile.TemporaryDirectory() as folder:
        copied(root, Path(folder))
        for put in puts:
            put(Path(folder))
        return Trials(Path(folder)).check()


def self_test(root):
    missed, wrong = 0, 0
    for name, puts, told in edits():
        if not any(all(piece in fault for piece in told.split(" .. ")) for fault in faults_of(root, puts)):
            missed += 1
            print(f"self-test: not found: {name}")
    for name, puts in no_faults():
        if faults := faults_of(root, puts):
            wrong += 1
            print(f"self-test: taken for a fault: {name}: {faults[0]}")
    faulty, sound = len(edits()), len(no_faults())
    print(f"trials: {faulty - missed} of {faulty} faults put in were found, {sound - wrong} of {sound} copies without one passed")
    return missed + wrong


def main():
    parser = argparse.ArgumentParser(description="Looks for divisions and needs in what a trial and the counting of a word call.")
    parser.add_argument("--self-test", action="store_true", help="check that faults put into copies are found")
    arguments = parser.parse_args()
    root = Path(__file__).resolve().parent.parent
    if arguments.self_test:
        return 1 if self_test(root) else 0
    trials = Trials(root)
    faults = trials.check()
    for fault in faults:
        print(fault)
    if not faults:
        names = sorted({part.name for part in trials.reached})
        print(f"trials: no division, no need and nothing unknown in {', '.join(names)}")
        print(f"trials: {PLACES} searches no more entries of a place than the ceiling has trials left")
        for whole, ways in trials.needs.items():
            print(f"trials: {len(ways)} ways of calls lead from {whole} to a need, one for each figure whose need it is")
            for way in ways:
                print(f"  {shown(way)}")
    return 1 if faults else 0


if __name__ == "__main__":
    sys.exit(main())

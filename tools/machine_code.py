"""The archive's code as objdump lists it: the instructions of each function, and which functions a call may come to."""
import re
import subprocess

BEGINS = re.compile(r"^[0-9a-f]+ <(.+)>:$")
REACHES = re.compile(r"^\s*[0-9a-f]+: R_X86_64_\w+\s+(.+?)([-+]0x[0-9a-f]+)?$")
INSTRUCTION = re.compile(r"^\s*[0-9a-f]+:\s+(\S.*)$")


def functions(listing):
    """Each function's instructions, and the names that its code refers to."""
    found, name = {}, None
    for line in listing.splitlines():
        if begin := BEGINS.match(line):
            name = begin.group(1)
            found[name] = ([], set())
        elif name and (reach := REACHES.match(line)):
            found[name][1].add(reach.group(1).removeprefix(".text."))
        elif name and (instruction := INSTRUCTION.match(line)):
            found[name][0].append(instruction.group(1))
    return found


def functions_of(file):
    """The same of an archive or an object file."""
    listing = subprocess.run(["objdump", "-dr", "--no-show-raw-insn", file], check=True, capture_output=True, text=True).stdout
    return functions(listing)


def reached(found, start):
    """Every name that a call may come to from a function, that of the function first; names whose code is elsewhere too."""
    seen, waiting = [], [start]
    while waiting:
        name = waiting.pop()
        if name not in seen:
            seen.append(name)
            waiting += sorted(found.get(name, ([], set()))[1])
    return seen


def with_instruction(found, name, instruction):
    """A copy of the functions in which one has an instruction more."""
    return {**found, name: ([*found[name][0], instruction], found[name][1])}


def with_call(found, name, called):
    """A copy of the functions in which one calls another besides."""
    return {**found, name: (found[name][0], found[name][1] | {called})}

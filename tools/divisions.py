#!/usr/bin/env python3
"""A slot divides nothing: looks through the archive's code, from the calls that are made every slot down through all that they call, for a
division, since many boards have no divider.

  divisions.py [ARCHIVE]   default: target/staticlib/libjasminebrace.a

That it can find one is tried in the same run: planning divides, once for each need, and a call whose code has a division put in is told.
"""
import re
import sys

sys.dont_write_bytecode = True  # of the module beside this file

from machine_code import functions_of, reached, with_instruction

EVERY_SLOT = ["jb_coming", "jb_slot", "jb_forward"]
DIVIDES = re.compile(r"^(i?div[a-z]*|f?div[sp]?[sdp]?|vdiv[sp][sd])\b|__[u]?div|__[u]?mod")


def divisions(found, start):
    """Every division in the code that a call may come to, with the function that it stands in."""
    told = []
    for name in reached(found, start):
        if DIVIDES.search(name):
            told.append(f"{start} calls {name}")
        told += [f"{start} divides in {name}: {i}" for i in found.get(name, ([], set()))[0] if DIVIDES.match(i)]
    return told


def main():
    archive = sys.argv[1] if len(sys.argv) > 1 else "target/staticlib/libjasminebrace.a"
    found = functions_of(archive)
    faults = [f"{archive} has no {name}" for name in EVERY_SLOT + ["jb_plan"] if name not in found]
    for name in EVERY_SLOT:
        faults += divisions(found, name)
    if not divisions(found, "jb_plan"):
        faults.append("no division is found under jb_plan, which divides: this search finds nothing")
    for name in EVERY_SLOT:
        callee = next((callee for callee in reached(found, name)[1:] if callee in found), None)
        if callee is None or not divisions(with_instruction(found, callee, "div    %ecx"), name):
            faults.append(f"a division put into what {name} calls is not found")
    for fault in faults:
        print(fault)
    if faults:
        sys.exit(1)
    print(f"divisions: none under {', '.join(EVERY_SLOT)}; {len(divisions(found, 'jb_plan'))} under jb_plan")


if __name__ == "__main__":
    main()

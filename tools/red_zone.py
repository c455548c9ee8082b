#!/usr/bin/env python3
"""What the archive's code keeps below the stack pointer (the red zone): nothing, but in the function of the planner that the header's "Bare boards"
speaks of, and no call but those that plan or count comes to it.

  red_zone.py [ARCHIVE [OBJECT]]   default: target/staticlib/libjasminebrace.a

That it can find more is tried in the same run, on copies of the listing: with values kept below the stack pointer by a function that a slot
calls, with a frame pointer there, with values further down than the red zone goes, with a slot that comes to that function, and, where an
OBJECT file is given whose code uses the red zone, with that code beside the archive's.
"""
import re
import sys

sys.dont_write_bytecode = True  # of the module beside this file

from machine_code import functions_of, reached, with_call, with_instruction

KEEPS = "periods::AtSpeed::renew"
PLAN = {"jb_plan", "jb_plan_within", "jb_ask", "jb_least_degraded", "jb_least_normal", "jb_read_least_degraded", "jb_read_least_normal",
        "jb_program", "jb_count"}
BELOW = re.compile(r"-0x([0-9a-f]+)\(%rsp|^mov +%rsp,%rbp")


def faults_of(found):
    """What is kept below the stack pointer otherwise than it should be."""
    for name, (instructions, _) in sorted(found.items()):
        below = [match for match in map(BELOW.search, instructions) if match]
        if below and name != KEEPS:
            yield f"{name} keeps values below the stack pointer"
        elif any(match.group(1) is None or int(match.group(1), 16) > 128 for match in below):
            yield f"{name} keeps values further below the stack pointer than 128 bytes"
    plan = {name for name in found if name.startswith("jb_") and KEEPS in reached(found, name)}
    if plan != PLAN:
        yield f"calls that come to {KEEPS}: {', '.join(sorted(plan)) or 'none'}"


def spoilt_copies(found, other):
    """Copies of the listing with a fault put in, and how what is told of it begins."""
    callee = next((name for name in reached(found, "jb_slot")[1:] if name in found), "jb_slot")
    yield with_instruction(found, callee, "mov    %eax,-0x8(%rsp)"), f"{callee} keeps"
    yield with_instruction(found, callee, "mov    %rsp,%rbp"), f"{callee} keeps"
    yield with_instruction(found, KEEPS, "mov    %eax,-0x88(%rsp)"), f"{KEEPS} keeps values further"
    yield with_call(found, callee, KEEPS), "calls that come to"
    for name in other:
        yield {**found, name: other[name]}, f"{name} keeps"


def missed(found, other):
    """Which of the faults put in are not told."""
    if KEEPS not in found or "jb_slot" not in found:
        return [f"there is no {KEEPS} or no jb_slot"]
    copies = list(spoilt_copies(found, other))
    return [f"not found: {told}, put in" for copy, told in copies if not any(fault.startswith(told) for fault in faults_of(copy))]


def main():
    archive = sys.argv[1] if len(sys.argv) > 1 else "target/staticlib/libjasminebrace.a"
    found = functions_of(archive)
    other = functions_of(sys.argv[2]) if len(sys.argv) > 2 else {}
    faults = [*faults_of(found), *missed(found, other)]
    if len(sys.argv) > 2 and not other:
        faults.append(f"{sys.argv[2]} has no code")
    for fault in faults:
        print(fault)
    if faults:
        sys.exit(1)
    print(f"red zone: used by {KEEPS} alone, which {', '.join(sorted(PLAN))} come to")


if __name__ == "__main__":
    main()

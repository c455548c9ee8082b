#!/usr/bin/env python3
"""Runs README.md's commands as they are written there and compares what they say.

In a block that begins with ```console a line that begins with "$ " is a command,
and the lines up to the next one are what it writes, standard error included. A
command is run by bash in the root of the repository; commands that begin with
one of NOT_HERE are left out. Exit status 1 if one writes something else.
"""

import pathlib
import subprocess
import sys

ROOT = pathlib.Path(__file__).resolve().parent.parent
NOT_HERE = ("bash .ci/run",)  # it runs this script


def commands(text):
    """The commands of a text with the lines that are shown after each."""
    inside = False
    for line in text.splitlines():
        if line.startswith("```"):
            inside = line == "```console"
        elif inside and line.startswith("$ "):
            found = (line[2:], [])
            yield found
        elif inside:
            found[1].append(line)


def main():
    found = list(commands((ROOT / "README.md").read_text()))
    # What is built the first time is built here, so that its progress is no part of what is compared.
    subprocess.run(["tools/jasminebrace", "--version"], cwd=ROOT, check=True, stdout=subprocess.DEVNULL)
    ran = wrong = 0
    for command, shown in found:
        if command.startswith(NOT_HERE):
            continue
        ran += 1
        done = subprocess.run(
            ["bash", "-c", command], cwd=ROOT, stdin=subprocess.DEVNULL, stdout=subprocess.PIPE, stderr=subprocess.STDOUT
        )
        said = done.stdout.decode().splitlines()
        # Of a command that is shown without what it writes, only success is asked.
        fine = said == shown if shown else done.returncode == 0
        if not fine:
            wrong += 1
            print(f"NOT AS README SAYS: {command} (status {done.returncode})", *said, sep="\n    ")
    print(f"readme: {ran} commands run as written, {wrong} not as shown")
    sys.exit(0 if ran >= 10 and wrong == 0 else 1)


if __name__ == "__main__":
    main()

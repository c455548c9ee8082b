#!/usr/bin/env python3
"""Functions with many parameters: `parameters.py N` lists those of crates/*/src with N or more, and how many there are."""

import re
import sys
from pathlib import Path


def main():
    least, found = int(sys.argv[1]), 0
    for path in sorted(Path(__file__).resolve().parent.parent.glob("crates/*/src/*.rt")):
        code = re.sub(r"//[^\n]*", "", path.read_text(encoding="utf-8"))
        for function in re.finditer(r"\bfn (\w+)(?:<[^>]*>)?\(([^)]*)\)", code):
            count = sum(1 for parameter in function.group(2).split(",") if parameter.strip())
            if count >= least:
                found += 1
                print(f"{path.parts[-3]}: {function.group(1)}: {count}")
    print(found)


if __name__ == "__main__":
    main()

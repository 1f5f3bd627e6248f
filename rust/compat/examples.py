#!/usr/bin/env python3
"""Writes the examples of a crate's documentation as tests: examples.py NAME FILE [WORDS]

A test is named for NAME and the line where its example begins. With WORDS, examples are taken from
the first line on that has these words.
"""

import re
import sys


def examples(lines):
    """Each example as its line and its code: what stands between two fences in remarks, but for those
    of what the stable compiler does not have."""
    found, code, begun, is_run = [], None, 0, False
    for number, line in enumerate(lines, 1):
        remark = re.match(r"\s*//[/!] ?(.*)", line)
        if not remark:
            if "nightly" not in line:
                yield from found
            found, code = [], None
        elif not remark.group(1).startswith("```"):
            if code is not None:
                code.append(re.sub(r"^# ?", "", remark.group(1)))
        elif code is None:
            code, begun, is_run = [], number, remark.group(1)[3:].strip() in ("", "rust")
        else:
            if is_run:
                found.append((begun, code))
            code = None


def main():
    name, path, *words = sys.argv[1:]
    with open(path, encoding="utf-8") as file:
        lines = file.read().splitlines()
    first = next((at for at, line in enumerate(lines) if words and words[0] in line), 0)
    for number, code in examples([""] * first + lines[first:]):
        print(f"#[test]\nfn {name}_{number}() {{")
        print("\n".join(code))
        if any(re.match(r"\s*fn main\(", line) for line in code):
            print("main();")
        print("}\n")


if __name__ == "__main__":
    main()

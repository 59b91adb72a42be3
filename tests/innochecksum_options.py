#!/usr/bin/env python3
"""Compares the options that innochecksum --help prints with its manual page and its bash completion.

    tests/innochecksum_options.py [PROGRAM]
"""
import os
import re
import subprocess
import sys

TOP = os.path.dirname(os.path.dirname(os.path.abspath(__file__)))


def read(path):
    with open(os.path.join(TOP, path)) as file:
        return file.read()


def main():
    program = sys.argv[1] if len(sys.argv) > 1 else os.path.join(TOP, "crates/innochecksum/out/innochecksum")
    if not os.path.exists(program):
        print("skipped: no program built")
        return 77
    printed = subprocess.run([program, "--help"], capture_output=True, text=True, check=True).stdout
    helped = set(re.findall(r"(?:^  |, )(-{1,2}[A-Za-z][a-z-]*)", printed, re.MULTILINE))
    section = read("docs/innochecksum.md").split("## OPTIONS")[1].split("## OUTPUT")[0]
    heads = "\n".join(line for line in section.splitlines() if line.startswith("`-"))
    manual = set(re.findall(r"`(-{1,2}[A-Za-z][a-z-]*)", heads))
    words = re.search(r"options='([^']*)'", read("complete/innochecksum.bash")).group(1)
    completed = set(words.split())
    print("help", *sorted(helped))
    status = 0
    for name, options in (("manual page", manual), ("completion", completed)):
        if options != helped:
            status = 1
            print(f"{name}: lacks {sorted(helped - options)}, has beyond it {sorted(options - helped)}")
    return status


if __name__ == "__main__":
    sys.exit(main())

#!/usr/bin/env python3
"""Runs the built innochecksum over tablespaces of a real server, and compares output and exit status.

The tablespaces lie in ../shared/fixtures beside the repository, with innochecksum.json, which has the
lines and the exit status for each file and each list of options. Where they are not there, nothing is
tried. Build the program first: `rt run` in crates/innochecksum.

    tests/innochecksum_fixtures.py [PROGRAM] [FIXTURES]
"""
import json
import os
import subprocess
import sys

TOP = os.path.dirname(os.path.dirname(os.path.abspath(__file__)))


def main():
    program = os.path.abspath(sys.argv[1] if len(sys.argv) > 1 else os.path.join(TOP, "crates/innochecksum/out/innochecksum"))
    default = next((path for path in (os.path.join(TOP, "../shared/fixtures"), os.path.join(TOP, "../../shared/fixtures"))
                    if os.path.isdir(path)), os.path.join(TOP, "../shared/fixtures"))
    fixtures = sys.argv[2] if len(sys.argv) > 2 else default
    wanted = os.path.join(fixtures, "innochecksum.json")
    if not os.path.exists(wanted):
        print("skipped: no fixtures")
        return 77
    if not os.path.exists(program):
        print("skipped: no program built")
        return 77
    with open(wanted) as file:
        cases = json.load(file)
    tried = failed = 0
    for name, by_options in sorted(cases.items()):
        for options, want in sorted(by_options.items()):
            ran = subprocess.run([program, *options.split(), name], cwd=fixtures, capture_output=True, text=True)
            tried += 1
            lines = ran.stdout.splitlines()
            if ran.returncode != want["exit"] or lines != want["lines"]:
                failed += 1
                print(f"{name} {options!r}: {ran.returncode} {lines}, wanted {want['exit']} {want['lines']}")
    # a full device is the output's fault, 7
    if os.path.exists("/dev/full"):
        some = sorted(cases)[-1]
        for words in ([some], ["-c", some], ["--help"]):
            with open("/dev/full", "w") as full:
                ran = subprocess.run([program, *words], cwd=fixtures, stdout=full, stderr=subprocess.PIPE, text=True)
            tried += 1
            if ran.returncode != 7:
                failed += 1
                print(f"{words} to a full device: {ran.returncode} {ran.stderr!r}, wanted 7")
    print(f"{tried} tried, {failed} failed")
    return 1 if failed else 0


if __name__ == "__main__":
    sys.exit(main())

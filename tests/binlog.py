#!/usr/bin/env python3
"""Runs the built binlog over logs of a real server, and compares its options with its manual page.

The logs lie in ../shared/fixtures beside the repository, with their listings and the key files of each in
plan.json; a line FAULT in a listing stands for a refusal. Cases of calls lie in ../shared/cases. Where
they are not there, only the options that --help prints are compared, with docs/binlog.md and
complete/binlog.bash. Build the program first: `rt run` in crates/binlog.

    tests/binlog.py [PROGRAM] [SHARED]
"""
import glob
import json
import os
import re
import shlex
import shutil
import subprocess
import sys
import tempfile

TOP = os.path.dirname(os.path.dirname(os.path.abspath(__file__)))


def read(path):
    with open(os.path.join(TOP, path)) as file:
        return file.read()


def run(words, folder, stdout=subprocess.PIPE):
    return subprocess.run(words, cwd=folder, stdout=stdout, stderr=subprocess.PIPE, text=True)


def compare_options(program):
    """How many of the manual page and the completion differ from --help."""
    printed = run([program, "--help"], TOP).stdout
    helped = set(re.findall(r"(?:^ +|, )(-{1,2}[A-Za-z][a-z-]*)", printed, re.MULTILINE))
    section = read("docs/binlog.md").split("## OPTIONS")[1].split("## OUTPUT")[0]
    heads = "\n".join(line for line in section.splitlines() if line.startswith("`-"))
    manual = set(re.findall(r"`(-{1,2}[A-Za-z][a-z-]*)", heads))
    completed = set(re.search(r"options='([^']*)'", read("complete/binlog.bash")).group(1).split())
    failed = 0
    for name, options in (("manual page", manual), ("completion", completed)):
        if options != helped:
            failed += 1
            print(f"{name}: lacks {sorted(helped - options)}, has beyond it {sorted(options - helped)}")
    return 2, failed


def as_fault(line, listed):
    """The line on standard error that a line FAULT asks for, as a pattern. The place is that of the event behind
    those that are listed, each of which says where it begins and how long it is; at 0 a file is no binary log."""
    words = line.replace("FAULT ", "")
    at = 4
    for event in listed:
        begins, length = re.match(r"(\d+) .* length (\d+) ", event).groups()
        at = int(begins) + int(length)
    found = re.fullmatch(r"(\w+) at (\d+)", words)
    if found:
        return rf"binlog: log at {at}: {found[1]} {found[2]}( \d+)*\n"
    name, *numbers = re.findall(r"\w+", words)
    place = 0 if name == "BadMagic" else at
    return re.escape(" ".join([f"binlog: log at {place}: {name}", *numbers])) + "\n"


def compare_listing(program, fixtures, name, keys):
    """Whether the program lists this log as its listing says, with a password or not."""
    with open(os.path.join(fixtures, "binlog-expected", os.path.basename(name) + ".txt")) as file:
        wanted = file.read().splitlines()
    fault = wanted.pop() if wanted[-1].startswith("FAULT") else None
    choices = [[word for key in keys for word in ("--key-file", os.path.join("keys", key))]]
    if keys == ["keys.txt"]:
        choices.append(["--key-file", "keys/keys.enc", "--filekey", "FILE:keys/pw.txt", "--digest", "sha1"])
    failed = 0
    for words in choices:
        ran = run([program, *words, name], fixtures)
        status = 1 if fault else 0
        said = re.fullmatch(as_fault(fault, wanted) if fault else "", ran.stderr)
        if ran.returncode != status or ran.stdout.splitlines() != wanted or not said:
            failed += 1
            print(f"{name} {words}: {ran.returncode} {ran.stderr!r}\n{ran.stdout}wanted {status} {fault}")
    return len(choices), failed


def compare_hex(program, fixtures, name, keys):
    """Whether the lines of --hex have the lengths of their events."""
    words = [word for key in keys for word in ("--key-file", os.path.join("keys", key))]
    lines = run([program, "--hex", *words, name], fixtures).stdout.splitlines()
    events = [line for line in lines if " length " in line]
    bytes_of = [line for line in lines if re.fullmatch("[0-9a-f]{38,}", line)]
    lengths = [int(line.split(" length ")[1].split()[0]) for line in events]
    if [len(line) // 2 for line in bytes_of] == lengths:
        return 1, 0
    print(f"{name} --hex: lengths {[len(line) // 2 for line in bytes_of]}, wanted {lengths}")
    return 1, 1


def compare_fixtures(program, fixtures):
    with open(os.path.join(fixtures, "plan.json")) as file:
        plan = json.load(file)["binlog"]
    tried = failed = 0
    for name, (keys, _) in sorted(plan.items()):
        for compare in (compare_listing, compare_hex):
            more = compare(program, fixtures, name, keys)
            tried, failed = tried + more[0], failed + more[1]
    # a full device is the output's fault, 7
    if os.path.exists("/dev/full"):
        for words in (["binlog/plain-none.000002"], ["--help"]):
            with open("/dev/full", "w") as full:
                ran = run([program, *words], fixtures, full)
            tried += 1
            if ran.returncode != 7:
                failed += 1
                print(f"{words} to a full device: {ran.returncode} {ran.stderr!r}, wanted 7")
    return tried, failed


def compare_cases(program, cases):
    """Each step `binlog WORDS` of a case, over its files: status, standard error and output."""
    tried = failed = 0
    for folder in sorted(glob.glob(os.path.join(cases, "cases", "case-*"))):
        with open(os.path.join(folder, "cmd")) as file:
            steps = file.read().splitlines()[1:]
        if not steps or not all(step.startswith("binlog ") for step in steps):
            continue
        work = tempfile.mkdtemp(prefix="binlog-")
        try:
            if os.path.isdir(os.path.join(folder, "in")):
                shutil.copytree(os.path.join(folder, "in"), work, dirs_exist_ok=True)
            statuses = open(os.path.join(folder, "status")).read().split()
            errors = open(os.path.join(folder, "err")).read().split("\n")
            for number, step in enumerate(steps, 1):
                ran = run([program, *shlex.split(step)[1:]], work)
                out = os.path.join(folder, f"out-{number}")
                wanted = open(out).read() if os.path.exists(out) else ""
                said = errors[number - 1] + "\n" if errors[number - 1] else ""
                tried += 1
                if (ran.returncode, ran.stdout, ran.stderr) != (int(statuses[number - 1]), wanted, said):
                    failed += 1
                    print(f"{folder} {step}: {ran.returncode} {ran.stderr!r}\n{ran.stdout}")
        finally:
            shutil.rmtree(work)
    return tried, failed


def main():
    program = os.path.abspath(sys.argv[1] if len(sys.argv) > 1 else os.path.join(TOP, "crates/binlog/out/binlog"))
    default = next((path for path in (os.path.join(TOP, "../shared"), os.path.join(TOP, "../../shared"))
                    if os.path.isdir(path)), os.path.join(TOP, "../shared"))
    shared = sys.argv[2] if len(sys.argv) > 2 else default
    if not os.path.exists(program):
        print("skipped: no program built")
        return 77
    counts = [compare_options(program)]
    if os.path.exists(os.path.join(shared, "fixtures", "plan.json")):
        counts.append(compare_fixtures(program, os.path.join(shared, "fixtures")))
    if os.path.isdir(os.path.join(shared, "cases", "cases")):
        counts.append(compare_cases(program, os.path.join(shared, "cases")))
    tried, failed = sum(count[0] for count in counts), sum(count[1] for count in counts)
    print(f"{tried} tried, {failed} failed")
    return 1 if failed else 0


if __name__ == "__main__":
    sys.exit(main())

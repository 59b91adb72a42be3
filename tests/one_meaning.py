#!/usr/bin/env python3
"""Lists the names that have a meaning in two crates, and fails where there is one.

    tests/one_meaning.py [FOLDER]

Looked at are the words that the crates' specs/ define for others (`pub`, at the margin of a file or in modules, but no
fields of records), and the types and traits that a crate's src/ shows. A word that is handed on by `pub use` is defined
once. A type in src/ may have the name of no other crate's type or word. FOLDER is the repository, by default the one
that this script is in. The pairs of crates in SUCCESSIONS may share names.
"""
import collections
import glob
import os
import re
import sys

TOP = os.path.dirname(os.path.dirname(os.path.abspath(__file__)))
WORD = re.compile(r"(?:(?:unfoldable|abbrev|opaque)\s+)*pub\s+(?:(?:unfoldable|abbrev|opaque)\s+)*(\S+)(?:\s+(\S+))?")
# The session and the engine over it take the interim engine's place, and its words with it: a name that one of these
# pairs alone has isn't counted. They go when keyd_cli moves to the new engine, and plain_engine with it.
SUCCESSIONS = ({"plain_engine", "session_core"}, {"plain_engine", "engine_core"})
TYPE = re.compile(r"\s*pub\s+(?:unsafe\s+)?(?:struct|enum|trait|type|union)\s+(\w+)")


def words(lines):
    """The words that the lines of a file of specs/ define for other crates, with the numbers of their lines."""
    fields = None
    for number, line in enumerate(lines, 1):
        text = line.strip()
        if not text or text.startswith("--"):
            continue
        indent = len(line) - len(line.lstrip(" "))
        if fields is not None and indent > fields:
            continue
        fields = None
        found = WORD.match(text)
        if text.split()[0] in ("record", "data") or (found and found.group(1) in ("record", "data")):
            fields = indent
        if found and found.group(1) not in ("use", "mod"):
            yield number, found.group(2) if found.group(1) in ("record", "data", "module") else found.group(1)


def types(lines):
    """The types and traits that the lines of a file of src/ show, with the numbers of their lines."""
    for number, line in enumerate(lines, 1):
        found = TYPE.match(line)
        if found:
            yield number, found.group(1)


def collect(top, pattern, names, found):
    for path in sorted(glob.glob(os.path.join(top, "crates", "*", pattern), recursive=True)):
        shown = os.path.relpath(path, top)
        with open(path, encoding="utf-8") as file:
            lines = file.read().splitlines()
        for number, name in names(lines):
            found[name].append((shown.split(os.sep)[1], f"{shown}:{number}: {lines[number - 1].strip()}"))


def is_shared(places):
    """Whether a name with these places has a meaning in two crates."""
    crates = {crate for crate, _ in places}
    return len(crates) > 1 and crates not in SUCCESSIONS


def main():
    top = sys.argv[1] if len(sys.argv) > 1 else TOP
    found = collections.defaultdict(list)
    collect(top, "specs/**/*.antt", words, found)
    collect(top, "src/**/*.rt", types, found)
    if not found:
        print(f"no crates in {top}")
        return 1
    twice = {name: places for name, places in sorted(found.items()) if is_shared(places)}
    for name, places in twice.items():
        print(name)
        for _, place in places:
            print("   ", place)
    print(f"{len(found)} names, {len(twice)} of them in two crates")
    return 1 if twice else 0


if __name__ == "__main__":
    sys.exit(main())

#!/usr/bin/env python3
"""Prints what has to be believed: for each crate the files of its specs/ to which the claim of the
program leads, how many lines they have, and how many of these are rules: neither imports nor
comments nor blank. The claim is the contract of one function: what its clauses name leads to files,
and what they import to others.

docs/BELIEVE.md has this table, and says what the files are about. test_believed.py holds the page
to it."""

import os
import re
import sys

import workspace

# Where the claim stands: a source file, and the function whose contract it is.
CLAIM = ("machine_runs/src/serving.rt", "pipe_command")
IMPORT = re.compile(r"^(?:pub )?use Rattle\.(\w+)\.specs\.([\w.]+?)(?:\.\{|\s|$)", re.MULTILINE)
NO_RULE = re.compile(r"\s*(--|use |pub use |pub mod |mod |$)")
NAMED = re.compile(r"^ghost use Rattle\.(\w+)\.specs\.([\w.]+)\.\{([^}]*)\};$", re.MULTILINE)
SERVER = {
    "ref_history", "ref_table", "repl_sessions", "name_spaces", "server_rules", "trace_comparison",
    "nrepl_pipe", "repl_core", "machine_runs",
}  # fmt: skip


def main():
    found = believed()
    sums = {True: [0, 0], False: [0, 0]}
    for crate, files in found.items():
        lines, rules = counts(crate, files)
        sums[crate in SERVER][0] += lines
        sums[crate in SERVER][1] += rules
        print(f"{crate}: {lines} lines, {rules} of rules: {' '.join(files)}")
    for is_server, what in ((False, "the wire and the language"), (True, "the server")):
        print(f"{what}: {sums[is_server][0]} lines, {sums[is_server][1]} of rules")


def believed():
    """For each crate, lowest first, the files of specs/ to which the claim leads, by their names."""
    seen, left = set(), claimed(*CLAIM)
    while left:
        path = left.pop()
        if path not in seen:
            seen.add(path)
            left += imported(path)
    found = {}
    for crate in workspace.crates():
        specs = f"{crate.folder}/specs/"
        files = sorted(it[len(specs) : -len(".antt")] for it in seen if it.startswith(specs))
        if files:
            found[crate.name] = files
    return found


def claimed(path, function):
    """The files of this repository in which the names stand that a function's contract uses."""
    text = workspace.content(f"{workspace.TOP}/crates/{path}").decode()
    contract = re.search(rf"^pub fn {function}\b.*?^{{", text, re.MULTILINE | re.DOTALL).group()
    words = set(re.findall(r"\w+", contract[contract.index("ensures") :]))
    found = []
    for crate, module, names in NAMED.findall(text):
        if words & set(re.findall(r"\w+", names)):
            found += file_of(crate, module)
    return found


def imported(path):
    """The files of this repository that a file of definitions imports."""
    found = []
    for crate, module in IMPORT.findall(workspace.content(path).decode()):
        found += file_of(crate, module)
    return found


def file_of(crate, module):
    """The file of a module of definitions, or of an item of one; none where it is not ours."""
    parts = module.split(".")
    for some in (parts, parts[:-1]):
        file = f"{workspace.TOP}/crates/{crate}/specs/{'/'.join(some)}.antt"
        if os.path.isfile(file):
            return [file]
    return []


def counts(crate, files):
    """How many lines the files have, and how many of them are rules."""
    texts = [workspace.content(f"{workspace.TOP}/crates/{crate}/specs/{it}.antt") for it in files]
    lines = [line for text in texts for line in text.decode().splitlines()]
    return len(lines), sum(not NO_RULE.match(line) for line in lines)


if __name__ == "__main__":
    sys.exit(main())

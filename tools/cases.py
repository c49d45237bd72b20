#!/usr/bin/env python3
"""Runs the cases of cases/ through the built programs, and shows each difference.

    tools/cases.py [--server PROGRAM] [--turns PROGRAM] [FILE ..]

Without files it runs all. The programs are those of crates/nrepl_server and crates/run_turns unless
they are named. The last line is `N passed, M failed`. What the files say is told in
cases/README.md; case_files.py reads them."""

import concurrent.futures
import difflib
import os
import sys
import tempfile

import case_files
import workspace

MOST_SHOWN, MOST_COLUMNS = 12, 200
# The page that has an example of each function.
EXAMPLES = f"{workspace.TOP}/docs/LANGUAGE.md"


def main(words):
    programs = {
        "--server": f"{workspace.TOP}/crates/nrepl_server/out/nrepl_server",
        "--turns": f"{workspace.TOP}/crates/run_turns/out/run_turns",
    }
    while words[:1] and words[0] in programs:
        programs[words[0]] = os.path.abspath(words[1])
        words = words[2:]
    if any(word.startswith("--") for word in words):
        print(__doc__, file=sys.stderr)
        return 2
    passed, failed = run(words or all_files(), programs["--server"], programs["--turns"])
    print(f"{passed} passed, {failed} failed")
    return 1 if failed else 0


def all_files():
    found = [EXAMPLES]
    for at, folders, names in os.walk(f"{workspace.TOP}/cases"):
        folders.sort()
        found += [f"{at}/{name}" for name in sorted(names) if case_files.reader_of(name)]
    return found


def run(paths, server, turns):
    """Runs the cases of these files, prints what differs, and tells how many passed and failed."""
    cases = [case for path in paths for case in case_files.read(path)]
    with tempfile.TemporaryDirectory(prefix="cases-") as room:

        def outcome(numbered):
            number, case = numbered
            folder = f"{room}/{number}"
            os.mkdir(folder)
            program = turns if case.is_of_turns else server
            try:
                return case.wanted, case.given(program, folder)
            except (OSError, EOFError, ValueError, KeyError) as error:
                return case.wanted, [f"the case did not run: {error!r}"]

        with concurrent.futures.ThreadPoolExecutor(workspace.PROCESSORS) as pool:
            outcomes = list(pool.map(outcome, enumerate(cases)))
    failed = 0
    for case, (wanted, given) in zip(cases, outcomes):
        if wanted != given:
            failed += 1
            show(case, wanted, given)
    return len(cases) - failed, failed


def show(case, wanted, given):
    """Prints the lines that differ: those that are wanted with `-`, those that came with `+`."""
    print(f"{os.path.relpath(case.path)}:{case.line}: {case.title}")
    lines = list(difflib.unified_diff(wanted, given, lineterm="", n=1))[2:]
    for line in lines[:MOST_SHOWN]:
        print(f"    {line[:MOST_COLUMNS]}")
    if len(lines) > MOST_SHOWN:
        print(f"    and {len(lines) - MOST_SHOWN} lines more")


if __name__ == "__main__":
    sys.exit(main(sys.argv[1:]))

#!/usr/bin/env python3
"""Proves and builds the programs that are named, with all crates that they stand on, side by side.

    tools/build.py NAME ..

This is `rt ci` over a copy of these crates alone, without their must-fail edits: it proves crates
that do not stand on one another at one time, first those for which most others wait, and builds and
runs each program. Where the kit keeps what it proved on this machine, only what changed is proved
again later, here and by the gate. Not every version of the kit does; with one that does not, a
second build begins anew. So programs are kept in the out/ of their crates, with a sum over all that
they were made from, and one whose sum still stands is not built again. How far a build is stands on
standard error."""

import contextlib
import os
import re
import shutil
import sys
import threading
import time

import workspace

SECONDS_BETWEEN_REPORTS = 5
PROVED = re.compile(r"rt: (\w+) (?:proved$|is kept: )")


def main(names):
    known = {it.name: it for it in workspace.crates()}
    lost = [it for it in names if it not in known]
    if lost or not names:
        print(f"build: no such crate: {' '.join(lost)}" if lost else __doc__, file=sys.stderr)
        return 2
    asked = [known[it] for it in names if not is_kept(known[it])]
    return build(workspace.with_those_below(asked)) if asked else 0


def build(wanted):
    printed, sums = [], program_sums()
    with workspace.copied(wanted) as tree, reports(wanted) as proved:

        def see(line):
            printed.append(line)
            if PROVED.match(line):
                proved.append(PROVED.match(line)[1])

        if workspace.rt_ci(tree, see):
            print("build: not proved, or not built:\n" + "".join(printed), file=sys.stderr)
            return 1
        keep_programs(tree, sums)
    return 0


def program_of(crate):
    return f"{crate.folder}/out/{crate.name}"


def program_sums():
    return {it.name: workspace.program_sum(it) for it in workspace.crates() if it.is_program()}


def is_kept(crate):
    """Whether the program is there, built from just what stands now."""
    program = program_of(crate)
    if (
        not crate.is_program()
        or not os.path.isfile(program)
        or not os.path.isfile(f"{program}.sum")
    ):
        return False
    return workspace.content(f"{program}.sum").decode() == workspace.program_sum(crate)


def keep_programs(tree, sums):
    """Puts each program that was built in this tree into its crate's out/, with what its sum was
    when the tree was made."""
    for crate in workspace.crates():
        built = f"{tree}/crates/{crate.name}/out/{crate.name}"
        if crate.name in sums and os.path.isfile(built):
            program = program_of(crate)
            os.makedirs(os.path.dirname(program), exist_ok=True)
            # in one step each, since another start may run the old one
            shutil.copy(built, f"{program}.new")
            with open(f"{program}.sum.new", "w", encoding="utf-8") as file:
                file.write(sums[crate.name])
            os.replace(f"{program}.new", program)
            os.replace(f"{program}.sum.new", f"{program}.sum")


@contextlib.contextmanager
def reports(crates):
    """Says every few seconds how many crates are proved. Gives the list to which they are added."""
    proved, ended, began = [], threading.Event(), time.monotonic()

    def say():
        elapsed = (time.monotonic() - began) / 60
        text = f"build: {len(proved)} of {len(crates)} crates proved, {elapsed:.1f} minutes"
        print(text, file=sys.stderr, flush=True)

    def go_on():
        while not ended.wait(SECONDS_BETWEEN_REPORTS):
            say()

    teller = threading.Thread(target=go_on, daemon=True)
    teller.start()
    try:
        yield proved
    finally:
        ended.set()
        teller.join()
        say()


if __name__ == "__main__":
    sys.exit(main(sys.argv[1:]))

#!/usr/bin/env python3
"""The merge gate, started by .ci/run.

    .ci/run                 `rt ci` over a copy of the tree: every proof, but for what the kit kept
                            of an earlier run on the machine, every test, every program; then the cases of cases/ on these programs, and the tests
                            over sockets on the server. Of the must-fail edits it tries those that
                            the record does not cover, at most 100 and where the kit can be stopped
                            for at most 40 minutes of all processors, and names those that are left
    .ci/run whole           the same, and all must-fail edits, however long they take
    .ci/run edits [NAME ..] tries the edits of the crates that are named, or all that the record
                            does not cover, and nothing else

The record is tools/refused_edits.txt. Each run adds the edits to it that it saw refused: the edit,
its fingerprint, and the kit (`rt version`) that refused it. The fingerprint is a sum over what the
edit's meaning depends on (workspace.py): what it changes, the sources, definitions and proofs of
its crate, and the definitions of the crates below. A line counts as long as that is what it was;
whatever kit there is. What a record cannot show is that nobody wrote a line by hand: `.ci/run
whole` takes nothing from it.

`rt ci` runs as quick_rt.py starts it."""

import os
import re
import shutil
import sys
import time

import build
import cases
import minutes
import test_serve
import workspace

# Some versions of the kit cannot be stopped between two edits: so there are never more of them.
MINUTES_FOR_EDITS, MOST_EDITS = 40, 100
# What `rt ci` says of an edit that was refused for its meaning. One that is refused only because a
# proof names what it took away, or only by a limit of the prover, has a parenthesis behind `be`.
REFUSED = re.compile(r"rt: must-fail (\w+/\S+\.edit): refused, as it must be(?:: .*)?$")
COUNTS = re.compile(r"(\d+) passed, (\d+) failed$")
HEAD = """\
# The must-fail edits that were seen refused, each with the fingerprint of what its meaning depends
# on, and the kit that refused it. Written by .ci/run.
"""


def main(words):
    if words[:1] == ["edits"]:
        return try_edits(words[1:])
    if words not in ([], ["whole"]):
        print(__doc__, file=sys.stderr)
        return 2
    return run_gate(is_whole=bool(words))


def record():
    return f"{workspace.TOP}/tools/refused_edits.txt"


def recorded():
    """The lines of the record: for an edit, as `crate/file`, its fingerprint and the kit."""
    found = {}
    if os.path.isfile(record()):
        for line in workspace.content(record()).decode(errors="replace").splitlines():
            words = line.split()
            if len(words) > 2 and not line.startswith("#"):
                found[words[0]] = words[1], " ".join(words[2:])
    return found


def name_of(edit):
    """An edit as the record and `rt ci` name it."""
    folder, file = os.path.split(edit)
    return f"{os.path.basename(os.path.dirname(folder))}/{file}"


def all_edits():
    return [edit for crate in workspace.crates() for edit in crate.edits()]


def uncovered(edits):
    """Those of these edits of which the record says nothing, as they stand now."""
    lines, now = recorded(), workspace.fingerprints()
    return [it for it in edits if lines.get(name_of(it), ("",))[0] != now[it]]


def run_gate(is_whole):
    """Runs `rt ci` over a copy of the tree, the cases on its programs, and returns the status."""
    began = time.monotonic()
    every = all_edits()
    wanted = every if is_whole else uncovered(every)
    asked = wanted if is_whole else wanted[:MOST_EDITS]
    sums = build.program_sums()
    with workspace.copied(workspace.crates(), asked) as tree, Run(asked) as run:
        with minutes.measured() as table:
            status = workspace.rt_ci(tree, run.see, None if is_whole else MINUTES_FOR_EDITS)
        cases_passed, cases_failed = run_cases(tree)
        peers_passed, peers_failed = run_peers(tree)
        if not status:
            build.keep_programs(tree, sums)
    elapsed = (time.monotonic() - began) / 60
    print(f"gate: {elapsed:.0f} minutes on {workspace.PROCESSORS} processors\n{table.text()}")
    left = run.left() + wanted[len(asked) :]
    print(f"edits: {len(wanted) - len(left)} tried, {len(every) - len(wanted)} taken from the record")
    if left:
        print(f"edits: left, too many or of a crate that was not proved:\n{listed(left)}")
    print(f"cases: {cases_passed} passed, {cases_failed} failed")
    print(f"over sockets: {peers_passed} passed, {peers_failed} failed")
    passed = run.counts[0] + cases_passed + peers_passed
    failed = run.counts[1] + cases_failed + peers_failed
    print(f"{passed} passed, {failed} failed", flush=True)
    return 1 if status or failed else 0


def listed(edits):
    """A line for each crate."""
    by_crate = {}
    for edit in edits:
        crate, file = name_of(edit).split("/")
        by_crate.setdefault(crate, []).append(file.removesuffix(".edit"))
    return "\n".join(f"    {crate}: {' '.join(files)}" for crate, files in by_crate.items())


def run_cases(tree):
    """Runs all cases on the programs of this tree. Where one is not there that is a failure."""
    programs = [program_in(tree, name) for name in ("nrepl_server", "run_turns")]
    lost = [it for it in programs if not os.path.isfile(it)]
    if lost:
        print(f"cases: not run: no program {' '.join(map(os.path.basename, lost))}")
        return 0, 1
    return cases.run(cases.all_files(), *programs)


def run_peers(tree):
    """Runs all tests over sockets on the server of this tree, if it is there."""
    program = program_in(tree, "nrepl_server")
    return test_serve.run(program) if os.path.isfile(program) else (0, 1)


def program_in(tree, name):
    return f"{tree}/crates/{name}/out/{name}"


def try_edits(names):
    """Tries the edits of these crates, or all that the record does not cover, by `rt ci` over a
    tree of their crates and of what these stand on."""
    known = {it.name: it for it in workspace.crates()}
    lost = [it for it in names if it not in known]
    if lost:
        print(f"edits: no such crate: {' '.join(lost)}", file=sys.stderr)
        return 2
    named = [edit for name in names for edit in known[name].edits()]
    asked = named if names else uncovered(all_edits())
    if not asked:
        print("edits: none to try")
        return 0
    homes = [it for it in known.values() if any(edit in asked for edit in it.edits())]
    with workspace.copied(workspace.with_those_below(homes), asked) as tree, Run(asked) as run:
        status = workspace.rt_ci(tree, run.see)
    print(f"edits: {len(run.refused)} of {len(asked)} refused, and recorded")
    return 1 if status or len(run.refused) < len(asked) else 0


class Run:
    """What a run of `rt ci` says of these edits. In the end those that were refused are recorded,
    if what they depend on is still what it was."""

    def __init__(self, edits):
        self.edits = {name_of(it): it for it in edits}
        self.refused, self.tried, self.counts = [], set(), (0, 1)

    def see(self, line):
        counts = COUNTS.match(line)
        if counts:
            self.counts = int(counts[1]), int(counts[2])
            return
        if line.startswith("rt: must-fail "):
            name = line.split()[2].rstrip(":")
            # quick_rt.py has it said when it is known, and `rt ci` says it again
            if name in self.tried:
                return
            self.tried.add(name)
        print(line, end="", flush=True)
        if REFUSED.match(line):
            self.refused.append(REFUSED.match(line)[1])

    def left(self):
        return [edit for name, edit in self.edits.items() if name not in self.tried]

    def __enter__(self):
        self.before = workspace.fingerprints()
        return self

    def __exit__(self, *_):
        now = workspace.fingerprints()
        same = [it for it in self.refused if it in self.edits]
        note([it for it in same if now.get(self.edits[it]) == self.before[self.edits[it]]], now)


def note(names, now):
    """Writes lines of these edits, and keeps those that still count."""
    lines, kept = recorded(), {}
    for edit in all_edits():
        name = name_of(edit)
        if name in names:
            kept[name] = now[edit], workspace.kit()
        elif lines.get(name, ("",))[0] == now[edit]:
            kept[name] = lines[name]
    with open(f"{record()}.new", "w", encoding="utf-8") as file:
        file.write(HEAD)
        file.writelines(f"{name} {' '.join(line)}\n" for name, line in kept.items())
    shutil.move(f"{record()}.new", record())


if __name__ == "__main__":
    sys.exit(main(sys.argv[1:]))

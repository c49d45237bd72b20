#!/usr/bin/env python3
"""Runs `rt` with the words given to it, faster: some of the kit's own functions get another in
their place. What runs here is trusted as the kit is (docs/BELIEVE.md).

Some versions of the kit ask for the crates below a crate, and sum their sources, once for each path
through crates.txt that leads there: some 260,000 of them for the crates on top, minutes before the
first check begins. Here both are asked once, and answered the same (test_gate.py).

`rt ci` counts the tests of a crate that has none as work that waits, and so gives a library for
which all others wait, and the program and the tests behind them all, one job where three processors
are idle. Here each gets those that no other proof has; and a library with much code gets three in any
case, since it goes on when the others of its time are done, and then with the jobs that it began with.
The number of jobs changes no verdict: the kernel checks each item once.

`rt ci` tries must-fail edits beside the proofs for which other crates wait. Here they run at a lower
priority, and take the processors that the proofs leave.

`rt ci` says of must-fail edits what came of them when all is done; here also when a crate's edits
are done. Where MINUTES_FOR_EDITS is set, it begins with no crate's edits once edits took so many
minutes on all processors. Those that are left are not counted, and tools/gate.py names them."""

import importlib.machinery
import importlib.util
import os
import pathlib
import shutil
import sys
import threading
import time

KEPT = threading.local()
PROCESSORS = len(os.sched_getaffinity(0))
# Of more a check has been seen to make little use.
MOST_JOBS = 4
# What a library has of code, in lines of src/, that takes the longest.
MUCH_CODE, JOBS_FOR_MUCH = 400, 3
SECONDS_TO_BEGIN = 0.2
AT_LOWER_PRIORITY = ("nice", "-n", "10")


def main(words):
    rt = kit()
    sys.argv[0] = rt.__file__
    rt.rtlib.Crate.below = kept(rt.rtlib.Crate.below)
    rt.rtlib.Crate.stamp = once(rt.rtlib.Crate.stamp)
    rt.Crate.ci = with_idle_processors(rt.Crate.ci)
    minutes = float(os.environ.pop("MINUTES_FOR_EDITS", "inf"))
    if hasattr(rt, "checked") and hasattr(rt.rtlib, "guarded"):
        let_proofs_go_first(rt)
    if hasattr(rt, "must_fail_all"):
        rt.must_fail_all = for_so_long(told_at_once(rt.must_fail_all), 60 * minutes * PROCESSORS)
    return rt.main(words)


def kit():
    """The kit's command, as a module."""
    path = os.path.realpath(shutil.which("rt"))
    sys.path.insert(0, os.path.dirname(path))
    loader = importlib.machinery.SourceFileLoader("rt", path)
    rt = importlib.util.module_from_spec(importlib.util.spec_from_loader("rt", loader))
    loader.exec_module(rt)
    return rt


def kept(below):
    """The same crates, found once a crate. What a crate stands on does not change in a run."""

    def found(crate):
        if "found_below" not in crate.__dict__:
            crate.found_below = below(crate)
        return [*crate.found_below]

    return found


def once(stamp):
    """The same sum, asked for once a crate until the first that asked has its answer."""

    def summed(crate):
        first = not hasattr(KEPT, "sums")
        if first:
            KEPT.sums = {}
        try:
            if crate.folder not in KEPT.sums:
                KEPT.sums[crate.folder] = stamp(crate)
            return KEPT.sums[crate.folder]
        finally:
            if first:
                del KEPT.sums

    return summed


def told_at_once(must_fail_all):
    """The same answers, printed too."""

    def told(crate, edits, flags):
        answers = must_fail_all(crate, edits, flags)
        print("".join(f"rt: {text}\n" for _, text in answers), end="", flush=True)
        return answers

    return told


def for_so_long(must_fail_all, seconds):
    """The same answers, but none for a crate once those before took so many seconds in all."""
    used, running, lock = [0.0], {}, threading.Lock()

    def tried(crate, edits, flags):
        began = time.monotonic()
        with lock:
            if used[0] + sum(began - it for it in running.values()) >= seconds:
                return []
            running[crate.name] = began
        try:
            return must_fail_all(crate, edits, flags)
        finally:
            with lock:
                del running[crate.name]
                used[0] += time.monotonic() - began

    return tried


def let_proofs_go_first(rt):
    """The same checks of edits, which wait where a proof wants the processor."""
    checked, guarded = rt.checked, rt.rtlib.guarded

    def tried(*given):
        KEPT.is_edit = True
        try:
            return checked(*given)
        finally:
            del KEPT.is_edit

    def words():
        before = AT_LOWER_PRIORITY if hasattr(KEPT, "is_edit") else ()
        return [*before, *guarded()]

    rt.checked, rt.rtlib.guarded = tried, words


def with_idle_processors(ci):
    """The same proof; it has a job for each processor that no other proof has, but at most four; a
    library, since crates wait for it, three at least if it has much code."""
    running, lock = [], threading.Lock()

    def proved(crate, flags, tests):
        with lock:
            running.append(crate)
        # proofs that begin at the same time are counted too
        time.sleep(SECONDS_TO_BEGIN)
        idle = PROCESSORS - len(running)
        try:
            is_library = crate.makes_rlib() and not tests
            if flags[:1] == ["--jobs"] and (is_library or tests or crate.is_program):
                # nothing waits for a program, nor for tests
                has_much = is_library and lines_of_code(crate) >= MUCH_CODE
                least = min(JOBS_FOR_MUCH, PROCESSORS) if has_much else 1
                jobs = max(int(flags[1]), least, min(MOST_JOBS, 1 + idle))
                flags = ["--jobs", str(jobs), *flags[2:]]
            return ci(crate, flags, tests)
        finally:
            with lock:
                running.remove(crate)

    return proved


def lines_of_code(crate):
    files = pathlib.Path(crate.folder, "src").rglob("*.rt")
    return sum(it.read_bytes().count(b"\n") for it in files)


if __name__ == "__main__":
    sys.exit(main(sys.argv[1:]))

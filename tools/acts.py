#!/usr/bin/env python3
"""Measures the longest act of a book of each kind, in microseconds, and prints a table.

    tools/acts.py [PROGRAM]

`layer_bench`, or the program that is named, serves a stream as `serve` does, act by act, without
a lock: ten of each form that takes long (heavy.py), 2,000 small evals, and one that makes
99,000 refs. Each figure is the
least of several runs, since what else the machine does can make any act wait. The last line is
how long it takes to copy a message of 1 MB into new memory."""

import os
import re
import subprocess
import sys

import heavy
from bencode import encoded

TOP = os.path.dirname(os.path.dirname(os.path.abspath(__file__)))
BENCH = f"{TOP}/crates/layer_bench/out/layer_bench"
RUNS, TIMES, SMALL_EVALS = 5, 10, 2_000
KINDS = ("hear", "start", "ask", "end", "drain", "leave", "refs")
STREAMS = {
    "`(+ 1 2)`, 2,000 times": ["(+ 1 2)"] * SMALL_EVALS,
    "values, behind their definitions": [
        heavy.SMALL,
        heavy.DOUBLED,
        *[heavy.KINDS["values"]] * TIMES,
    ],
    "texts of 1 MB": [heavy.KINDS["texts"]] * TIMES,
    "prints of 1 MB, behind a text of 1 MB": [heavy.LONG, *[heavy.KINDS["prints"]] * TIMES],
    "10,000 asks in each": [heavy.SMALL, *[heavy.KINDS["asks"]] * TIMES],
    "99,000 refs, once": ["(count [" + "(ref 0) " * 99_000 + "])"],
}


def main(words):
    program = words[0] if words else BENCH
    print(
        "| Forms | A piece is heard | Start | Ask | End | A reply is taken out | Bye"
        " | 256 refs are dropped |"
    )
    print("|---|---|---|---|---|---|---|---|")
    copies = []
    for name, forms in STREAMS.items():
        stream = b"".join(encoded({"op": "eval", "id": "1", "code": it}) for it in forms)
        runs = [longest_acts(program, stream) for _ in range(RUNS)]
        figures = [str(min(run[kind] for run in runs)) for kind in KINDS]
        print(f"| {name} | " + " | ".join(figures) + " |", flush=True)
        if len(stream) > 1_000_000:
            copies += [run["copy"] for run in runs]
    print(f"a copy of 1 MB: {min(copies)}")


def longest_acts(program, stream):
    """The microseconds of each kind of act, and of a copy of the first megabyte of the stream."""
    ran = subprocess.run([program], input=b"acts\n" + stream, stdout=subprocess.PIPE, check=True)
    told = ran.stdout.decode()
    found = {kind: int(re.search(rf"\b{kind} (\d+)", told)[1]) for kind in KINDS}
    return {**found, "copy": int(re.search(r"a copy of \d+ bytes (\d+)", told)[1])}


if __name__ == "__main__":
    sys.exit(main(sys.argv[1:]))

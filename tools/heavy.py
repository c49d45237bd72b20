#!/usr/bin/env python3
"""Asks a server for evals that take long, one kind after another, until it is stopped.

    tools/heavy.py PORT [KIND ..]

`load.py` runs it beside the evals that it measures. A kind is one of `values`, `texts`, `prints` and
`asks`; unless some are named all are asked for. The server is that of this repository: the forms stay
within its limits."""

import sys

from sockets import Connection

SECONDS = 300
# So many evals on a connection: each tenant has a limit on its steps.
EVALS = 100
# A map with 64 times the same vector of 15,360 integers, 983,040 in all, and a text of 1 MB.
SMALL = "(def s [" + "7 " * 15_360 + "])"
DOUBLED = "(def big (hash-map " + " ".join(f":k{n} s" for n in range(64)) + "))"
LONG = "(def t \"" + "x" * 1_000_000 + "\")"
KINDS = {
    # each names a value of some 983,000 items 300 times
    "values": "[" + "(count big) " * 300 + "]",
    "texts": "(count \"" + "x" * 1_000_000 + "\")",
    "prints": "t",
    # 10,000 asks, each for what a symbol names
    "asks": "(do " + "s " * 10_000 + "7)",
}


def main(words):
    if not words or not set(words[1:]) <= set(KINDS):
        print(__doc__, file=sys.stderr)
        return 2
    kinds = words[1:] or list(KINDS)
    while True:
        ask_for(("127.0.0.1", int(words[0])), kinds)


def ask_for(address, kinds):
    with Connection(address, SECONDS) as connection:
        for form in (SMALL, DOUBLED, LONG):
            evaluate(connection, form)
        print("ready", flush=True)
        for number in range(EVALS):
            evaluate(connection, KINDS[kinds[number % len(kinds)]])


def evaluate(connection, form):
    replies = connection.asked({"op": "eval", "id": "1", "code": form})
    if any("ex" in it for it in replies):
        raise ValueError(f"a fault: {replies}")


if __name__ == "__main__":
    try:
        sys.exit(main(sys.argv[1:]))
    except (OSError, EOFError, ValueError) as error:
        print(f"heavy: {error}", file=sys.stderr)
        sys.exit(1)

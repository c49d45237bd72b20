#!/usr/bin/env python3
"""Measures what the journal of `serve` takes for each eval: how much more memory is resident once
one connection made more evals, divided by their number.

    tools/journal.py [COMMAND]    the built program, or a server that this command starts

A table has a row for each form. Each is evaluated 100,000 times without a session, 50 unanswered at
once, and the first 20,000 are not counted. `v` is a vector of 50,000 integers. A form that spells a
text of 1,000 characters is evaluated a tenth as often."""

import shlex
import sys

from bencode import encoded
from load import PROGRAM, megabytes
from sockets import Connection, Server

SERVE = f"{shlex.quote(PROGRAM)} serve --port 0 --connections 1 --crews 1"
FIRST, COUNTED, AT_ONCE = 20_000, 80_000, 50
TEXT = '"' + "x" * 1000 + '"'
# Of those that `megabytes` counts.
BYTES_IN_A_MEGABYTE = 1_024_000
FORMS = (
    ("nil", "nil", 1),
    ("(+ 1 2)", "(+ 1 2)", 1),
    ("(count v)", "(count v)", 1),
    ("(dosync (alter r inc))", "(dosync (alter r inc))", 1),
    ("a text of 1,000 characters", TEXT, 10),
)


def main(words):
    print("| Form | Bytes an eval |\n|---|---|")
    for name, form, share in FORMS:
        command = shlex.split(words[0] if words else SERVE)
        with Server(command) as server, Connection(server.address) as peer:
            for made in ("(def r (ref 0))", f"(def v [{' '.join(map(str, range(50_000)))}])"):
                peer.asked({"op": "eval", "id": "r", "code": made})
            evaluate(peer, form, FIRST // share)
            before = megabytes(server)
            evaluate(peer, form, COUNTED // share)
            grown = BYTES_IN_A_MEGABYTE * (megabytes(server) - before)
            print(f"| `{name}` | {grown * share / COUNTED:,.0f} |", flush=True)


def evaluate(peer, form, count):
    request = {"op": "eval", "id": "e", "code": form}
    for _ in range(count // AT_ONCE):
        peer.send(encoded(request) * AT_ONCE)
        for _ in range(AT_ONCE):
            peer.replies(request)


if __name__ == "__main__":
    main(sys.argv[1:])

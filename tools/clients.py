#!/usr/bin/env python3
"""Replays to a server what real clients sent, and checks that each request is answered whole: that
replies come with its `id` and its `session`, and one of them says that it is done.

    tools/clients.py PORT [FILE ..]      a server that runs on this machine; HOST:PORT for another
    tools/clients.py COMMAND [FILE ..]   a server that this command starts, which prints its port

Without files it replays all of cases/clients/. The last line is `N passed, M failed`, which counts
requests. A file is what one client sent, recorded as it spoke to another server. Its notes begin
with `;`, and the first has the client's name and version. An empty line stands between two
connections, and a connection has these lines, in order:

    in: BYTES           a message that was sent, in the spelling of a `.stream` (cases/README.md)
    new-session: ID     what it was answered: the session that was made. From here on the id that
                        is given now is sent in the place of this one

A message is sent once the one before is answered, as these clients did."""

import os
import sys

import bencode
import workspace
from case import unescaped
from sockets import Connection, served

FOLDER = f"{workspace.TOP}/cases/clients"


def main(words):
    if not words or words[0].startswith("-"):
        print(__doc__, file=sys.stderr)
        return 2
    with served(words[0]) as address:
        passed, failed = run(address, words[1:] or all_files())
    print(f"{passed} passed, {failed} failed")
    return 1 if failed else 0


def all_files():
    return [f"{FOLDER}/{name}" for name in sorted(os.listdir(FOLDER)) if name.endswith(".client")]


def run(address, paths):
    """Replays these files, and tells how many requests were answered whole, and how many not."""
    passed = failed = 0
    for path in paths:
        for lines in connections(path):
            asked = sum(word == "in" for word, _ in lines)
            answered, problem = replay(address, lines)
            passed, failed = passed + answered, failed + asked - answered
            if problem:
                print(f"{os.path.relpath(path)}: request {answered + 1} of {asked}: {problem}")
    return passed, failed


def connections(path):
    """What was sent on each connection of a file: its lines, each with its word and its text."""
    with open(path, encoding="utf-8") as file:
        parts = file.read().split("\n\n")
    noted = [[it for it in part.split("\n") if it and not it.startswith(";")] for part in parts]
    return [[it.split(": ", 1) for it in lines] for lines in noted if lines]


def replay(address, lines):
    """How many requests of a connection were answered whole, and why the next one was not."""
    answered, last, now = 0, {}, {}
    try:
        with Connection(address) as connection:
            for word, text in lines:
                if word == "new-session":
                    now[text] = last["new-session"]
                    continue
                sent = with_sessions(unescaped(text), now)
                connection.send(sent)
                last = connection.replies(*bencode.messages(sent))[-1]
                if "unknown-session" in last["status"]:
                    raise ValueError(f"its session is not known: {last}")
                answered += 1
    except (OSError, EOFError, ValueError, KeyError) as error:
        return answered, repr(error)
    return answered, None


def with_sessions(content, now):
    """A message with the sessions' ids as they are now."""
    for before, its in now.items():
        content = content.replace(bencode.encoded(before), bencode.encoded(its))
    return content


if __name__ == "__main__":
    sys.exit(main(sys.argv[1:]))

#!/usr/bin/env python3
"""Prints what memory a server takes for messages of which each connection has sent half.

    tools/halves.py PROGRAM

PROGRAM is `nrepl_server`. 64 connections begin a message, and then send 500,000 bytes of it: of one
string, and of a list of strings of 10,000 bytes. The figure is what they take beyond the beginnings,
when it changes no more."""

import contextlib
import re
import socket
import sys
import time

from sockets import Server

CONNECTIONS = 64
HALF = 500_000
HALVES = {
    "one string": (b"d4:code1000000:", b"x" * HALF),
    "strings of 10,000 bytes": (b"d4:datal", (b"10000:" + b"y" * 10_000) * (HALF // 10_000)),
}
SECONDS_BETWEEN_LOOKS = 0.5


def main(words):
    if len(words) != 1:
        print(__doc__, file=sys.stderr)
        return 2
    serve = [words[0], "serve", "--port", "0", "--crews", str(CONNECTIONS)]
    for name, (begin, half) in HALVES.items():
        with Server([*serve, "--connections", str(CONNECTIONS)]) as server:
            before, after = taken(server, begin, half)
        sent = CONNECTIONS * len(half)
        print(f"{name}: {after - before:,} bytes for {sent:,}, {(after - before) / sent:.2f} each")
    return 0


def taken(server, begin, half):
    """The memory with the beginnings alone, and with the halves."""
    with contextlib.ExitStack() as open_ones:
        peers = [
            open_ones.enter_context(socket.create_connection(server.address))
            for _ in range(CONNECTIONS)
        ]
        sizes = []
        for piece in (begin, half):
            for peer in peers:
                peer.sendall(piece)
            sizes.append(settled_size(server.process.pid))
        return sizes


def settled_size(pid):
    """The bytes that a process has in memory, when they change no more."""
    last = None
    while (now := size(pid)) != last:
        last = now
        time.sleep(SECONDS_BETWEEN_LOOKS)
    return now


def size(pid):
    with open(f"/proc/{pid}/status", encoding="utf-8") as file:
        return 1024 * int(re.search(r"VmRSS:\s+(\d+)", file.read())[1])


if __name__ == "__main__":
    sys.exit(main(sys.argv[1:]))

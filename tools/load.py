#!/usr/bin/env python3
"""Measures how fast nREPL servers answer evals over sockets, and prints a table for each.

    tools/load.py                    the built program, as `serve` with a shared ref
    tools/load.py --command COMMAND  the server that this command starts, which prints its port
    tools/load.py --reference COMMAND
                                     the same for one all of whose connections share `user`, as
                                     those of Clojure's own server: a ref there is shared
    tools/load.py --idle COMMAND     the same for one that answers 3 to whatever it is asked: it
                                     shows what sockets and the load allow, and is asked for no ref

    tools/load.py --heavy            another table: how 15 connections fare alone and beside one
                                     with evals that take long (heavy.py); stands first

These may stand more than once; the servers are measured one after another.
`--evals N` makes N evals in a row of the table, 10,000 unless given; the second row has 200. load.c, which gcc compiles
here, makes the load. It compares each reply with the bytes that it has to have, and ends at the
first that is another; then the status is 1.

All evals are in a session. In the second row the client leaves it to its system when what came is
acknowledged, as most do: a server that writes the value and `done` apart, without TCP_NODELAY,
takes 40 ms for each eval there. In the others the client acknowledges at once, so that any server
shows what evaluating costs. Before the table as many evals are made as one of its rows has. The
memory is that of the process which the command starts, with its last connections still open."""

import contextlib
import shlex
import subprocess
import sys
import tempfile
import typing

import workspace
from heavy import KINDS
from sockets import Server

PROGRAM = f"{workspace.TOP}/crates/nrepl_server/out/nrepl_server"
BUILT = f"{shlex.quote(PROGRAM)} serve --port 0 --connections 1000 --crews 32"
MANY, LATE, FOUR, SIXTEEN = 100, 200, 4, 16
ADD, ALTER = ("nil", "(+ 1 2)", "3"), ("(def r (ref 0))", "(dosync (alter r inc))", "counted")
AGENT = "(def a (agent 0))"
SEND = (AGENT, "(do (send a inc) 7)", "7")
AWAIT = (AGENT, "(do (send a inc) (await a) 7)", "7")
TEXT = "(def c (ref 0))"
# What makes the ref that connections share, and its name.
OURS, REFERENCE = ("nil", "shared/c"), (TEXT, "c")
OPTIONS = ("--command", "--reference", "--idle")
HEAD = """
| Evals | A second | Median, ms | 99 in 100, ms | Slowest, ms | Out of order |
|---|---|---|---|---|---|"""


class Row(typing.NamedTuple):
    """Evals on some connections, and how many of each connection's are unanswered at once."""

    name: str
    evals: int
    work: tuple = ADD
    connections: int = 1
    window: int = 1
    acknowledges: int = 1


def main(words):
    servers, evals = [], 10_000
    measures = measure
    if words[:1] == ["--heavy"]:
        measures, words = measure_beside_heavy, words[1:]
    while len(words) > 1 and words[0] in ("--evals", *OPTIONS):
        if words[0] == "--evals":
            evals = max(int(words[1]) // SIXTEEN, LATE) * SIXTEEN
        else:
            servers.append((words[1], words[0]))
        words = words[2:]
    if words:
        print(__doc__, file=sys.stderr)
        return 2
    with tempfile.TemporaryDirectory(prefix="load-") as room:
        program, source = f"{room}/load", f"{workspace.TOP}/tools/load.c"
        subprocess.run(["gcc", "-O2", "-pthread", "-o", program, source], check=True)
        try:
            with open(f"{room}/shared.clj", "w", encoding="utf-8") as file:
                file.write(TEXT)
            built = f"{BUILT} --shared {shlex.quote(file.name)}"
            for command, kind in servers or [(built, None)]:
                measures(program, command, rows_of(kind, evals))
        except (OSError, EOFError, ValueError) as error:
            print(f"load: {error}", file=sys.stderr)
            return 1
    return 0


def rows_of(kind, evals):
    """The rows of a server that an option names, or of the one that is built here."""
    if kind == "--idle":
        return [it for it in rows(evals) if it.work == ADD]
    shared = {"--reference": sharing(evals, *REFERENCE), None: sharing(evals, *OURS)}
    return [*rows(evals), *shared.get(kind, ())]


def rows(evals):
    """The row that is made before the table, and those of the table."""
    return (
        Row("", evals - LATE),
        Row("`(+ 1 2)`, one after another", evals),
        Row("the same, acknowledged late", LATE, acknowledges=0),
        Row(f"`(+ 1 2)`, {MANY} unanswered at once", evals, window=MANY),
        Row(f"`(+ 1 2)`, one after another on {SIXTEEN} connections", evals, connections=SIXTEEN),
        Row("`(dosync (alter r inc))`, one after another", evals, ALTER),
        Row("`(do (send a inc) 7)`, one after another", evals, SEND),
        Row("`(do (send a inc) (await a) 7)`, one after another", evals, AWAIT),
    )


def sharing(evals, setup, ref):
    """Those with a shared ref, of which no update may be lost."""
    name = f"`(dosync (alter {ref} inc))`, one after another on {FOUR} connections"
    work = (setup, f"(dosync (alter {ref} inc))", "rising")
    return (Row(name, evals, work, FOUR), Row("", 1, ("nil", f"@{ref}", str(evals))))


def measure(program, command, its_rows):
    """Prints the table of a server, and its memory."""
    with Server(shlex.split(command)) as server:
        begin = memory = megabytes(server)
        print(f"\n{command}\n{HEAD}", flush=True)
        for row in its_rows:
            seconds, overtaken, times, memory = run(program, server, row)
            if row.name:
                told = [times[len(times) // 2], times[len(times) * 99 // 100], times[-1]]
                told = " | ".join(f"{it / 1000:.3f}" for it in told)
                speed = f"{len(times) / seconds:,.0f}"
                print(f"| {row.name} | {speed} | {told} | {overtaken} |", flush=True)
        made = sum(it.evals for it in its_rows)
        print(f"\nResident memory: {begin} MB before, {memory} MB after {made:,} evals.")


def measure_beside_heavy(program, command, its_rows):
    """Prints how evals fare on all connections but one, alone and beside one of each kind."""
    row = Row("", its_rows[0].evals, connections=SIXTEEN - 1)
    row = row._replace(evals=row.evals // row.connections * row.connections)
    print(f"\n{command}\n\n| Beside | A second | Median, ms | 99 in 100, ms | Slowest, ms |")
    print("|---|---|---|---|---|")
    with Server(shlex.split(command)) as server:
        run(program, server, row)
        for kind in ("nothing", *KINDS, "all of these by turns", "nothing"):
            with contextlib.ExitStack() as stack:
                if kind != "nothing":
                    words = [kind] if kind in KINDS else []
                    stack.enter_context(heavy(server, words))
                seconds, _, times, _ = run(program, server, row)
            told = [times[len(times) // 2], times[len(times) * 99 // 100], times[-1]]
            told = " | ".join(f"{it / 1000:.3f}" for it in told)
            print(f"| {kind} | {len(times) / seconds:,.0f} | {told} |", flush=True)


@contextlib.contextmanager
def heavy(server, words):
    """A client that asks for evals that take long, from when it is ready."""
    command = [sys.executable, f"{workspace.TOP}/tools/heavy.py", str(server.address[1]), *words]
    with subprocess.Popen(command, stdout=subprocess.PIPE, text=True) as client:
        try:
            if client.stdout.readline() != "ready\n":
                raise ValueError("the client with long evals does not come to them")
            yield
        finally:
            client.kill()


def run(program, server, row):
    """The seconds that a row took, how many evals were answered out of order, the microseconds of
    each in ascending order, and the server's memory then."""
    each = row.evals // row.connections
    numbers = server.address[1], row.connections, each, row.window, row.acknowledges
    words = [program, *map(str, numbers), *row.work]
    pipes = {"stdin": subprocess.PIPE, "stdout": subprocess.PIPE, "text": True}
    with subprocess.Popen(words, **pipes) as load:
        lines = [load.stdout.readline() for _ in range(1 + each * row.connections)]
        memory = megabytes(server)
    if load.returncode:
        raise ValueError(f"not answered as it has to be: {row.name or row.work[1]}")
    seconds, overtaken = lines[0].split()
    return float(seconds), int(overtaken), sorted(map(float, lines[1:])), memory


def megabytes(server):
    """The memory of the server's process that is resident."""
    with open(f"/proc/{server.process.pid}/status", encoding="utf-8") as file:
        line = next(it for it in file if it.startswith("VmRSS:"))
    return round(int(line.split()[1]) / 1000, 1)


if __name__ == "__main__":
    sys.exit(main(sys.argv[1:]))

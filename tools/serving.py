"""The built program in a test: as `nrepl_server serve`, or with a command line that it refuses."""

import contextlib
import re
import subprocess

from peers import expect
from sockets import SECONDS, Server

ROW = re.compile(r"tenant (\d+) steps (\d+) made (\d+)")


@contextlib.contextmanager
def serving(program, tenants, *options):
    """The address of the program, which serves so many connections. Behind the last it has to end
    by itself, with a row for each in which all steps are made."""
    words = [program, "serve", "--port", "0", "--connections", str(tenants), *options]
    with Server(words, stderr=subprocess.PIPE) as server:
        yield server.address
        with server.limited(SECONDS):
            lines = server.process.stdout.read().splitlines()
            said = server.process.stderr.read()
            status = server.process.wait()
    expect([status, said], [0, ""])
    rows = [ROW.fullmatch(it) or [it] * 4 for it in lines]
    expect([it[1] for it in rows], [str(it) for it in range(tenants)])
    expect([it[2] for it in rows], [it[3] for it in rows])


def refused(program, words):
    """The status and the standard error of the program with words for which it does not serve."""
    pipes = {"stdin": subprocess.DEVNULL, "capture_output": True, "text": True}
    ran = subprocess.run([program, *words.split()], timeout=SECONDS, **pipes)
    expect(ran.stdout, "")
    return [ran.returncode, ran.stderr]

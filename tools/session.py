#!/usr/bin/env python3
"""A session with the server, as an editor has one: each line is sent to it as a form, and what
comes back is printed as a REPL prints it.

    python3 tools/session.py            a session of the built program. Where there is none it shows
                                        README's session, or the forms on its standard input, by a
                                        program whose proofs are not checked
    python3 tools/session.py --proved   proves and builds the program first
    python3 tools/session.py --connect PORT
                                        a session over a socket with a server that listens on this
                                        machine; HOST:PORT for another

Without `--connect` the server is `nrepl_server pipe`, which is started here."""

import io
import os
import re
import subprocess
import sys

import build
import workspace
from bencode import decoded, encoded
from session_ids import session_id
from sockets import Connection, address_of

NOT_CHECKED = """\
The proofs of this program were not checked here: it was compiled without them.
`python3 tools/session.py --proved` checks them, which takes half an hour to an
hour and a half on four processors."""
# Stands before a prompt with its form, which a terminal shows already.
PROMPTED = "\0"
EXAMPLE = re.compile(r"^    [a-z.]+=> (.*)$", re.MULTILINE)


def main(words):
    if len(words) == 2 and words[0] == "--connect" and address_of(words[1]):
        return connect(address_of(words[1]))
    if words not in ([], ["--proved"]):
        print(__doc__, file=sys.stderr)
        return 2
    server = next(it for it in workspace.crates() if it.name == "nrepl_server")
    if words and build.main([server.name]):
        return 1
    if build.is_kept(server):
        return talk([build.program_of(server), "pipe"])
    return show(server)


def talk(command):
    """A session of this program."""
    with subprocess.Popen(command, stdin=subprocess.PIPE, stdout=subprocess.PIPE) as server:

        def write(request):
            server.stdin.write(request)
            server.stdin.flush()

        converse(write, server.stdout.read)
    return 0


def connect(address):
    """A session over a socket. It waits for a reply as long as that takes."""
    try:
        with Connection(address, seconds=None) as connection:
            converse(connection.send, connection.read)
    except (OSError, EOFError, ValueError, KeyError) as error:
        print(f"session: {address[0]}:{address[1]}: {reason(error)}", file=sys.stderr)
        return 1
    return 0


def reason(error):
    """Why a session over a socket ended, in a few words."""
    if isinstance(error, ConnectionRefusedError):
        return "nobody listens"
    if isinstance(error, (EOFError, ConnectionError)):
        return "the server ended"
    if isinstance(error, OSError):
        return error.strerror or str(error)
    return "what listens there is no nREPL server"


def converse(write, read):
    """A session: forms from the terminal, at a prompt, or lines of the input."""
    is_terminal = sys.stdin.isatty()
    for line in asked(typed if is_terminal else given, write, read):
        if not is_terminal or not line.startswith(PROMPTED):
            print(line.removeprefix(PROMPTED), flush=True)


def typed(namespace):
    """The next form that is typed at a prompt, or nothing at the end."""
    form = " "
    while form.isspace():
        print(f"{namespace}=> ", end="", flush=True)
        form = sys.stdin.readline()
    return form.strip()


def given(_):
    """The next line of the input that is not empty, or nothing at the end."""
    return next((line.strip() for line in sys.stdin if line.strip()), "")


def asked(next_form, write, read):
    """What a session prints that is asked to evaluate these forms, line by line. It takes the next
    form when it has answered the one before."""
    write(encoded({"id": "0", "op": "clone"}))
    session = next(replies(read))["new-session"]
    namespace, number = "user", 0
    while form := next_form(namespace):
        number += 1
        yield f"{PROMPTED}{namespace}=> {form}"
        write(request(number, form, session))
        for reply in replies(read):
            namespace = reply.get("ns", namespace)
            for key in ("out", "err", "value"):
                if key in reply:
                    yield reply[key].removesuffix("\n")


def request(number, form, session):
    return encoded({"code": form, "id": str(number), "op": "eval", "session": session})


def replies(read):
    """The replies to a request: the last of them says that it is done."""
    while True:
        reply = decoded(read)
        if reply is None:
            raise EOFError("the server ended")
        yield reply
        if "done" in reply.get("status", []):
            return


def show(server):
    """Runs README's forms, or those of the input, through a program compiled without its proofs,
    and says so. Such a program takes its whole input before it begins."""
    forms = [] if sys.stdin.isatty() else [line.strip() for line in sys.stdin if line.strip()]
    forms = forms or EXAMPLE.findall(workspace.content(f"{workspace.TOP}/README.md").decode())
    requests = [
        request(number, form, session_id(0, 0)) for number, form in enumerate(forms, start=1)
    ]
    stream = encoded({"id": "0", "op": "clone"}) + b"".join(requests)
    print(
        "No program is built yet: compiling one, without its proofs.", file=sys.stderr, flush=True
    )
    command = [*workspace.RT, "try", "--", "pipe"]
    ran = subprocess.run(command, cwd=server.folder, input=stream, capture_output=True)
    if not ran.stdout:
        print(ran.stderr.decode(errors="replace"), file=sys.stderr)
        return 1
    left = iter(forms)
    for line in asked(lambda _: next(left, ""), lambda _: None, io.BytesIO(ran.stdout).read):
        print(line.removeprefix(PROMPTED))
    print(NOT_CHECKED)
    return 0


if __name__ == "__main__":
    sys.exit(main(sys.argv[1:]))

"""That the session in README.md is what the program answers, and that a session goes over a socket:
started by .ci/run before the gate. The gate runs the program on crates/nrepl_server/stdin, and what
it writes has to be crates/nrepl_server/stdout."""

import contextlib
import io
import re
import socket
import threading
import unittest
from unittest import mock

import bencode
import session
import sockets
import workspace

PROMPT = re.compile(r"^    [a-z.]+=> (.*)$", re.MULTILINE)


class Example(unittest.TestCase):
    def test_readme_shows_what_the_program_answers(self):
        readme = workspace.content(f"{workspace.TOP}/README.md").decode()
        forms = PROMPT.findall(readme)
        self.assertGreater(len(forms), 5)
        program = f"{workspace.TOP}/crates/nrepl_server"
        sent = io.BytesIO()
        answers = io.BytesIO(workspace.content(f"{program}/stdout"))
        left = iter(forms)
        lines = session.asked(lambda namespace: next(left, ""), sent.write, answers.read)
        lines = [line.removeprefix(session.PROMPTED) for line in lines]
        self.assertEqual(sent.getvalue(), workspace.content(f"{program}/stdin"))
        self.assertEqual(answers.read(), b"")
        self.assertIn("".join(f"    {line}\n" for line in lines), readme)


def play(listener, count):
    """A server that takes one connection, answers so many requests, each with 3, and goes."""
    peer, _ = listener.accept()
    with peer, peer.makefile("rb") as file:
        while count and (request := bencode.decoded(file.read)):
            whose = {key: request[key] for key in ("id", "session") if key in request}
            made = {"new-session": "s"} if request["op"] == "clone" else {}
            told = [{"ns": "app", "value": "3"}] if request["op"] == "eval" else []
            for it in [*told, made | {"status": ["done"]}]:
                peer.sendall(bencode.encoded(whose | it))
            count -= 1


def spoken(port, text):
    """The status of a session with what listens at this port, what it prints, and what it says on
    standard error."""
    with (
        mock.patch("sys.stdin", io.StringIO(text)),
        contextlib.redirect_stdout(io.StringIO()) as printed,
        contextlib.redirect_stderr(io.StringIO()) as said,
    ):
        status = session.main(["--connect", str(port)])
    return status, printed.getvalue(), said.getvalue().replace(str(port), "PORT")


class Socket(unittest.TestCase):
    def played(self, count, text):
        """A session with a server that answers so many requests."""
        with socket.create_server(("127.0.0.1", 0)) as listener:
            server = threading.Thread(target=play, args=(listener, count), daemon=True)
            server.start()
            outcome = spoken(listener.getsockname()[1], text)
            server.join()
        return outcome

    def test_forms_are_answered(self):
        shown = "user=> (+ 1 2)\n3\napp=> x\n3\n"
        self.assertEqual(self.played(9, "(+ 1 2)\n\n  x\n"), (0, shown, ""))

    def test_a_server_that_ends_is_told(self):
        shown = "user=> 1\n3\napp=> 2\n"
        said = "session: 127.0.0.1:PORT: the server ended\n"
        self.assertEqual(self.played(2, "1\n2\n3\n"), (1, shown, said))

    def test_that_nobody_listens_is_told(self):
        with socket.create_server(("127.0.0.1", 0)) as listener:
            port = listener.getsockname()[1]
        said = "session: 127.0.0.1:PORT: nobody listens\n"
        self.assertEqual(spoken(port, "1\n"), (1, "", said))

    def test_a_place_is_a_port_or_a_host_and_a_port(self):
        self.assertEqual(sockets.address_of("7888"), ("127.0.0.1", 7888))
        self.assertEqual(sockets.address_of("one.example:7888"), ("one.example", 7888))
        for it in ("", "x", ":7888", "1:2:3", "65536", "-1", "one.example:"):
            self.assertIsNone(sockets.address_of(it))


if __name__ == "__main__":
    unittest.main()

"""Sockets to nREPL servers: a client's end of a connection, and servers that are started here."""

import contextlib
import re
import shlex
import socket
import subprocess
import sys
import threading

from bencode import decoded, encoded

SECONDS = 20
SECONDS_TO_LISTEN = 120
PLACE = re.compile(r"(?:([^\s:/]+):)?(\d{1,5})")
LISTENING = re.compile(r"(?:port |127\.0\.0\.1:)(\d+)")


class Connection:
    """A client's end of a connection. What it sends goes at once, and it waits for what comes."""

    def __init__(self, address, seconds=SECONDS):
        self.socket = socket.create_connection(address, SECONDS)
        self.socket.settimeout(seconds)
        self.socket.setsockopt(socket.IPPROTO_TCP, socket.TCP_NODELAY, 1)
        self.file = self.socket.makefile("rb")
        self.send, self.read = self.socket.sendall, self.file.read

    def __enter__(self):
        return self

    def __exit__(self, *_):
        self.file.close()
        self.socket.close()

    def end(self):
        """Says that no more is sent. What is still to come can be read."""
        self.socket.shutdown(socket.SHUT_WR)

    def asked(self, request):
        self.send(encoded(request))
        return self.replies(request)

    def replies(self, request):
        """The replies to a request, up to the one that says that it is done."""
        whose = {key: request[key] for key in ("id", "session") if key in request}
        found = []
        while not found or "done" not in found[-1].get("status", []):
            found.append(self.reply())
            if {key: found[-1].get(key) for key in whose} != whose:
                raise ValueError(f"a reply to another request than {request}: {found[-1]}")
        return found

    def reply(self):
        """The next reply, which has to be whole and in its one spelling."""
        seen = []

        def read(count):
            seen.append(self.read(count))
            return seen[-1]

        reply = decoded(read)
        if reply is None:
            raise EOFError("the server ended the connection")
        if encoded(reply) != b"".join(seen):
            raise ValueError(f"no whole reply: {b''.join(seen)}")
        return reply


class Server:
    """A program that says on its standard output at which port of this machine it listens. It is
    ended where it still runs in the end."""

    def __init__(self, command, **pipes):
        pipes |= {"stdin": subprocess.DEVNULL, "stdout": subprocess.PIPE, "text": True}
        self.process = subprocess.Popen(command, **pipes)
        with self.limited(SECONDS_TO_LISTEN):
            found = next(filter(None, map(LISTENING.search, self.process.stdout)), None)
        if not found:
            self.__exit__()
            raise EOFError(f"no server: {shlex.join(command)}")
        self.line, self.address = found.string, ("127.0.0.1", int(found[1]))

    def __enter__(self):
        return self

    def __exit__(self, *_):
        self.process.terminate()
        with self.limited(SECONDS):
            self.process.wait()
        for it in filter(None, (self.process.stdout, self.process.stderr)):
            it.close()

    @contextlib.contextmanager
    def limited(self, seconds):
        """The program is killed where it takes longer."""
        limit = threading.Timer(seconds, self.process.kill)
        limit.start()
        try:
            yield
        finally:
            limit.cancel()


def address_of(place):
    """The address for a port of this machine, or for HOST:PORT; nothing for any other text."""
    found = PLACE.fullmatch(place)
    if found and int(found[2]) < 65536:
        return found[1] or "127.0.0.1", int(found[2])
    return None


@contextlib.contextmanager
def served(place):
    """The address of a server that runs there, or that this command starts. Where it starts none
    the script ends with a line that says so."""
    if address_of(place):
        yield address_of(place)
        return
    try:
        server = Server(shlex.split(place))
    except (OSError, EOFError, ValueError, IndexError) as error:
        sys.exit(str(error))
    with server:
        yield server.address

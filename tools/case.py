"""A case of cases/, and how bytes are written in its lines."""

import re

import bencode

SECONDS = 20


SHARED = "shared.clj"


class Case:
    """What stands in the lines of a case: where, its first words, and what has to come of it."""

    is_of_turns = False

    def __init__(self, path, line, lines):
        self.path, self.line = path, line
        notes = [it[1:].strip() for it in lines if it.startswith(";")]
        self.lines = [it for it in lines if not it.startswith(";")]
        self.title = notes[0] if notes else self.lines[0] if self.lines else ""
        self.read()


def sharing(folder, text):
    """The words for a program whose tenants share this text, if there is one. It is put into the
    folder."""
    if not text:
        return []
    return put_shared(folder, text)


def put_shared(folder, text):
    with open(f"{folder}/{SHARED}", "wb") as file:
        file.write(text)
    return ["--shared", SHARED]


def messages_of(content):
    """The messages that these bytes spell, a line each; where they are none, all as they are."""
    try:
        found = [bencode.encoded(it) for it in bencode.messages(content)]
    except (ValueError, TypeError, EOFError, UnicodeDecodeError):
        found = []
    return [escaped(it) for it in (found if b"".join(found) == content else [content])]


def escaped(content):
    """Bytes as a line: UTF-8 as it is, but for a line end, a backslash and what is no text."""
    text = content.decode(errors="surrogateescape").replace("\\", "\\\\").replace("\n", "\\n")
    spelled = lambda it: "".join(f"\\x{byte:02x}" for byte in it.encode(errors="surrogateescape"))
    return "".join(it if it.isprintable() else spelled(it) for it in text)


def unescaped(text):
    def byte(found):
        return {"n": b"\n", "\\": b"\\"}.get(found, bytes.fromhex(found[1:]))

    parts = re.split(r"\\(n|\\|x[0-9a-f]{2})", text)
    return b"".join(byte(it) if place % 2 else it.encode() for place, it in enumerate(parts))

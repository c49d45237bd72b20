"""What peers of a server send, and what they have to be answered."""

import socket
import struct

from bencode import encoded

REQUEST = b"d4:code7:(+ 1 2)2:id1:72:op4:evale"
REPLIES = b"d2:id1:72:ns4:user5:value1:3ed2:id1:76:statusl4:doneee"
MALFORMED = b"d6:statusl5:error9:malformed4:doneee"
# What is no message, each short enough for one piece of what a server reads.
GARBAGE = (
    b"x",
    b"GET / HTTP/1.1\r\nHost: one.example\r\n\r\n",
    b"\x16\x03\x01\x02\x00\x01\x00\x01\xfc\x03\x03",
    b"\x00" * 500,
    b"i7e",
    b"le",
    b"d2:idi-0e2:op4:evale",
    b"d2:id1:12:id1:2e",
    b"d2:op4:eval4:codee",
    b"d1:a" + b"l" * 64,
    b"d4:code1048577:",
    b"d4:code99999999999999999999:",
)


def expect(given, wanted):
    if given != wanted:
        raise ValueError(f"{given!r:.200} instead of {wanted!r:.200}")


def answers(peer, sent=REQUEST, wanted=REPLIES):
    """What is sent is answered by these bytes."""
    peer.send(sent)
    expect(peer.read(len(wanted)), wanted)


def evaluates(peer, code, value, session=None):
    """A form has this value, and no other reply but `done`."""
    request = {"code": code, "id": "7", "op": "eval"} | ({"session": session} if session else {})
    replies = peer.asked(request)
    expect([values(replies), replies[-1]["status"]], [[str(value)], ["done"]])


def values(replies):
    return [it["value"] for it in replies if "value" in it]


def made_session(peer):
    """The id of a session that is made."""
    return peer.asked({"id": "0", "op": "clone"})[0]["new-session"]


def reset(peer):
    """Has the connection end without a word when it is closed, as where its peer is gone."""
    peer.socket.setsockopt(socket.SOL_SOCKET, socket.SO_LINGER, struct.pack("ii", 1, 0))

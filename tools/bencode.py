"""Bencode, as the clients among these scripts write and read it: an integer is `i5e`, a string its
length, a colon and its bytes, a list `l..e`, a dictionary `d..e` with its keys in order."""


def encoded(value):
    """The spelling of an integer, a text, bytes, a list or a dictionary."""
    if isinstance(value, dict):
        return b"d%be" % b"".join(encoded(key) + encoded(value[key]) for key in sorted(value))
    if isinstance(value, list):
        return b"l%be" % b"".join(map(encoded, value))
    if isinstance(value, int):
        return b"i%de" % value
    content = value.encode() if isinstance(value, str) else value
    return b"%d:%b" % (len(content), content)


def decoded(read):
    """One value of a stream, of which `read` gives so many bytes; nothing at its end, and at the
    end of a list or a dictionary."""
    first = read(1)
    if first in (b"l", b"d"):
        items = list(iter(lambda: decoded(read), None))
        return items if first == b"l" else dict(zip(items[::2], items[1::2]))
    if first in (b"e", b""):
        return None
    if first == b"i":
        return int(up_to(read, b"e"))
    return read(int(first + up_to(read, b":"))).decode()


def up_to(read, end):
    """The bytes before this one."""
    found = b""
    while (byte := read(1)) != end:
        if not byte:
            raise EOFError("the stream ends inside a message")
        found += byte
    return found


def messages(content):
    """The dictionaries that these bytes spell, one behind another."""
    place = 0

    def read(count):
        nonlocal place
        place += count
        return content[place - count : place]

    return list(iter(lambda: decoded(read), None))

"""Reads the files of cases/, each by its ending."""

import os

from streams import Outside, Stream
from transcripts import Transcript
from turn_lists import Turns

READERS = {".repl": Transcript, ".stream": Stream, ".turns": Turns, ".jsonl": Outside}
# A page whose indented lines are transcripts
PAGE, INDENT = ".md", "    "


def reader_of(name):
    return READERS.get(os.path.splitext(name)[1])


def read(path):
    """The cases of a file. An empty line stands between two; outside each line is one."""
    made = Transcript if path.endswith(PAGE) else reader_of(path)
    with open(path, encoding="utf-8") as file:
        lines = file.read().split("\n")
    if path.endswith(PAGE):
        lines = [it[len(INDENT) :] if it.startswith(INDENT) else "" for it in lines]
    if made is Outside:
        return [made(path, number, [it]) for number, it in enumerate(lines, start=1) if it]
    found, begin = [], 0
    for number, line in enumerate([*lines, ""]):
        if not line:
            if any(not it.startswith(";") for it in lines[begin:number]):
                found.append(made(path, begin + 1, lines[begin:number]))
            begin = number + 1
    return found

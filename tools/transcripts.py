"""Transcripts: what a person types, and what is printed for it (cases/README.md)."""

import json
import re
import subprocess

import bencode
from case import SECONDS, Case, escaped, sharing

PROMPT = re.compile(r"(?:\((bare|ns (\S+))\) )?(\S+)=> (.*)")
GO_ON = "#_=> "
SHARES = "shared: "


class Transcript(Case):
    """What a person types, and what is printed for it."""

    def read(self):
        shared = [it for it in self.lines if it.startswith(SHARES)]
        self.shared = "\n".join(it[len(SHARES) :] for it in shared).encode()
        self.wanted, self.requests = [it for it in self.lines if it not in shared], []
        for line in self.wanted:
            prompt = PROMPT.fullmatch(line)
            if line.startswith(GO_ON):
                self.requests[-1][2] += "\n" + line[len(GO_ON) :]
            elif prompt:
                self.requests.append([prompt[1], prompt[2], prompt[4]])

    def given(self, program, folder):
        with Server(program, folder, sharing(folder, self.shared)) as server:
            shown, namespace = [], "user"
            session = server.asked({"id": "0", "op": "clone"})[0]["new-session"]
            for number, (how, named, code) in enumerate(self.requests, start=1):
                request = {"code": code, "id": str(number), "op": "eval"}
                request |= {} if how == "bare" else {"session": session}
                request |= {"ns": named} if named else {}
                before = "user" if how == "bare" else namespace
                first, *more = code.split("\n")
                shown.append(f"{f'({how}) ' if how else ''}{before}=> {first}")
                shown += [GO_ON + line for line in more]
                replies = server.asked(request)
                shown += printed(replies, request, named or before)
                if not how:
                    namespace = [before, *(it["ns"] for it in replies if "ns" in it)][-1]
        return shown + server.end


class Server:
    """The program, as a client has it: it sends a request when the one before is done."""

    def __init__(self, program, folder, words):
        self.pipes = {
            "stdin": subprocess.PIPE,
            "stdout": subprocess.PIPE,
            "stderr": subprocess.PIPE,
        }
        self.program, self.folder, self.words, self.end = program, folder, words, []

    def __enter__(self):
        words = ["timeout", str(SECONDS), self.program, "pipe", *self.words]
        self.process = subprocess.Popen(words, cwd=self.folder, **self.pipes)
        return self

    def __exit__(self, *_):
        _, said = self.process.communicate()
        if self.process.returncode or said:
            self.end = [f"exit {self.process.returncode}: {said.decode(errors='replace')}"]

    def asked(self, request):
        """The replies to a request, up to the one that says that it is done."""
        self.process.stdin.write(bencode.encoded(request))
        self.process.stdin.flush()
        replies = []
        while not replies or "done" not in replies[-1].get("status", []):
            replies.append(self.reply())
        return replies

    def reply(self):
        seen = []

        def read(count):
            seen.append(self.process.stdout.read(count))
            return seen[-1]

        reply = bencode.decoded(read)
        if reply is None:
            raise EOFError("the server ended before it was done")
        if bencode.encoded(reply) != b"".join(seen):
            raise ValueError(f"not in canonical spelling: {b''.join(seen)}")
        return reply


def printed(replies, request, namespace):
    """What a REPL prints for these replies. One that the protocol does not have is shown whole."""
    shown, fault = [], None
    whose = {key: request[key] for key in ("id", "session") if key in request}
    for reply in replies:
        said = {key: it for key, it in reply.items() if key not in whose}
        if {key: reply.get(key) for key in whose} != whose or "session" in said:
            shown.append(f"a reply to another: {json.dumps(reply)}")
        elif fault is not None:
            end = said.get("err", "").startswith(f"{fault}: ") and said["err"].endswith("\n")
            shown.append(said["err"][:-1] if end else f"a fault of {fault}: {json.dumps(said)}")
            fault = None
        elif said == fault_of(said):
            fault = said["ex"].removeprefix("class ")
        elif [*said] == ["out"]:
            shown.append(f"out: {escaped(said['out'].encode())}")
        elif sorted(said) == ["ns", "value"]:
            prefix = "" if said["ns"] == namespace else f"[{said['ns']}] "
            shown.append(prefix + said["value"])
        elif [*said] == ["status"]:
            shown += [f"status: {' '.join(said['status'])}"] * (said["status"] != ["done"])
        else:
            shown.append(json.dumps(said))
    return shown


def fault_of(said):
    name = said.get("ex", "")
    is_class = name.startswith("class ")
    return {"ex": name, "root-ex": name, "status": ["eval-error"]} if is_class else None

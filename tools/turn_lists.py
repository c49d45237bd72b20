"""Lists of turns, as people write them and as `run_turns` reads them (cases/README.md)."""

import json
import re
import subprocess

import bencode
from case import SECONDS, Case, messages_of, unescaped
from session_ids import session_id

TIMES = re.compile(r"(.*) x(\d+)")


class Turns(Case):
    """Turns of tenants, with what is replied to each tenant, and the turns that are refused."""

    is_of_turns = True

    def read(self):
        self.turns, self.text, self.output, self.refused = 0, "", {}, []
        for line in self.lines:
            tenant = re.match(r"tenant (\d+): ", line)
            self.number = int(tenant[1]) if tenant else 0
            line = line[len(tenant[0]) :] if tenant else line
            if line.startswith("<"):
                self.output.setdefault(self.number, b"")
                self.output[self.number] += self.reply(line[1:].strip())
            else:
                self.add(*line.partition(" ! ")[::2])
        self.wanted = outcome(self.output, self.refused)

    def add(self, turn, refusal):
        times = TIMES.fullmatch(turn)
        turn, count = (times[1], int(times[2])) if times else (turn, 1)
        word, _, rest = turn.partition(" ")
        if word == "shared":
            self.text += f"shared {rest.encode().hex()}\n"
            return
        if word == "error":
            self.refused.append(turn)
            return
        if word in ("seed", "retries", "steps", "version"):
            self.text += f"{turn}\n"
            return
        line = f"{word} {rest}".strip()
        if word in ("go", "drain"):
            line = f"{word} {self.number} {rest}".strip()
        elif word not in ("open", "bye"):
            line = f"bytes {self.number} {self.piece(word, rest).hex()}"
        self.text += f"{line}\n" * count
        self.refused += [f"refused {self.turns + it} {refusal}" for it in range(count) if refusal]
        self.turns += count

    def piece(self, word, rest):
        """The bytes of a message: it is spelled (`bytes`), given as JSON, or in a short form."""
        if word == "bytes":
            return unescaped(rest)
        if word == "hear":
            return bencode.encoded(json.loads(rest))
        actor, number, *code = rest.split(" ", 2)
        request = {"op": word, "id": number} | self.session(actor)
        return bencode.encoded(request | ({"code": code[0]} if word == "eval" else {}))

    def session(self, actor):
        """The key of a session of this tenant, under a seed of zeros."""
        return {} if actor == "bare" else {"session": session_id(self.number, int(actor))}

    def reply(self, line):
        if line.startswith("{"):
            return bencode.encoded(json.loads(line))
        word, _, rest = line.partition(" ")
        if word == "bytes":
            return unescaped(rest)
        actor, number, *text = rest.split(" ", 2)
        whose = {"id": number}
        if word == "cloned":
            new = session_id(self.number, int(actor))
            return bencode.encoded(whose | {"new-session": new, "status": ["done"]})
        whose |= self.session(actor)
        return b"".join(bencode.encoded(whose | it) for it in replies_of(word, "".join(text)))

    def given(self, program, folder):
        ran = subprocess.run(
            ["timeout", str(SECONDS), program],
            input=self.text,
            capture_output=True,
            text=True,
            cwd=folder,
        )
        if ran.returncode:
            return [f"exit {ran.returncode}: {ran.stderr}"]
        lines = ran.stdout.splitlines()
        output = {
            int(it.split()[1]): bytes.fromhex(it.split()[2])
            for it in lines
            if it.startswith("out ")
        }
        return outcome(output, [it for it in lines if not it.startswith("out ")])


def outcome(output, refused):
    replies = [f"tenant {it}: {one}" for it in sorted(output) for one in messages_of(output[it])]
    return replies + refused


def replies_of(word, text):
    """What a request is told, in the short forms of a list of turns."""
    statuses = {"done": [], "interrupted": ["interrupted"], "closed": ["session-closed"]}
    if word in statuses:
        return [{"status": ["done", *statuses[word]]}]
    if word == "value":
        return [{"ns": "user", "value": text}]
    if word == "out":
        return [{"out": unescaped(text).decode()}]
    if word == "fault":
        name = f"class {text.partition(': ')[0]}"
        return [{"ex": name, "root-ex": name, "status": ["eval-error"]}, {"err": f"{text}\n"}]
    raise ValueError(f"no such reply: {word}")

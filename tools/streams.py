"""Streams of bytes, and the cases that others made (cases/README.md)."""

import base64
import json
import os
import subprocess

from case import SECONDS, Case, messages_of, put_shared, sharing, unescaped


class Stream(Case):
    """The bytes of an input, and what is written for it."""

    def read(self):
        self.input, self.words, output, self.wanted = b"", ["pipe"], b"", []
        self.shared = b""
        end = {"exit": "0", "err": ""}
        for line in self.lines:
            word, _, text = line.partition(": ")
            word, _, times = word.rstrip(":").partition(" ")
            content = unescaped(text) * int(times.rstrip("x") or 1)
            if word == "in":
                self.input += content
            elif word == "out":
                output += content
            elif word == "shared":
                self.shared += content + b"\n"
            elif word == "args":
                self.words = text.split()
            elif word in end:
                end[word] = text
            else:
                raise ValueError(f"{self.path}:{self.line}: no such line: {line}")
        self.wanted = told(output, int(end["exit"]), end["err"])

    def given(self, program, folder):
        words = self.words + sharing(folder, self.shared)
        return served(program, folder, words, self.input)


def served(program, folder, words, content):
    """What the program makes of these bytes. From a file, so that reads give whole pieces."""
    with open(f"{folder}/input", "wb") as file:
        file.write(content)
    with open(f"{folder}/input", "rb") as file:
        ran = subprocess.run(
            ["timeout", str(SECONDS), program, *words], stdin=file, capture_output=True, cwd=folder
        )
    return told(ran.stdout, ran.returncode, ran.stderr.decode(errors="replace").removesuffix("\n"))


def told(output, status, line):
    return [f"out: {it}" for it in messages_of(output)] + [f"exit: {status}", f"err: {line}"]


class Outside(Case):
    """A case that others made, in a line of JSON: arguments and input, or a list of turns."""

    def read(self):
        case = json.loads(self.lines[0])
        self.title, self.case = f"{os.path.basename(self.path)}, line {self.line}", case
        self.is_of_turns = "turns" in case
        if self.is_of_turns:
            self.wanted = case["out"].splitlines()
        else:
            line = case["err"].removesuffix("\n")
            self.wanted = told(base64.b64decode(case["out"]), case["exit"], line)

    def given(self, program, folder):
        if not self.is_of_turns:
            words = ["pipe", *self.case["args"]]
            if "shared" in self.case:
                put_shared(folder, self.case["shared"].encode())
            return served(program, folder, words, base64.b64decode(self.case["in"]))
        ran = subprocess.run(
            ["timeout", str(SECONDS), program],
            input=self.case["turns"],
            capture_output=True,
            text=True,
            cwd=folder,
        )
        return ran.stdout.splitlines() if not ran.returncode else [f"exit {ran.returncode}"]

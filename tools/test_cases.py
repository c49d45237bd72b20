"""That cases are read as cases/README.md says, and that a difference is found: started by .ci/run
before the gate."""

import contextlib
import io
import os
import re
import tempfile
import unittest

import bencode
import case_files
import cases
from case import escaped, unescaped
from session_ids import session_id

# A program that answers each request with the value 3, as the protocol has it.
THREE = """#!/usr/bin/env python3
import sys
sys.path.insert(0, {tools!r})
import bencode
read = sys.stdin.buffer.read
while (request := bencode.decoded(read)) is not None:
    whose = {{key: request[key] for key in ("id", "session") if key in request}}
    made = {{"new-session": "s"}} if request["op"] == "clone" else {{}}
    told = [{{"ns": "user", "value": "3"}}] if request["op"] == "eval" else []
    for it in [*told, made | {{"status": ["done"]}}]:
        sys.stdout.buffer.write(bencode.encoded(whose | it))
    sys.stdout.flush()
"""


class Cases(unittest.TestCase):
    def setUp(self):
        room = tempfile.TemporaryDirectory()
        self.addCleanup(room.cleanup)
        self.room = room.name

    def write(self, name, text):
        path = f"{self.room}/{name}"
        with open(path, "w", encoding="utf-8") as file:
            file.write(text)
        return path

    def run_on_three(self, name, text):
        program = self.write("three", THREE.format(tools=os.path.dirname(cases.__file__)))
        os.chmod(program, 0o755)
        printed = io.StringIO()
        with contextlib.redirect_stdout(printed):
            counts = cases.run([self.write(name, text)], program, program)
        return counts, printed.getvalue()

    def test_transcript_passes(self):
        text = "; A sum.\nuser=> (+ 1 2)\n3\n\nuser=> 3\n3\n(bare) user=> 3\n#_=> ; as it is\n3\n"
        self.assertEqual(self.run_on_three("a.repl", text), ((2, 0), ""))

    def test_each_function_has_an_example(self):
        with open(cases.EXAMPLES, encoding="utf-8") as page:
            rules, _, examples = page.read().partition("## An example of each")
        groups = re.findall(r"^\| [a-z ]+ \| `([^`(#]+)` \|$", rules, re.MULTILINE)
        names = {name for group in groups for name in group.split()}
        for cell in re.findall(r"^\| (`\(.*?) \|", rules, re.MULTILINE):
            names |= set(re.findall(r"`\(([a-z!-]+)[ )]", cell))
        lost = [it for it in names if not re.search(rf"\({re.escape(it)}[ )]", examples)]
        self.assertEqual((lost, len(names) > 90), ([], True))

    def test_difference_is_shown(self):
        counts, printed = self.run_on_three("a.repl", "; A sum.\nuser=> (+ 1 3)\n4\n")
        self.assertEqual(counts, (0, 1))
        self.assertIn("a.repl:1: A sum.", printed)
        self.assertIn("-4\n    +3\n", printed)

    def test_lost_and_added_lines_are_differences(self):
        for wanted in ("", "3\n3\n", "[app] 3\n", "out: 3\n", "3\nstatus: done\n"):
            self.assertEqual(self.run_on_three("a.repl", f"user=> 3\n{wanted}")[0], (0, 1))

    def test_stream_is_held_to_bytes_and_end(self):
        text = "in: d4:code1:32:op4:evale\nout: d2:ns4:user5:value1:3ed6:statusl4:doneee\n"
        self.assertEqual(self.run_on_three("a.stream", text)[0], (1, 0))
        for more in ("out: de\n", "exit: 1\n", "err: nrepl: bad options\n"):
            self.assertEqual(self.run_on_three("a.stream", text + more)[0], (0, 1))

    def test_turns_are_spelled(self):
        text = (
            "steps 9\nopen 0\neval 1 7 (+ 1 2)\ngo 1 x2\ngo bare ! Idle\n"
            "tenant 3: drain x2 ! Idle\n< value 1 7 3\n< done 1 7\n"
        )
        case = case_files.read(self.write("a.turns", text))[0]
        first = session_id(0, 1)
        piece = f"d4:code7:(+ 1 2)2:id1:72:op4:eval7:session36:{first}e".encode().hex()
        self.assertEqual(
            case.text.splitlines(),
            [
                "steps 9",
                "open 0",
                f"bytes 0 {piece}",
                "go 0 1",
                "go 0 1",
                "go 0 bare",
                "drain 3",
                "drain 3",
            ],
        )
        self.assertEqual(case.refused, ["refused 4 Idle", "refused 5 Idle", "refused 6 Idle"])
        value = f"d2:id1:72:ns4:user7:session36:{first}5:value1:3e"
        self.assertEqual(case.wanted[0], f"tenant 0: {value}")

    def test_text_that_all_share_is_given(self):
        text = "shared: 1\nuser=> 3\n3\n"
        self.assertEqual(self.run_on_three("a.repl", text), ((1, 0), ""))
        case = case_files.read(self.write("a.repl", text))[0]
        self.assertEqual((case.shared, case.wanted), (b"1", ["user=> 3", "3"]))
        case = case_files.read(self.write("a.turns", "shared (é)\nopen 0\nerror No\n"))[0]
        self.assertEqual(case.text, f"shared {'(é)'.encode().hex()}\nopen 0\n")
        self.assertEqual(case.wanted, ["error No"])
        text = "shared: 1\nin: d4:code1:32:op4:evale\nout: d2:ns4:user5:value1:3ed6:statusl4:doneee\n"
        self.assertEqual(self.run_on_three("a.stream", text)[0], (1, 0))

    def test_escapes(self):
        for content in (b"a\nb\\n\xff\tc", "é\u200b".encode(), b""):
            self.assertEqual(unescaped(escaped(content)), content)

    def test_bencode(self):
        value = {"a": [1, -2, {"b": "é"}], "": []}
        self.assertEqual(bencode.encoded(value), b"d0:le1:ali1ei-2ed1:b2:\xc3\xa9eee")
        self.assertEqual(bencode.messages(bencode.encoded(value) * 2), [value, value])

    def test_ids_of_sessions(self):
        # the first words of the stream whose key and nonce are zeros
        self.assertEqual(session_id(0, 0), "76b8e0ad-a0f1-4d90-805d-6ae55386bd28")
        self.assertEqual(session_id(0, 1), "bdd219b8-a08d-4d1a-a836-efcc8b770dc7")


if __name__ == "__main__":
    unittest.main()

"""Holds docs/BELIEVE.md to what the definitions import: started by .ci/run before the gate."""

import os
import re
import unittest

import believed
import workspace

ROW = re.compile(r"^\| `(\w+)` \| ([\d,]+) \| ([\d,]+) \|", re.MULTILINE)
# What of specs/ holds nothing to believe for `pipe`, and crates of which it needs some files alone.
APART = {"Lib", "Inside", "Isolation", "Machine", "Examples"}
PARTLY = {
    "bencode_wire": {"Fault", "Spelling", "Stream", "Tree"},
    "ref_history": {"Versioned"},
    "ref_table": {"Calls", "Commit", "Numbered", "Performed", "Store"},
    "repl_core": {"Configured", "Grounds"},
    "private_cells": {"Actions", "Agents", "Atoms"},
    "machine_runs": {"Streams"},
}


class Believed(unittest.TestCase):
    def setUp(self):
        self.page = workspace.content(f"{workspace.TOP}/docs/BELIEVE.md").decode()
        self.found = believed.believed()

    def test_what_is_believed_is_whole_folders(self):
        for crate, files in self.found.items():
            there = os.listdir(f"{workspace.TOP}/crates/{crate}/specs")
            there = {it[: -len(".antt")] for it in there if it.endswith(".antt")} - APART
            self.assertEqual(set(files), PARTLY.get(crate, there), crate)

    def test_page_has_each_folder_and_its_lines(self):
        number = lambda text: int(text.replace(",", ""))
        rows = {
            name: (number(lines), number(rules)) for name, lines, rules in ROW.findall(self.page)
        }
        counted = {name: believed.counts(name, files) for name, files in self.found.items()}
        self.assertEqual(rows, counted)

    def test_page_has_the_sums(self):
        for is_server, what in ((False, "the wire and the language have"), (True, "the server")):
            counts = [
                believed.counts(crate, files)
                for crate, files in self.found.items()
                if (crate in believed.SERVER) == is_server
            ]
            lines, rules = map(sum, zip(*counts))
            text = f"{what} {lines:,} lines, of which {rules:,} are rules"
            self.assertIn(text, " ".join(self.page.split()))


if __name__ == "__main__":
    unittest.main()

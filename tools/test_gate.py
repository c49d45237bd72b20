"""What the record covers, on a small tree; the edits that a run has time for; that sums are the
kit's; and the jobs of a proof: started by .ci/run before the gate."""

import contextlib
import io
import os
import tempfile
import threading
import types
import unittest
import unittest.mock

import gate
import quick_rt
import workspace


class Tree(unittest.TestCase):
    """A small repository: `high` stands on `middle`, which stands on `low`."""

    def setUp(self):
        room = tempfile.TemporaryDirectory()
        self.addCleanup(room.cleanup)
        self.addCleanup(setattr, workspace, "TOP", workspace.TOP)
        workspace.TOP = room.name
        self.write("crates.txt", "low: itoa\nmiddle: low\nhigh: middle low # the program\nother:\n")
        self.write("HANDLES", "Handles allowed: none.\n")
        for name in ("low", "middle", "high", "other"):
            self.write(f"crates/{name}/src/lib.rt", f"// {name}\n")
            self.write(f"crates/{name}/specs/Lib.antt", f"-- {name}\n")
            self.write(f"crates/{name}/must-fail/turned.edit", "old: a\nnew: b\n")
        os.mkdir(f"{room.name}/tools")
        # what a run prints again of `rt ci`
        quiet = contextlib.redirect_stdout(io.StringIO())
        quiet.__enter__()
        self.addCleanup(quiet.__exit__, None, None, None)

    def write(self, path, text):
        path = f"{workspace.TOP}/{path}"
        os.makedirs(os.path.dirname(path), exist_ok=True)
        with open(path, "w", encoding="utf-8") as file:
            file.write(text)


class Record(Tree):
    def setUp(self):
        super().setUp()
        with gate.Run(gate.all_edits()) as run:
            for name in ("low", "middle", "high", "other"):
                run.see(f"rt: must-fail {name}/turned.edit: refused, as it must be: why\n")

    def turn_record(self, old, new):
        text = workspace.content(gate.record()).decode()
        self.assertIn(old, text)
        self.write("tools/refused_edits.txt", text.replace(old, new))

    def assert_covered(self, *names):
        left = {gate.name_of(it) for it in gate.uncovered(gate.all_edits())}
        every = {gate.name_of(it) for it in gate.all_edits()}
        self.assertEqual({it.partition("/")[0] for it in every - left}, {*names})

    def test_unchanged_tree_is_covered(self):
        self.assert_covered("low", "middle", "high", "other")

    def test_source_uncovers_its_own_crate_alone(self):
        self.write("crates/middle/src/lib.rt", "// changed\n")
        self.assert_covered("low", "high", "other")

    def test_proof_uncovers_its_own_crate_alone(self):
        self.write("crates/low/proofs/Lib.antt", "")
        self.assert_covered("middle", "high", "other")

    def test_definition_uncovers_the_crates_above(self):
        self.write("crates/middle/specs/Lib.antt", "-- changed\n")
        self.assert_covered("low", "other")

    def test_altered_edit_uncovers_itself_alone(self):
        self.write("crates/low/must-fail/more.edit", "old: a\nnew: c\n")
        self.write("crates/other/must-fail/turned.edit", "old: a\nnew: a\n")
        left = [gate.name_of(it) for it in gate.uncovered(gate.all_edits())]
        self.assertEqual(left, ["low/more.edit", "other/turned.edit"])

    def test_line_of_crates_counts(self):
        self.write("crates.txt", "low: itoa bytes\nmiddle: low\nhigh: middle low\nother:\n")
        self.assert_covered("middle", "high", "other")

    def test_wrong_fingerprint_covers_nothing(self):
        number = workspace.fingerprints()[gate.all_edits()[-1]]
        self.turn_record(number, "0" * len(number))
        left = gate.uncovered(gate.all_edits())
        self.assertEqual(left, gate.all_edits()[-1:])

    def test_another_kit_uncovers_nothing(self):
        self.addCleanup(setattr, workspace, "kit", workspace.kit)
        workspace.kit = lambda: "kit-0 logic 0"
        self.assert_covered("low", "middle", "high", "other")

    def test_kit_that_refused_is_kept(self):
        self.turn_record(f" {workspace.kit()}\n", " kit-0 logic 0\n")
        gate.note(["low/turned.edit"], workspace.fingerprints())
        kits = {name: kit for name, (_, kit) in gate.recorded().items()}
        self.assertEqual(kits.pop("low/turned.edit"), workspace.kit())
        self.assertEqual({*kits.values()}, {"kit-0 logic 0"})

    def test_line_that_does_not_count_goes(self):
        self.write("crates/low/src/lib.rt", "// changed\n")
        gate.note([], workspace.fingerprints())
        self.assertNotIn("low/turned.edit", gate.recorded())

    def test_change_in_a_run_is_not_recorded(self):
        self.write("crates/low/src/lib.rt", "// changed\n")
        with gate.Run(gate.all_edits()) as run:
            run.see("rt: must-fail low/turned.edit: refused, as it must be: why\n")
            self.write("crates/low/src/lib.rt", "// changed again\n")
        self.assert_covered("middle", "high", "other")

    def test_edit_counts_only_where_its_meaning_was_refused(self):
        told = "rt: must-fail low/turned.edit: "
        self.assertEqual(
            gate.REFUSED.match(f"{told}refused, as it must be\n")[1], "low/turned.edit"
        )
        for why in (
            "refused, as it must be (only because a proof file names what the edit took away)\n",
            "refused, as it must be (only by a limit of the prover): why\n",
            "NOT REFUSED: the crate is still proved with this edit\n",
            "BAD EDIT: it changes nothing\n",
            "NOT TRIED: run this again\n",
        ):
            self.assertIsNone(gate.REFUSED.match(told + why))

    def test_edit_that_was_not_tried_is_left(self):
        run = gate.Run(gate.all_edits())
        run.see("rt: must-fail low/turned.edit: NOT REFUSED: the crate is still proved\n")
        run.see("3 passed, 1 failed\n")
        self.assertEqual(run.counts, (3, 1))
        left = {gate.name_of(it) for it in run.left()}
        self.assertEqual(left, {f"{it}/turned.edit" for it in ("middle", "high", "other")})


class MinutesForEdits(unittest.TestCase):
    def test_no_crate_begins_when_the_time_is_used(self):
        seconds = [0]

        def must_fail_all(crate, edits, flags):
            seconds[0] += 2
            return [(True, edit) for edit in edits]

        tried = quick_rt.for_so_long(must_fail_all, 3)
        crates = [types.SimpleNamespace(name=name) for name in "abc"]
        with unittest.mock.patch("quick_rt.time.monotonic", lambda: seconds[0]):
            given = [tried(it, ["edit"], []) for it in crates]
        self.assertEqual(given, [[(True, "edit")], [(True, "edit")], []])


class Sums(Tree):
    def test_sums_and_crates_below_are_the_kits(self):
        rt = quick_rt.kit()
        crates = rt.rtlib.crates_below(workspace.TOP)
        told = {it.name: (it.stamp(), [its.name for its in it.below()]) for it in crates}
        self.assertEqual(len({sum for sum, _ in told.values()}), 4)
        below, stamp = quick_rt.kept(rt.rtlib.Crate.below), quick_rt.once(rt.rtlib.Crate.stamp)
        self.addCleanup(setattr, rt.rtlib.Crate, "below", rt.rtlib.Crate.below)
        self.addCleanup(setattr, rt.rtlib.Crate, "stamp", rt.rtlib.Crate.stamp)
        rt.rtlib.Crate.below, rt.rtlib.Crate.stamp = below, stamp
        for _ in range(2):
            for it in rt.rtlib.crates_below(workspace.TOP):
                self.assertEqual((it.stamp(), [its.name for its in it.below()]), told[it.name])


class Library:
    """A crate of so many lines, as `rt` has it."""

    def __init__(self, room, name, lines):
        self.name, self.folder = name, f"{room}/{name}"
        os.makedirs(f"{self.folder}/src/inner")
        with open(f"{self.folder}/src/inner/mod.rt", "w", encoding="utf-8") as file:
            file.write("//\n" * lines)

    def makes_rlib(self):
        return True


class Jobs(unittest.TestCase):
    def jobs(self, tests=False, **lines):
        """The jobs that libraries of so many lines get, whose proofs, or the proofs of whose tests,
        run at one time."""
        begun, together, given = threading.Barrier(len(lines)), threading.Barrier(len(lines)), {}

        def ci(crate, flags, tests):
            together.wait(timeout=60)
            given[crate.name] = flags

        proved = quick_rt.with_idle_processors(ci)
        with tempfile.TemporaryDirectory() as room:
            crates = [Library(room, name, count) for name, count in lines.items()]
            asked = [(it, ["--jobs", "1"], tests) for it in crates]
            runs = [threading.Thread(target=proved, args=words) for words in asked]
            # each waits until all have begun, however slow the machine is
            with unittest.mock.patch("quick_rt.time.sleep", lambda _: begun.wait(timeout=60)):
                for run in runs:
                    run.start()
                for run in runs:
                    run.join()
        return {name: int(flags[1]) for name, flags in given.items()}

    def setUp(self):
        self.addCleanup(setattr, quick_rt, "PROCESSORS", quick_rt.PROCESSORS)
        quick_rt.PROCESSORS = 4

    def test_a_proof_alone_gets_all_processors(self):
        self.assertEqual(self.jobs(small=10), {"small": 4})

    def test_two_proofs_get_what_is_idle(self):
        self.assertEqual(self.jobs(one=10, other=10), {"one": 3, "other": 3})

    def test_much_code_gets_three_jobs_beside_others(self):
        much = quick_rt.MUCH_CODE
        found = self.jobs(one=10, two=much - 1, three=10, much=much)
        self.assertEqual(found, {"one": 1, "two": 1, "three": 1, "much": 3})

    def test_tests_get_what_is_idle(self):
        much = quick_rt.MUCH_CODE
        self.assertEqual(self.jobs(tests=True, one=much), {"one": 4})
        found = self.jobs(tests=True, one=10, two=10, three=10, much=much)
        self.assertEqual(found, {"one": 1, "two": 1, "three": 1, "much": 1})

    def test_no_more_jobs_than_processors(self):
        quick_rt.PROCESSORS = 2
        self.assertEqual(self.jobs(one=10, much=1000), {"one": 1, "much": 2})


class Priority(unittest.TestCase):
    def test_a_check_of_an_edit_lets_proofs_go_first(self):
        rt = types.SimpleNamespace(rtlib=types.SimpleNamespace(guarded=lambda: ["guard"]))
        rt.checked = lambda *given: (given, rt.rtlib.guarded())
        quick_rt.let_proofs_go_first(rt)
        self.assertEqual(rt.checked("crate", {}), (("crate", {}), ["nice", "-n", "10", "guard"]))
        self.assertEqual(rt.rtlib.guarded(), ["guard"])


if __name__ == "__main__":
    unittest.main()

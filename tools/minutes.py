"""The processor minutes that each crate takes of a run of the gate."""

import contextlib
import os
import threading

import workspace

SECONDS_BETWEEN_LOOKS = 0.5
TICKS = os.sysconf("SC_CLK_TCK")
COLUMNS = ("proof", "tests", "edits")


class Process:
    """What the system tells of a process."""

    def __init__(self, number):
        self.number = number
        with open(f"/proc/{number}/stat", encoding="utf-8", errors="replace") as file:
            fields = file.read().rpartition(")")[2].split()
        self.parent, self.began = int(fields[1]), fields[19]
        # its own and those of its children that have ended, of the user and of the system
        self.seconds = sum(int(it) for it in fields[11:15]) / TICKS

    def words(self):
        with open(f"/proc/{self.number}/cmdline", encoding="utf-8", errors="replace") as file:
            return file.read().split("\0")

    def is_prover(self):
        return os.path.basename(self.words()[0]) == "rattle"

    def descends_from(self, number):
        process = self
        while process.parent > 1 and process.parent != number:
            process = Process(process.parent)
        return process.parent == number


class Table:
    """For each crate and column, the processor seconds of the prover's processes below this one."""

    def __init__(self):
        self.seconds = {}

    def look(self):
        """Looks at each process. What one uses after the last look at it is lost."""
        for number in filter(str.isdigit, os.listdir("/proc")):
            # a process may end while it is looked at
            with contextlib.suppress(OSError, IndexError, ValueError):
                self.note(Process(int(number)))

    def note(self, process):
        # a copy that the prover makes of itself is counted with it, once the copy has ended
        if not process.is_prover() or Process(process.parent).is_prover():
            return
        words = process.words()
        if "--crate-name" in words and process.descends_from(os.getpid()):
            crate = words[words.index("--crate-name") + 1]
            is_edit = "/rt-edit-" in os.readlink(f"/proc/{process.number}/cwd")
            column = "edits" if is_edit else "tests" if "--test" in words else "proof"
            self.seconds[crate, column, process.number, process.began] = process.seconds

    def minutes(self, crate, column):
        return sum(used for key, used in self.seconds.items() if key[:2] == (crate, column)) / 60

    def text(self):
        """The table of docs/GATE.md: a row for each crate, lowest first, and one for all."""
        rows = []
        for it in workspace.crates():
            lines = [it.lines(part) for part in workspace.SOURCES]
            minutes = [self.minutes(it.name, column) for column in COLUMNS]
            rows.append([*lines, len(it.edits()), *minutes])
        names = [f"`{it.name}`" for it in workspace.crates()] + ["all"]
        rows.append([sum(column) for column in zip(*rows)])
        text = (
            "| Crate | Code | Definitions | Proofs | Edits | Minutes: proof | tests | edits |\n"
            "|---|---|---|---|---|---|---|---|\n"
        )
        for name, row in zip(names, rows):
            cells = [str(it) for it in row[:4]] + [f"{it:.1f}" for it in row[4:]]
            text += f"| {name} | " + " | ".join(cells) + " |\n"
        return text


@contextlib.contextmanager
def measured():
    """Measures while the block runs. Gives the table."""
    table, ended = Table(), threading.Event()

    def go_on():
        while not ended.wait(SECONDS_BETWEEN_LOOKS):
            table.look()

    looker = threading.Thread(target=go_on, daemon=True)
    looker.start()
    try:
        yield table
    finally:
        ended.set()
        looker.join()

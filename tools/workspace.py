"""The crates of this repository, as the scripts beside this file see them."""

import contextlib
import functools
import hashlib
import os
import re
import shutil
import subprocess
import sys
import tempfile

TOP = os.path.dirname(os.path.dirname(os.path.abspath(__file__)))
PROCESSORS = len(os.sched_getaffinity(0))
SOURCES = ("src", "specs", "proofs")
# `rt`, as the scripts start it: it sums each crate's sources once.
RT = (sys.executable, f"{TOP}/tools/quick_rt.py")


class Crate:
    """A line of crates.txt: a name, and the crates of the repository that it stands on."""

    def __init__(self, name, line):
        self.name, self.line, self.uses = name, line, []
        self.folder = f"{TOP}/crates/{name}"

    @functools.cache
    def below(self):
        """The crates that this one stands on, each behind those that it stands on itself."""
        found = []
        for crate in self.uses:
            found += [it for it in [*crate.below(), crate] if it not in found]
        return found

    def files(self, *parts):
        """The paths of the files in these folders of the crate, in a fixed order."""
        found = []
        for part in parts:
            for at, folders, names in os.walk(f"{self.folder}/{part}"):
                folders.sort()
                found += [f"{at}/{name}" for name in sorted(names)]
        return found

    def edits(self):
        return [it for it in self.files("must-fail") if it.endswith(".edit")]

    def is_program(self):
        return os.path.isfile(f"{self.folder}/src/main.rt")

    def lines(self, *parts):
        return sum(content(it).count(b"\n") for it in self.files(*(parts or SOURCES)))


def content(path):
    with open(path, "rb") as file:
        return file.read()


def crates():
    """All crates, lowest first."""
    listed = {}
    for line in content(f"{TOP}/crates.txt").decode().splitlines():
        line = line.split("#")[0].strip()
        if line:
            name = re.match(r"\w+", line)[0]
            listed[name] = Crate(name, line)
    for crate in listed.values():
        names = crate.line.partition(":")[2].split()
        crate.uses = [listed[it] for it in names if it in listed]
    return sorted(listed.values(), key=lambda it: len(it.below()))


def with_those_below(some):
    """These crates and all that they stand on, each behind those that it stands on itself."""
    found = []
    for crate in some:
        found += [it for it in [*crate.below(), crate] if it not in found]
    return found


@contextlib.contextmanager
def copied(some, with_edits=()):
    """A tree of its own of these crates, without what checks kept in them, and with those of their
    must-fail edits that are named. Gives its folder, which goes in the end."""
    with tempfile.TemporaryDirectory(prefix="crates-") as room:
        tree = f"{room}/tree"
        # `rt ci` takes the tree for the top of a repository
        os.makedirs(f"{tree}/.git")
        shutil.copy(f"{TOP}/HANDLES", tree)
        with open(f"{tree}/crates.txt", "w", encoding="utf-8") as file:
            file.writelines(f"{it.line}\n" for it in some)
        left_out = shutil.ignore_patterns("out", "must-fail")
        for it in some:
            to = f"{tree}/crates/{it.name}"
            shutil.copytree(it.folder, to, ignore=left_out)
            for edit in it.edits():
                if edit in with_edits:
                    os.makedirs(f"{to}/must-fail", exist_ok=True)
                    shutil.copy(edit, f"{to}/must-fail")
        yield tree


def rt_ci(tree, see, minutes_for_edits=None):
    """Runs `rt ci` over a tree, hands each line that it prints to `see`, and returns its status.
    quick_rt.py begins with no crate's edits once these took so many minutes on all processors."""
    limit = {"MINUTES_FOR_EDITS": str(minutes_for_edits)} if minutes_for_edits is not None else {}
    with subprocess.Popen(
        [*RT, "ci"],
        cwd=tree,
        stdin=subprocess.DEVNULL,
        stdout=subprocess.PIPE,
        stderr=subprocess.STDOUT,
        errors="replace",
        env={**os.environ, **limit},
    ) as ran:
        for line in ran.stdout:
            see(line)
    return ran.returncode


@functools.lru_cache(maxsize=None)
def kit():
    """The kit's identity, in one line."""
    return subprocess.check_output(["rt", "version"], text=True).strip()


def fingerprints():
    """For each must-fail edit a sum over what its meaning depends on: what it changes, the sources,
    definitions and proofs of its crate, the crate's line of crates.txt, and the definitions of all
    crates below."""
    definitions = {it.name: digest([], it, "specs") for it in crates()}
    found = {}
    for crate in crates():
        below = [definitions[it.name] for it in crate.below()]
        own = digest([crate.line, below], crate, *SOURCES)
        for edit in crate.edits():
            found[edit] = hashlib.sha256(repr([own, content(edit)]).encode()).hexdigest()
    return found


def program_sum(crate):
    """A sum over all that a program is made from: its sources, those of all crates below, and the
    kit."""
    ground = [
        content(f"{TOP}/HANDLES"),
        kit(),
        *(digest([it.line], it, *SOURCES) for it in crate.below()),
    ]
    return digest([ground, crate.line], crate, *SOURCES)


def digest(ground, crate, *parts):
    """A sum over the ground and the files in these folders of the crate."""
    files = [(os.path.relpath(it, crate.folder), content(it)) for it in crate.files(*parts)]
    return hashlib.sha256(repr([ground, files]).encode()).hexdigest()

#!/usr/bin/env python3
"""Measures what programs cost on the built server, and prints the table of docs/COSTS.md.

    tools/costs.py [WORD ..]          all rows, or those in whose names one of the words stands
    tools/costs.py --stream ROW COUNT writes the stream of a row, by its number, for so many
    tools/costs.py --shared ROW COUNT writes the text that all tenants share, where the row has one

Counted are instructions, by `valgrind --tool=callgrind`, so what else the machine does makes no
difference; and memory at its peak, by the system. Each row is measured at three sizes, each twice
the one before: where the cost is a straight line, it doubles."""

import contextlib
import re
import subprocess
import sys
import tempfile

SERVER = "crates/nrepl_server/out/nrepl_server"


def spelled(text):
    return b"%d:%s" % (len(text), text.encode())


def request(**fields):
    spellings = (spelled(key) + spelled(value) for key, value in sorted(fields.items()))
    return b"d" + b"".join(spellings) + b"e"


def evaluated(*codes):
    """A request for each of these texts, none in a session."""
    return [request(op="eval", id="7", code=it) for it in codes]


def sessions(count):
    """So many clones, and their sessions' ids, as the server with its usual seed gives them."""
    clones = [request(op="clone")] * count
    pipes = {"input": b"".join(clones), "stdout": subprocess.PIPE}
    ran = subprocess.run([SERVER, "pipe"], check=True, **pipes)
    return clones, re.findall(r"new-session36:([-0-9a-f]{36})", ran.stdout.decode())


def over(count, codes):
    """So many sessions, and these texts over them by turns."""
    clones, ids = sessions(count)
    turns = enumerate(codes)
    return clones + [request(op="eval", code=it, session=ids[at % count]) for at, it in turns]


def times(text, count):
    return " ".join([text] * count)


def ints(count):
    return " ".join(map(str, range(count)))


def mixed(count):
    """So many integers in no order."""
    return (it * 7919 % 1000003 for it in range(count))


def mapped(keys):
    """A map of integers to themselves."""
    return "{" + " ".join(f"{it} {it}" for it in keys) + "}"


def text(length):
    return '"' + "x" * length + '"'


def definitions(count):
    return [f"(def a{it} {it})" for it in range(count)]


def named(count):
    return " ".join(f"a{it} {it}" for it in range(count))


def held(value, form, count):
    """A var `v` that holds a value, and one form with so many forms over it."""
    return evaluated(f"(def v {value})", f"(do {times(form, count)})")


def transaction(body, count):
    return evaluated(REF, f"(dosync {times(body, count)})")


def added(count):
    return " ".join(f"(alter r assoc {it} 1)" for it in range(count))


def agents(count):
    return [f"(def a{it} (agent 0))" for it in range(count)]


def in_requests(forms, most=1000):
    """These forms, so many in each request at the most."""
    return evaluated(*[" ".join(forms[it : it + most]) for it in range(0, len(forms), most)])


def sent_by_turns(count):
    """So many sends to 1,000 agents, by turns."""
    return in_requests(agents(1000) + [f"(send a{it % 1000} inc)" for it in range(count)])


def sent_at_once(count, awaited=""):
    return evaluated("(def a (agent 0))", f"(dosync {times('(send a inc)', count)} nil) {awaited}")


def sent_by_action(count):
    sending = f"(defn f [n] (do {times('(send b inc)', count)} n))"
    both = "(def a (agent 0)) (def b (agent 0))"
    return evaluated(both, sending, "(send a f) (await a) (await b)")


def shared_refs(count):
    return "".join(f"(def r{it} (ref 0))\n" for it in range(count))


REF = "(def r (ref 0))"
DOUBLING = "(defn f [n] (if (zero? n) 0 (do (f (dec n)) (f (dec n)))))"
SKIPPING = f"(defn f [] (if true 1 (do {times('1', 20000)})))"

# What is measured, the stream for a count, the least count, and maybe the shared text for a count.
ROWS = (
    ("requests `(+ 1 2)`", lambda n: evaluated(*["(+ 1 2)"] * n), 1000),
    ("the same over ten sessions, by turns", lambda n: over(10, ["(+ 1 2)"] * n), 1000),
    ("sessions, and one request in each", lambda n: over(n, ["(+ 1 2)"] * n), 250),
    ("sessions, and their list", lambda n: sessions(n)[0] + [request(op="ls-sessions")], 1000),
    (
        "requests of one `def` each, and one for each name",
        lambda n: evaluated(*definitions(n), *[f"a{it}" for it in range(n)]),
        500,
    ),
    ("definitions in one request", lambda n: evaluated(" ".join(definitions(n))), 1000),
    ("forms `(+ 1 2)` in one request", lambda n: evaluated(times("(+ 1 2)", n)), 2500),
    ("forms of 6,140 calls each", lambda n: evaluated(DOUBLING, times("(f 10)", n)), 5),
    ("prints of 900 characters in one form", lambda n: held(text(900), "(print v)", n), 250),
    (
        "symbols in a vector, each an ask",
        lambda n: evaluated(f"(do (def a 1) [{times('a', n)}])"),
        5000,
    ),
    ("integers in a vector", lambda n: evaluated(f"[{ints(n)}]"), 25000),
    ("keys of a map, ascending", lambda n: evaluated(mapped(range(n))), 10000),
    ("keys of a map, in no order", lambda n: evaluated(mapped(mixed(n))), 10000),
    ("equal keys to `hash-map`", lambda n: evaluated(f"(hash-map {times('1 2', n)})"), 10000),
    (
        "`assoc` of one key to a map of 2,000",
        lambda n: held(mapped(range(2000)), "(assoc v 1 2)", n),
        250,
    ),
    (
        "`dissoc` of one key from a map of 2,000",
        lambda n: held(mapped(range(2000)), "(dissoc v 1)", n),
        250,
    ),
    ("`get` in a map of 20,000", lambda n: held(mapped(range(20000)), "(get v 77)", n), 1000),
    ("`conj` to a vector of 5,000", lambda n: held(f"[{ints(5000)}]", "(conj v 1)", n), 500),
    ("`rest` of a list of 5,000", lambda n: held(f"'({ints(5000)})", "(rest v)", n), 1000),
    (
        "names of a `let`, and as many times its first",
        lambda n: evaluated(f"(let [{named(n)}] {times('a0', n)})"),
        5000,
    ),
    (
        "calls of a function with 20,000 forms that are not evaluated",
        lambda n: evaluated(SKIPPING, f"(do {times('(f)', n)})"),
        1000,
    ),
    (
        "`=` of a text of 100,000 bytes with itself",
        lambda n: held(text(100000), "(= v v)", n),
        500,
    ),
    ("`(ref-set r 1) @r` in one `dosync`", lambda n: transaction("(ref-set r 1) @r", n), 1250),
    ("`(alter r inc)` in one `dosync`", lambda n: transaction("(alter r inc)", n), 1200),
    (
        "`(commute r inc)` in one `dosync`, each made again at its commit",
        lambda n: transaction("(commute r inc)", n),
        1200,
    ),
    (
        "`(alter r conj 1)` in one `dosync`, from an empty vector",
        lambda n: evaluated("(def r (ref []))", f"(dosync {times('(alter r conj 1)', n)} nil)"),
        1200,
    ),
    (
        "`(alter r assoc KEY 1)` in one `dosync`, from an empty map",
        lambda n: evaluated("(def r (ref {}))", f"(dosync {added(n)} nil)"),
        1200,
    ),
    ("`(ensure r)` in one `dosync`", lambda n: transaction("(ensure r)", n), 1250),
    (
        "requests `(dosync (alter r inc))`",
        lambda n: evaluated(REF, *["(dosync (alter r inc))"] * n),
        1000,
    ),
    (
        "requests `(dosync (commute r inc))`",
        lambda n: evaluated(REF, *["(dosync (commute r inc))"] * n),
        1000,
    ),
    (
        "forms `(swap! t inc)`",
        lambda n: in_requests(["(def t (atom 0))", *["(swap! t inc)"] * n]),
        25000,
    ),
    ("forms `(send aK inc)` to 1,000 agents by turns", sent_by_turns, 25000),
    ("`(send a inc)` in one `dosync`", sent_at_once, 1250),
    ("the same, and an `await`", lambda n: sent_at_once(n, "(await a)"), 1250),
    ("`(send b inc)` in one action, and two awaits", sent_by_action, 1250),
    ("shared refs that a text defines", lambda n: [], 5000, shared_refs),
    (
        "the same, and 1,000 requests `(dosync (alter shared/r0 inc))`",
        lambda n: evaluated(*["(dosync (alter shared/r0 inc))"] * 1000),
        5000,
        shared_refs,
    ),
)


@contextlib.contextmanager
def pipe_over(text):
    """The words of the command, for a server with this shared text."""
    if not text:
        yield [SERVER, "pipe"]
        return
    with tempfile.NamedTemporaryFile("w", encoding="utf-8", suffix=".clj") as file:
        file.write(text)
        file.flush()
        yield [SERVER, "pipe", "--shared", file.name]


def instructions(stream, text):
    """Millions of instructions that the server takes for a stream."""
    with tempfile.TemporaryFile() as told, pipe_over(text) as pipe:
        words = ["valgrind", "--tool=callgrind", "--callgrind-out-file=/dev/null", *pipe]
        subprocess.run(words, input=stream, stdout=subprocess.DEVNULL, stderr=told, check=True)
        told.seek(0)
        return int(re.search(rb"refs:\s+([0-9,]+)", told.read()).group(1).replace(b",", b"")) / 1e6


def megabytes(stream, text):
    """The memory that the server takes at its peak for a stream."""
    with pipe_over(text) as pipe:
        pipes = {"stdout": subprocess.DEVNULL, "stderr": subprocess.PIPE}
        words = ["/usr/bin/time", "-f", "%M", *pipe]
        ran = subprocess.run(words, input=stream, check=True, **pipes)
    return round(int(ran.stderr.split()[-1]) / 1000, 1)


def main(words):
    if words[:1] == ["--stream"]:
        sys.stdout.buffer.write(b"".join(ROWS[int(words[1])][1](int(words[2]))))
        return
    if words[:1] == ["--shared"]:
        sys.stdout.write("".join(it(int(words[2])) for it in ROWS[int(words[1])][3:]))
        return
    print("| So many | Counts | Millions of instructions | MB at the last |\n|---|---|---|---|")
    for name, stream, least, *texts in ROWS:
        if not words or any(word in name for word in words):
            counts = [least, 2 * least, 4 * least]
            streams = [b"".join(stream(it)) for it in counts]
            shared = ["".join(text(it) for text in texts) for it in counts]
            costs = ", ".join(f"{instructions(*it):,.1f}" for it in zip(streams, shared))
            told = ", ".join(f"{it:,}" for it in counts)
            most = megabytes(streams[2], shared[2])
            print(f"| {name} | {told} | {costs} | {most} |", flush=True)


if __name__ == "__main__":
    main(sys.argv[1:])

#!/usr/bin/env python3
"""Measures what one call on a large collection costs, in microseconds, and prints a table.

    tools/collection_costs.py [--reference JAR]

A var and a local name hold the collection, so each call makes a new value beside it, and asks for no
var. Counted is the processor time of the built server, of which that of as many calls `(inc 1)` is
taken: what is left is what the collection costs beyond a call. With --reference the same calls are
timed in Clojure, whose JAR that is, in a loop that it has compiled, without what the loop costs when
it calls `(inc 1)`."""

import os
import subprocess
import sys

from costs import SERVER, evaluated

# Calls in a request, requests that are counted, and runs, of which the shortest counts.
CALLS, REQUESTS, RUNS = 1000, 50, 3
# Integers of a collection that one message spells.
AT_ONCE = 60_000
COUNTS = (1_000, 30_000, 1_000_000)
# What is called, of a collection `v` with a key or a place `k` in its middle.
VECTOR = ("(nth v k)", "(conj v 1)", "(assoc v k 1)", "(rest v)", "(cons 1 v)")
LIST = ("(first v)", "(rest v)", "(conj v 1)")
MAP = ("(get v k)", "(assoc v k -1)", "(assoc v :new 1)", "(dissoc v k)", "(keys v)")
KINDS = (("vector", "[]", VECTOR), ("list", "()", LIST), ("map", "{}", MAP))
BASE = "(inc 1)"
TIMED = """
(defn timed [f] (let [n {turns} from (System/nanoTime)]
  (dotimes [_ n] (f)) (/ (- (System/nanoTime) from) (* 1000.0 n))))
(defn least [f] (apply min (repeatedly 7 #(timed f))))
"""
TURNS = 20_000


def main(words):
    jar = words[1] if words[:1] == ["--reference"] else None
    heads = ["| Call", "Items", "Microseconds", *(["Clojure"] if jar else [])]
    print(" | ".join(heads) + " |\n|" + "---|" * len(heads))
    base = time_of_call(BASE, making("vector", "[]", 1))
    for kind, empty, calls in KINDS:
        for count in COUNTS:
            entries = count // 2 if kind == "map" and count == COUNTS[-1] else count
            made = making(kind, empty, entries)
            theirs = timed_in_clojure(jar, kind, entries, calls) if jar else {}
            for call in calls:
                ours = time_of_call(call, made) - base
                told = f" {theirs[call]:.2f} |" if jar else ""
                print(f"| `{call}` of a {kind} | {entries:,} | {ours:.2f} |{told}", flush=True)


def making(kind, empty, count):
    """Forms that define `v` and `k`. A list has its items the other way round."""
    forms = [f"(def k {count // 2})", f"(def v {empty})"]
    for start in range(0, count, AT_ONCE):
        numbers = range(start, min(start + AT_ONCE, count))
        pairs = kind == "map"
        items = " ".join(f"{it} {it}" if pairs else str(it) for it in numbers)
        forms.append(f"(def v ({'assoc' if pairs else 'conj'} v {items}))")
    return forms


def time_of_call(call, made):
    """Microseconds of processor time that one such call takes, behind these forms."""
    request = f"(let [v v k k] {' '.join([call] * CALLS)} nil)"
    few, many = (
        min(processor_time([*made, *[request] * it]) for _ in range(RUNS))
        for it in (REQUESTS, 3 * REQUESTS)
    )
    return 1e6 * (many - few) / (2 * REQUESTS * CALLS)


def processor_time(codes):
    with subprocess.Popen(
        [SERVER, "pipe"], stdin=subprocess.PIPE, stdout=subprocess.DEVNULL
    ) as ran:
        for it in evaluated(*codes):
            ran.stdin.write(it)
        ran.stdin.close()
        _, status, used = os.wait4(ran.pid, 0)
        ran.returncode = os.waitstatus_to_exitcode(status)
    return used.ru_utime + used.ru_stime


def timed_in_clojure(jar, kind, count, calls):
    """Microseconds of each call in Clojure, beyond those of `(inc 1)`."""
    made = {
        "vector": f"(vec (range {count}))",
        "list": f"(into () (range {count}))",
        "map": f"(into {{}} (map (juxt identity identity) (range {count})))",
    }[kind]
    told = " ".join(f"(println (- (least (fn [] {it})) base))" for it in calls)
    code = (
        f"{TIMED.format(turns=TURNS)} (def ^:const k {count // 2}) "
        f"(let [v {made} k {count // 2} base (least (fn [] {BASE}))] {told})"
    )
    folder = os.path.dirname(jar)
    path = f"{jar}:{folder}/spec.alpha.jar:{folder}/core.specs.alpha.jar"
    words = ["java", "-cp", path, "clojure.main", "-e", code]
    lines = subprocess.check_output(words, text=True).split()
    return dict(zip(calls, (max(float(it), 0.0) for it in lines[-len(calls) :])))


if __name__ == "__main__":
    main(sys.argv[1:])

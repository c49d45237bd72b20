#!/usr/bin/env python3
"""Tests the built program over sockets, as `nrepl_server serve`.

    tools/test_serve.py PROGRAM

Each function whose name begins with `that_` is a test, and the name says what has to be. Its peers
connect one after another, and leave in the end of the `with`. Then the program has to end, as
serving.py says. The last line is `N passed, M failed`."""

import concurrent.futures
import contextlib
import os
import re
import select
import socket
import sys
import tempfile
import threading
import time

import clients
import workspace
from bencode import encoded
from peers import GARBAGE, MALFORMED, REPLIES, REQUEST, answers, evaluates, expect, made_session
from peers import reset, values
from serving import refused, serving
from session_ids import session_id
from sockets import Connection, Server

SLOW = "(defn f [n] (if (zero? n) 0 (do (f (dec n)) (f (dec n)))))"
# An action that makes some 3,000 calls, and adds 1 to the state.
SLOW_ACTION = "(defn slow [n] (do (f 9) (inc n)))"
BAD_OPTIONS = """\
serve
serve --port 0
serve --connections 1
serve --port 65536 --connections 1
serve --port x --connections 1
serve --port 0 --connections 0
serve --port 0 --connections 1000001
serve --port 0 --connections 1 --crews 0
serve --port 0 --connections 1 --crews 65
serve --port 0 --connections 1 --seed 00
serve --port 0 --connections 1 --retries 0
serve --port 0 --connections 1 --connections 1
serve --port 0 --connections 1 --colour red
serve --port 0 --connections 1 more
pipe --port 0""".splitlines()


TEAMS = re.compile(r"^    (one|other): +user=> (.*)\n((?:           .*\n)*)", re.MULTILINE)
COUNTER = re.compile(r"With `counter.clj` as\n\n((?:    .*\n)*)")


def that_an_eval_gives_the_bytes_of_the_rules(program):
    with serving(program, 1) as address, Connection(address) as peer:
        answers(peer)
        peer.end()
        expect(peer.read(), b"")


def that_a_message_may_come_byte_by_byte(program):
    with serving(program, 1) as address, Connection(address) as peer:
        for place in range(len(REQUEST) - 1):
            peer.send(REQUEST[place : place + 1])
            time.sleep(0.001)
        answers(peer, REQUEST[-1:])


def that_connections_are_served_side_by_side(program):
    with serving(program, 2) as address, Connection(address) as one, Connection(address) as other:
        one.send(REQUEST[:9])
        answers(other)
        answers(one, REQUEST[9:])


def that_a_connection_waits_until_a_crew_is_free(program):
    with serving(program, 2, "--crews", "1") as address, Connection(address) as one:
        answers(one)
        with Connection(address) as other:
            other.send(REQUEST)
            expect(select.select([other.socket], [], [], 0.3)[0], [])
            one.end()
            answers(other, b"")


def that_a_peer_which_goes_inside_a_message_disturbs_no_other(program):
    with serving(program, 3) as address, Connection(address) as other:
        for goes in (lambda _: None, reset):
            with Connection(address) as one:
                answers(one, REQUEST + REQUEST[:9])
                answers(other)
                goes(one)
            answers(other)


def that_a_peer_which_sends_no_more_gets_all_its_replies(program):
    with serving(program, 1) as address, Connection(address) as peer:
        peer.send(REQUEST * 500)
        peer.end()
        expect(peer.read(), REPLIES * 500)


def that_all_sessions_are_answered_where_a_peer_sends_no_more(program):
    connections = 100
    with serving(program, connections) as address:
        for _ in range(connections):
            with Connection(address) as peer:
                whose = [made_session(peer) for _ in range(3)]
                evals = [{"code": "(+ 1 2)", "id": "7", "op": "eval", "session": it} for it in whose]
                peer.send(b"".join(map(encoded, evals)))
                peer.end()
                expect(peer.read().count(b"4:done"), len(whose))


def that_thousands_of_requests_may_be_sent_before_a_reply_is_read(program):
    with serving(program, 1) as address, Connection(address) as peer:
        sender = threading.Thread(target=peer.send, args=(REQUEST * 5000,))
        sender.start()
        time.sleep(0.3)
        expect(peer.read(len(REPLIES) * 5000), REPLIES * 5000)
        sender.join()


def that_a_reply_may_be_a_million_bytes_long(program):
    with serving(program, 1) as address, Connection(address) as peer:
        text = '"' + "x" * 1_000_000 + '"'
        expect(values(peer.asked({"code": text, "id": "1", "op": "eval"})), [text])


def that_garbage_is_told_and_ends_the_stream(program):
    with serving(program, len(GARBAGE)) as address:
        for it in GARBAGE:
            with Connection(address) as peer:
                answers(peer)
                answers(peer, it, MALFORMED)
                expect(peer.read(), b"")


def that_garbage_is_told_however_much_of_it_is_sent(program):
    with serving(program, 1) as address, Connection(address) as peer:
        answers(peer, b"x" * 200_000, MALFORMED)
        expect(peer.read(), b"")


def that_what_came_before_garbage_is_answered(program):
    with serving(program, 1) as address, Connection(address) as peer:
        peer.send(REQUEST + b"x")
        came = peer.read()
        # the fault is told first, unless it came in a piece of its own
        if came != REPLIES + MALFORMED:
            expect(came, MALFORMED + REPLIES)


def that_tenants_see_nothing_of_each_other(program):
    with serving(program, 2) as address, Connection(address) as one:
        evaluates(one, "(do (def x 1) x)", 1)
        first = made_session(one)
        with Connection(address) as other:
            second = made_session(other)
            expect([first, second], [session_id(0, 0), session_id(1, 0)])
            expect(other.asked({"id": "1", "op": "ls-sessions"})[0]["sessions"], [second])
            replies = other.asked({"code": "1", "id": "2", "op": "eval", "session": first})
            expect([it["status"] for it in replies], [["error", "unknown-session", "done"]])
            replies = other.asked({"code": "x", "id": "3", "op": "eval"})
            unknown = "java.lang.RuntimeException: Unable to resolve symbol: x in this context\n"
            expect([it["err"] for it in replies if "err" in it], [unknown])
        evaluates(one, "x", 1, first)


def that_the_ids_of_sessions_follow_from_the_seed(program):
    seed = bytes(range(32))
    with serving(program, 1, "--seed", seed.hex()) as address, Connection(address) as peer:
        expect(made_session(peer), session_id(0, 0, seed))


def that_a_close_interrupts_what_waits(program):
    with serving(program, 1) as address, Connection(address) as peer:
        session = made_session(peer)
        peer.asked({"code": SLOW, "id": "1", "op": "eval"})
        named = {"op": "eval", "session": session}
        peer.send(encoded(named | {"code": "(f 10)", "id": "slow"}))
        evals = [named | {"code": "(+ 1 2)", "id": str(it)} for it in range(30)]
        close = named | {"id": "close", "op": "close"}
        peer.send(b"".join(map(encoded, [*evals, close])))
        ends = []
        while len(ends) < len(evals) + 2:
            reply = peer.reply()
            if "done" in reply.get("status", []):
                ends.append([reply["id"], *reply["status"]])
        # it is interrupted too, but later, where it is slower than the messages behind it
        slow = next(it for it in ends if it[0] == "slow")
        expect(slow, ["slow", "done", "interrupted"][: len(slow)])
        wanted = [[it["id"], "done", "interrupted"] for it in evals]
        wanted.append(["close", "done", "session-closed"])
        expect([it for it in ends if it is not slow], wanted)


def that_a_slow_form_holds_up_no_other_request(program):
    with serving(program, 1) as address, Connection(address) as peer:
        one, other = made_session(peer), made_session(peer)
        peer.asked({"code": SLOW, "id": "1", "op": "eval"})
        peer.send(encoded({"code": "(f 10)", "id": "slow", "op": "eval", "session": one}))
        peer.send(encoded({"id": "asked", "op": "ls-sessions"}))
        expect(peer.reply()["id"], "asked")
        peer.send(encoded({"code": "7", "id": "quick", "op": "eval", "session": other}))
        came = [peer.reply()["id"] for _ in range(4)]
        expect(came, ["quick", "quick", "slow", "slow"])


def that_an_eval_takes_far_less_than_40_ms_where_it_is_acknowledged_late(program):
    times = []
    with serving(program, 1) as address, Connection(address) as peer:
        for number in range(100):
            peer.socket.setsockopt(socket.IPPROTO_TCP, socket.TCP_QUICKACK, 0)
            began = time.monotonic()
            peer.asked({"code": "(println 1)", "id": str(number), "op": "eval"})
            times.append(time.monotonic() - began)
    middle = sorted(times)[len(times) // 2]
    if middle > 0.02:
        raise ValueError(f"the middle one of {len(times)} takes {1000 * middle:.0f} ms")


@contextlib.contextmanager
def shared_file(text):
    """The path of a file with this text."""
    with tempfile.NamedTemporaryFile("w", suffix=".clj", encoding="utf-8") as file:
        file.write(text)
        file.flush()
        yield file.name


def that_two_teams_share_what_readme_says(program):
    readme = workspace.content(f"{workspace.TOP}/README.md").decode()
    lines = TEAMS.findall(readme)
    expect(len(lines), 6)
    with contextlib.ExitStack() as stack:
        path = stack.enter_context(shared_file(COUNTER.search(readme)[1]))
        address = stack.enter_context(serving(program, 2, "--shared", path))
        teams = {it: stack.enter_context(Connection(address)) for it in ("one", "other")}
        sessions = {it: made_session(peer) for it, peer in teams.items()}
        for team, code, wanted in lines:
            request = {"code": code, "id": "7", "op": "eval", "session": sessions[team]}
            replies = teams[team].asked(request)
            shown = [it.get("value") or it.get("err") for it in replies]
            shown = [it.removesuffix("\n") for it in shown if it]
            expect([code, shown], [code, [it.strip() for it in wanted.splitlines()]])


def that_no_commit_to_a_shared_ref_is_lost(program):
    commits, connections = 500, 4
    text = "(def c (ref 0)) (defn add [] (dosync (alter c inc)))"

    def commit(peer):
        for _ in range(commits // 2):
            expect(len(values(peer.asked({"code": "(shared/add)", "id": "7", "op": "eval"}))), 1)
            code = "(dosync (commute shared/c inc))"
            expect(len(values(peer.asked({"code": code, "id": "7", "op": "eval"}))), 1)

    with contextlib.ExitStack() as stack:
        path = stack.enter_context(shared_file(text))
        address = stack.enter_context(serving(program, connections + 1, "--shared", path))
        peers = [stack.enter_context(Connection(address)) for _ in range(connections)]
        with concurrent.futures.ThreadPoolExecutor(connections) as pool:
            for done in [pool.submit(commit, it) for it in peers]:
                done.result()
        for peer in peers:
            peer.end()
        last = stack.enter_context(Connection(address))
        evaluates(last, "@shared/c", commits * connections)
        last.end()


def that_evaluations_do_not_wait_for_actions(program):
    with serving(program, 1) as address, Connection(address) as peer:
        session = made_session(peer)
        peer.asked({"code": f"(def a (agent 0)) {SLOW} {SLOW_ACTION}", "id": "1", "op": "eval"})
        sends = "(send a slow) " * 10
        peer.asked({"code": sends, "id": "2", "op": "eval", "session": session})
        seen = values(peer.asked({"code": "@a", "id": "3", "op": "eval"}))
        expect(int(seen[0]) < 10, True)
        replies = peer.asked({"code": "(await a) @a", "id": "4", "op": "eval", "session": session})
        expect(values(replies), ["nil", "10"])


def that_an_await_holds_up_its_session_alone(program):
    with serving(program, 1) as address, Connection(address) as peer:
        one, other = made_session(peer), made_session(peer)
        peer.asked({"code": f"(def a (agent 0)) {SLOW} {SLOW_ACTION}", "id": "1", "op": "eval"})
        code = "(send a slow) " * 5 + "(await a)"
        peer.send(encoded({"code": code, "id": "awaits", "op": "eval", "session": one}))
        for _ in range(5):
            expect(peer.reply()["value"], "#agent[0]")
        peer.send(encoded({"code": "7", "id": "sum", "op": "eval", "session": other}))
        came = [peer.reply() for _ in range(4)]
        expect([it["id"] for it in came], ["sum", "sum", "awaits", "awaits"])
        expect(values(came), ["7", "nil"])


def that_more_sessions_may_await_than_there_are_workers(program):
    with serving(program, 1) as address, Connection(address) as peer:
        sessions = [made_session(peer) for _ in range(6)]
        peer.asked({"code": f"(def a (agent 0)) {SLOW} {SLOW_ACTION}", "id": "1", "op": "eval"})
        for it in sessions:
            code = "(send a slow) (await a)"
            peer.send(encoded({"code": code, "id": "7", "op": "eval", "session": it}))
        ends = set()
        while len(ends) < len(sessions):
            reply = peer.reply()
            expect("ex" in reply, False)
            if "status" in reply:
                ends.add(reply["session"])
        evaluates(peer, "@a", len(sessions))


def that_what_an_action_prints_goes_to_who_sent_it(program):
    with serving(program, 1) as address, Connection(address) as peer:
        session = made_session(peer)
        whose = {"id": "one", "session": session}
        sent = {"code": "(def a (agent 5)) (send a println)", "op": "eval"}
        peer.send(encoded(whose | sent))
        replies = sorted((peer.reply() for _ in range(4)), key=lambda it: "out" in it)
        expect(replies[3], whose | {"out": "5\n"})
        evaluates(peer, "@a", "nil")


def that_all_actions_are_run_where_a_peer_sends_no_more(program):
    sends = 500
    with serving(program, 1) as address, Connection(address) as peer:
        evaluates(peer, "(def a (agent 5))", "#'user/a")
        peer.send(encoded({"code": "(send a println) " * sends, "id": "2", "op": "eval"}))
        peer.end()
        came = peer.read()
        expect([came.count(b"9:#agent[0]"), came.count(b"3:out")], [sends, sends])


def that_actions_of_a_peer_that_leaves_disturb_no_other(program):
    with serving(program, 2) as address, Connection(address) as other:
        with Connection(address) as one:
            one.asked({"code": f"(def a (agent 0)) {SLOW} {SLOW_ACTION}", "id": "1", "op": "eval"})
            one.asked({"code": "(send a slow) " * 500, "id": "2", "op": "eval"})
            reset(one)
        evaluates(other, "(do (def a (agent 1)) (send a + 1) 0)", 0)
        replies = other.asked({"code": "(await a) @a", "id": "2", "op": "eval"})
        expect(values(replies), ["nil", "2"])


def that_a_faulty_shared_text_comes_before_listening(program):
    with shared_file("(def a (atom 1))") as path:
        words = f"serve --port 1 --connections 1 --shared {path}"
        line = "java.lang.IllegalStateException: Not allowed in the shared namespace"
        expect(refused(program, words), [2, f"nrepl: shared file: {line}\n"])
    words = "serve --port 1 --connections 1 --shared nowhere.clj"
    expect(refused(program, words), [2, "nrepl: cannot read nowhere.clj\n"])


def that_recorded_clients_are_answered_whole(program):
    paths = clients.all_files()
    tenants = sum(len(clients.connections(it)) for it in paths)
    with serving(program, tenants) as address:
        passed, failed = clients.run(address, paths)
        expect([passed > 0, failed], [True, 0])


def that_it_says_where_it_listens_and_listens_there_alone(program):
    with socket.create_server(("127.0.0.1", 0)) as free:
        port = free.getsockname()[1]
    with Server([program, "serve", "--port", str(port), "--connections", "1"]) as server:
        expect(server.line, f"listening on 127.0.0.1:{port}\n")
        with contextlib.suppress(ConnectionRefusedError), Connection(("127.0.0.2", port)):
            raise ValueError("it listens on 127.0.0.2 too")


def that_a_port_in_use_is_a_failed_read(program):
    with socket.create_server(("127.0.0.1", 0)) as taken:
        words = f"serve --port {taken.getsockname()[1]} --connections 1"
        expect(refused(program, words), [1, "nrepl: read failed\n"])


def that_bad_options_are_told(program):
    for it in BAD_OPTIONS:
        expect([it, *refused(program, it)], [it, 2, "nrepl: bad options\n"])


def main(words):
    if len(words) != 1:
        print(__doc__, file=sys.stderr)
        return 2
    passed, failed = run(words[0])
    print(f"{passed} passed, {failed} failed")
    return 1 if failed else 0


def run(program):
    """Runs all tests on this program, and returns how many passed and how many failed."""
    tests = {name: it for name, it in globals().items() if name.startswith("that_")}
    failed = 0
    for name, test in tests.items():
        try:
            test(os.path.abspath(program))
        except Exception as error:  # a test fails by whatever it raises
            failed += 1
            print(f"failed: {name.replace('_', ' ')}: {error!r}", flush=True)
    return len(tests) - failed, failed


if __name__ == "__main__":
    sys.exit(main(sys.argv[1:]))

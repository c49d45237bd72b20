#!/usr/bin/env python3
"""Many peers of a server at once, some of whom do what no client should.

    tools/hostile.py PORT [--seconds N] [--tenants N] [--seed N]
    tools/hostile.py COMMAND ..    the same with a server that this command starts

So many peers, 64 unless given, come again and again for so many seconds, 10 unless given. Every
second one is well behaved, and half of these send to an agent of theirs and await it. The others
close inside a message, wait inside one, read slowly, send what is no message, leave before they are
answered, also while actions of theirs wait, or close at once. It ends by itself, some
seconds later, with a count of each and with what was wrong: a reply that is not what it has to be,
or a peer that was left without one. Then the status is 1.

The server has to serve as many connections at a time as there are peers, and some hundred a second
in all: for example `nrepl_server serve --port 0 --connections 1000000 --crews 64`."""

import collections
import concurrent.futures
import random
import socket
import sys
import time

from bencode import encoded
from peers import GARBAGE, MALFORMED, REQUEST, answers, evaluates, expect, made_session, reset
from peers import values
from sockets import Connection, served

MOST_SHOWN = 20


def main(words):
    options = {"--seconds": "10", "--tenants": "64", "--seed": str(random.randrange(10**6))}
    options |= dict(zip(words[1::2], words[2::2]))
    if len(words) % 2 == 0 or len(options) > 3 or not all(map(str.isdecimal, options.values())):
        print(__doc__, file=sys.stderr)
        return 2
    seconds, tenants, seed = map(int, options.values())
    print(f"hostile: --seed {seed}", flush=True)
    with served(words[0]) as address:
        soak = Soak(address, time.monotonic() + seconds)
        with concurrent.futures.ThreadPoolExecutor(tenants) as peers:
            for it in range(tenants):
                peers.submit(soak.come, kind_of(it), random.Random(f"{seed} {it}"))
    return soak.told()


class Soak:
    """What came of the peers of a server, who come up to this moment."""

    def __init__(self, address, end):
        self.address, self.end = address, end
        self.counts, self.wrong = collections.Counter(), collections.Counter()

    def come(self, kind, chance):
        """A peer of this kind, again and again."""
        while time.monotonic() < self.end:
            try:
                kind(self.address, chance)
                self.counts[kind] += 1
            except Exception as error:  # whatever it is, no peer is to meet it
                self.wrong[f"{kind.__doc__}: {error!r}"] += 1
            time.sleep(chance.uniform(0, 0.04))

    def told(self):
        for kind in KINDS:
            print(f"{self.counts[kind]:7,} {kind.__doc__}")
        for it, count in self.wrong.most_common(MOST_SHOWN):
            print(f"{count:7,} times wrong: {it}")
        print(f"{self.wrong.total():,} wrong")
        return 1 if self.wrong else 0


def well_behaved(address, chance):
    """well behaved"""
    with Connection(address) as peer:
        session = made_session(peer)
        mine = chance.randrange(10**9)
        evaluates(peer, f"(do (def mine {mine}) mine)", mine, session)
        for number in range(chance.randrange(20)):
            evaluates(peer, f"(+ mine {number})", mine + number, session)
            time.sleep(chance.uniform(0, 0.01))
        closed = peer.asked({"id": "1", "op": "close", "session": session})
        expect([it["status"] for it in closed], [["done", "session-closed"]])


def sends_and_awaits(address, chance):
    """well behaved, with an agent"""
    with Connection(address) as peer:
        session = made_session(peer)
        evaluates(peer, "(do (def a (agent 0)) 0)", 0, session)
        for number in range(1, chance.randrange(2, 20)):
            evaluates(peer, "(do (send a inc) (await a) @a)", number, session)
            time.sleep(chance.uniform(0, 0.01))


def closes_inside(address, chance):
    """closed inside a message"""
    with Connection(address) as peer:
        answers(peer)
        peer.send(REQUEST[: inside(chance)])
        if chance.random() < 0.5:
            reset(peer)


def waits_inside(address, chance):
    """waited inside a message"""
    place = inside(chance)
    with Connection(address) as peer:
        peer.send(REQUEST[:place])
        time.sleep(chance.uniform(0.2, 1))
        answers(peer, REQUEST[place:])


def reads_slowly(address, _):
    """read slowly"""
    text, ids = f'"{"x" * 32_000}"', [str(it) for it in range(100)]
    with Connection(address) as peer:
        peer.socket.setsockopt(socket.SOL_SOCKET, socket.SO_RCVBUF, 16384)
        peer.asked({"code": f"(def text {text})", "id": "0", "op": "eval"})
        for it in ids:
            peer.send(encoded({"code": "text", "id": it, "op": "eval"}))
        for it in ids:
            time.sleep(0.05)
            expect(values(peer.replies({"id": it})), [text])


def sends_garbage(address, chance):
    """sent what is no message"""
    with Connection(address) as peer:
        if chance.random() < 0.5:
            answers(peer)
        peer.send(chance.choice(GARBAGE))
        expect(peer.read(), MALFORMED)


def leaves_unanswered(address, chance):
    """left before they were answered"""
    with Connection(address) as peer:
        peer.send(REQUEST * chance.randrange(1, 50))
        if chance.random() < 0.5:
            reset(peer)


def leaves_actions(address, chance):
    """left while their actions waited"""
    with Connection(address) as peer:
        code = "(def a (agent 0)) " + "(send a inc) " * chance.randrange(1, 200)
        peer.send(encoded({"code": code, "id": "0", "op": "eval"}))
        time.sleep(chance.uniform(0, 0.01))
        reset(peer)


def closes_at_once(address, _):
    """closed at once"""
    with Connection(address):
        pass


HOSTILE = (
    closes_inside,
    waits_inside,
    reads_slowly,
    sends_garbage,
    leaves_unanswered,
    leaves_actions,
    closes_at_once,
)
GOOD = well_behaved, sends_and_awaits
KINDS = *GOOD, *HOSTILE


def kind_of(number):
    kinds = HOSTILE if number % 2 else GOOD
    return kinds[number // 2 % len(kinds)]


def inside(chance):
    """A place inside the request."""
    return chance.randrange(1, len(REQUEST))


if __name__ == "__main__":
    sys.exit(main(sys.argv[1:]))

#!/usr/bin/env python3
"""Shows that an account is told the same whoever else acts. Three accounts each walk through the protocol, one event
after another, with nobody else there; then their events run together in several orders, and each account's replies must
be byte for byte those that it got alone. Then one adds another as a reviewer: the reviewer's replies must be those of
the run of its own events and of the one that added it. Over files the same goes for a reviewer that an earlier run has
added: each run begins with a copy of the file that this one has left. And each
action that an account asks for by another's numbers, by such that nobody has and by its own gets the same bytes whether
the other's rows are there or not, and never 503.

    accounts-apart.py COMMAND..
    accounts-apart.py --file PROGRAM KEYS SHIM

COMMAND runs the server in script mode under a token key and a seed of zeros, or such keys are in KEYS, under which
PROGRAM serves a file of its own for each run. SHIM, the library of set_clock.c, shows it the moment of each request."""
import contextlib
import hashlib
import json
import os
import shutil
import subprocess
import sys
import tempfile

from laboratory import Piped, Served, request, shown, signed
from validation import answers, one_time_code

MOMENT = 1000000000
REGISTRATION = {"algorithms": [{"algorithm": "SHA2-256", "messageLength": [8], "revision": "1.0"},
                               {"algorithm": "HMAC-SHA2-256", "keyLen": [64], "macLen": [128], "revision": "1.0"}]}
def secret_of(account):
    return hashlib.sha256(b"%d" % account).digest()


def token_of(account, session=None):
    claims = {"sub": str(account), "iat": MOMENT, "exp": MOMENT + 1800}
    return signed(claims if session is None else {**claims, "sid": session})


@contextlib.contextmanager
def server(command, start=None):
    """A server without a record, or over a copy of the folder that an earlier run has left."""
    if command[0] != "--file":
        running = Piped(command)
        yield running
        running.end()
        return
    program, keys, shim = command[1:]
    with tempfile.TemporaryDirectory() as folder:
        file = os.path.join(folder, "laboratory.db")
        if start is None:
            subprocess.run([program, "init", "--db", file], check=True, stdout=subprocess.DEVNULL)
        else:
            shutil.copytree(start, folder, dirs_exist_ok=True)
        running = Served(program, file, keys, shim)
        try:
            yield running
        finally:
            running.end()


def each_told(running, events):
    return [running.ask_at(MOMENT, it) if isinstance(it, bytes) else running.order(it) for _, it in events]


@contextlib.contextmanager
def left_by(command, events):
    """The folder that a run of events leaves, each of which must be done: the file and what lies beside it."""
    with tempfile.TemporaryDirectory() as folder:
        with server(command) as running:
            for told in each_told(running, events):
                assert told == "order done" or shown(told)[0] == 200, told
            running.end()
            shutil.copytree(os.path.dirname(running.file), folder, dirs_exist_ok=True,
                            ignore=shutil.ignore_patterns("*-orders"))
        yield folder


def replies(command, events, start=None):
    """The answers to events, in one run: of a request the bytes of its reply, of an order its line."""
    if command[0] == "--file":
        with server(command, start) as running:
            return each_told(running, events)
    text = b"".join(b"request %d %d\n%s\n" % (MOMENT, len(it), it) if isinstance(it, bytes) else it.encode() + b"\n"
                    for _, it in events)
    output = subprocess.run(command, input=text, stdout=subprocess.PIPE, check=True).stdout
    told = []
    for _ in events:
        line, _, output = output.partition(b"\n")
        if line.startswith(b"reply "):
            size = int(line.split(b" ")[1])
            told.append(output[:size])
            output = output[size + 1:]
        else:
            told.append(line.decode())
    assert not output, output
    return told


class Walk:
    """An account's walk, alone: it asks one thing after another, and keeps what it asked with what it was told."""

    def __init__(self, server, account, others=()):
        self.account, self.server, self.events, self.told = account, server, [], []
        self.account_token = token_of(account)
        # the accounts that there are in each run
        for other in sorted({account, *others}):
            self.order(f"account-add 0 {other} {secret_of(other).hex()}")

    def order(self, text):
        self.events.append((None, text))
        self.told.append(self.server.order(text))
        return self.told[-1]

    def ask(self, method, path, thing=None, token=None):
        text = request(method, path, token, thing)
        self.told.append(self.server.ask_at(MOMENT, text))
        self.events.append((self.account, text))
        return shown(self.told[-1])

    def does(self, *asked, **named):
        status, thing = self.ask(*asked, **named)
        assert status == 200, (self.account, asked, status, thing)
        return thing

    def walk(self):
        token, first = self.account_token, self.account * 1000000 + 1
        code = {"password": one_time_code(secret_of(self.account), MOMENT), "user": str(self.account)}
        assert self.does("POST", "/login", code)["accessToken"] == token
        assert self.ask("POST", "/login", code)[0] == 403
        for session in (first, first + 1):
            self.does("POST", "/testSessions", REGISTRATION, token)
            bound = token_of(self.account, session)
            for place in (1, 2):
                path = f"/testSessions/{session}/vectorSets/{session}{place:02}"
                right = answers(self.does("GET", path, token=bound))
                if session != first and place == 2:
                    right["testGroups"][0]["tests"].pop()
                self.does("POST", path + "/results", right, bound)
                self.does("GET", path + "/results", token=bound)
            self.does("GET", f"/testSessions/{session}/results", token=bound)
        for name in ("one", "two"):
            url = self.does("POST", "/vendors", {"name": f"{name} of {self.account}"}, token)["url"]
            self.order(f"request-approve 0 {url.rsplit('/', 1)[1]}")
        self.does("POST", "/oes", {"name": "e"}, token)
        for path in ("/testSessions?limit=1", "/testSessions?offset=1", "/vendors", "/requests?limit=2", "/account", f"/vendors/{first}"):
            self.does("GET", path, token=token)
        # what is another account's, and what isn't there
        for path in ("/vendors/9000001", "/vendors/7000001", "/vendors/1000001", "/requests/9000001", "/requests/7000001"):
            self.ask("GET", path, token=token)
        for session in (7000001, 9000001, 11000001):
            self.ask("GET", f"/testSessions/{session}", token=token_of(self.account, session))
            self.ask("GET", f"/testSessions/{first}/vectorSets/{session}01", token=token_of(self.account, first))
            self.ask("GET", f"/testSessions/{session}/results", token=token)
        self.does("DELETE", f"/testSessions/{first + 1}", token=token_of(self.account, first + 1))


def walked(command, account, others=(), start=None):
    """The walk of an account that is alone."""
    with server(command, start) as running:
        walk = Walk(running, account, others)
        walk.walk()
        return walk


def in_turn(walks, sizes):
    """The events of walks, by turns of so many, each in its order."""
    left = [list(walk.events) for walk in walks]
    merged = []
    while any(left):
        for events, size in zip(left, sizes):
            merged += events[:size]
            del events[:size]
    return merged


def of(account, events, told):
    return [reply for (who, _), reply in zip(events, told) if who == account]


def only(accounts, events):
    return [event for event in events if event[0] is None or event[0] in accounts]


def same(what, account, events, command, wanted, start=None):
    got = of(account, events, replies(command, events, start))
    for place, (one, other) in enumerate(zip(got, wanted)):
        assert one == other, f"{what}, account {account}, reply {place}: {one!r} in place of {other!r}"
    assert len(got) == len(wanted), what


def three_accounts(command):
    walks = [walked(command, account) for account in (7, 9, 11)]
    for sizes in ((1, 1, 1), (3, 7, 2), (1000, 1, 1000)):
        for order in (walks, walks[::-1]):
            together = in_turn(order, sizes)
            for walk in walks:
                alone = of(walk.account, walk.events, walk.told)
                same(f"together by {sizes}", walk.account, together, command, alone)
                same("with all orders", walk.account, only({walk.account}, together), command, alone)
        print(f"{len(together)} events of three accounts, by turns of {sizes}: each is told what it is told alone")
    # without its own approvals an account is told something else, so the comparison can fail
    first = walks[0]
    without = [event for event in together if event[1] not in ("request-approve 0 7000001", "request-approve 0 7000002")]
    assert of(7, without, replies(command, without)) != of(7, first.events, first.told)


SET_OF = "/testSessions/7000001/vectorSets/70000010"
WRONG = {"testGroups": [], "vsId": 700000101}
ADDS_NINE = ("POST", "/testSessions/7000001/reviewers", {"account": 9})
REMOVES_NINE = ("DELETE", "/testSessions/7000001/reviewers/9", None)


def of_seven(method, path, thing):
    """A request of account 7 on its first session."""
    return 7, request(method, path, token_of(7, 7000001), thing)


def looked_at_between(*changes):
    """Changes of account 7 to its first session, whose results accounts 9 and 11 ask for before, between and after."""
    paths = ["/testSessions/7000001/results", f"{SET_OF}1/results", f"{SET_OF}2/results"]
    looks = [(account, request("GET", path, token_of(account))) for account in (9, 11) for path in paths]
    return looks + [event for change in changes for event in [of_seven(*change)] + looks]


def are_apart(what, command, events, start=None):
    """The answers to events of account 7, of its reviewer 9 and of account 11. Each account is told the same without
    what the others do, but for the reviewer, who isn't told the same without what account 7 does."""
    told = replies(command, events, start)
    for account, within in ((9, {7, 9}), (7, {7}), (11, {11})):
        same(what, account, only(within, events), command, of(account, events, told), start)
    # so the comparison can fail
    without = only({9}, events)
    assert of(9, without, replies(command, without, start)) != of(9, events, told)
    return told


def a_reviewer(command):
    adds, reviews, looks_on = walked(command, 7, (9, 11)), walked(command, 9, (7, 11)), walked(command, 11, (7, 9))
    # the one adds the other as a reviewer, answers a set anew, cancels the other set, and takes the reviewer away again;
    # and the other asks before, between and after
    events = in_turn((adds, reviews, looks_on), (5, 2, 3))
    submits_anew, cancels = ("PUT", f"{SET_OF}1/results", WRONG), ("DELETE", f"{SET_OF}2", None)
    events += looked_at_between(ADDS_NINE, submits_anew, cancels, REMOVES_NINE)
    told = are_apart("with a reviewer", command, events)
    looks = [shown(reply) for reply in of(9, events, told)[-15:]]
    statuses = [status for status, _ in looks]
    assert statuses == [403] * 3 + [200] * 8 + [409] + [403] * 3, statuses
    assert len({json.dumps(thing) for _, thing in (looks[3], looks[6], looks[9])}) == 3, looks
    assert [shown(reply)[0] for reply in of(7, events, told)[-4:]] == [200] * 4
    print(f"{len(events)} events with a reviewer: it is told what its own events and those of who adds it tell")


def a_reviewer_from_the_start(command):
    """Over files alone: no other run begins with what an earlier one has left."""
    before = [(None, f"account-add 0 {account} {secret_of(account).hex()}") for account in (7, 9, 11)]
    before += [(7, request("POST", "/testSessions", token_of(7), REGISTRATION)), of_seven(*ADDS_NINE)]
    with left_by(command, before) as start:
        walks = [walked(command, account, (7, 9, 11), start) for account in (9, 11)]
        # the one answers a set, cancels the other, and takes the reviewer away, who asks before, between and after
        events = looked_at_between(("POST", f"{SET_OF}1/results", WRONG), ("DELETE", f"{SET_OF}2", None))
        events += in_turn(walks, (2, 3)) + looked_at_between(REMOVES_NINE)
        told = are_apart("with a reviewer from the start", command, events, start)
    of_nine = of(9, events, told)
    statuses = [shown(reply)[0] for reply in of_nine[:9] + of_nine[-6:]]
    assert statuses == [200] * 8 + [409] + [200] * 2 + [409] + [403] * 3, statuses
    assert len({json.dumps(shown(of_nine[place])[1]) for place in (0, 3, 6)}) == 3, of_nine[:9]
    assert [shown(reply)[0] for reply in of(7, events, told)] == [200] * 3
    print(f"{len(events)} events with a reviewer from the start: it is told what its own events and account 7's tell")


SAMPLE = {**REGISTRATION, "isSample": True}
KINDS = {"vendors": {"name": "n"}, "modules": {"name": "n", "vendorUrl": None}, "oes": {"name": "n"}}


def rows_of_seven():
    """Account 7 makes more of everything than one: sessions, samples, answers, reviewers, requests and objects."""
    token, first, events = token_of(7), 7000001, []

    def does(*asked):
        events.append((7, request(asked[0], asked[1], asked[3] if len(asked) > 3 else token, asked[2])))
    for session in range(first, first + 5):
        does("POST", "/testSessions", SAMPLE if session == first + 1 else REGISTRATION)
        path, bound = f"/testSessions/{session}", token_of(7, session)
        does("POST", f"{path}/vectorSets/{session}01/results", {"testGroups": [], "vsId": session * 100 + 1}, bound)
        does("POST", f"{path}/reviewers", {"account": 11}, bound)
    for kind, thing in KINDS.items():
        for number in range(2):
            does("POST", "/" + kind, {**thing, **({"vendorUrl": f"/acvp/v1/vendors/{first}"} if "vendorUrl" in thing else {})})
            events.append((None, f"request-approve 0 {first + list(KINDS).index(kind) * 2 + number}"))
    return events


def asks_on_session(number, token):
    """Each action on a session and its vector sets."""
    path, thing = f"/testSessions/{number}", {"testGroups": [], "vsId": number * 100 + 1}
    parts = {"moduleUrl": "/acvp/v1/modules/7000001", "oeUrl": "/acvp/v1/oes/7000001"}
    asked = [("GET", path, None), ("PUT", path, parts), ("DELETE", path, None), ("GET", path + "/results", None),
             ("GET", path + "/vectorSets", None), ("GET", path + "/reviewers", None), ("POST", path + "/reviewers", {"account": 9}),
             ("DELETE", path + "/reviewers/11", None)]
    for vector_set in (number * 100 + 1, number * 100 + 9):
        of_set = f"{path}/vectorSets/{vector_set}"
        asked += [("GET", of_set, None), ("GET", of_set + "/results", None), ("GET", of_set + "/expected", None),
                  ("POST", of_set + "/results", thing), ("PUT", of_set + "/results", thing), ("DELETE", of_set, None)]
    return [(9, request(method, where, token, thing)) for method, where, thing in asked]


def asks_of_nine():
    """What account 9 asks for: by account 7's numbers, by such that nobody has, and by its own."""
    token, own, events = token_of(9), 9000001, []
    bound = token_of(9, own)
    events.append((9, request("POST", "/testSessions", token, SAMPLE)))
    for number in (*range(7000001, 7000006), 7000009, 9000009, 11000001, 1, 9999999999, own):
        for by in (token, token_of(9, number), bound):
            # on its own session it acts last of all, since that is accepted
            if number != own or by == token:
                events += asks_on_session(number, by)
    for foreign in (7000001, 7000002, 7000009, 9000009):
        of_set = f"/testSessions/{own}/vectorSets/{foreign}01"
        events += [(9, request("GET", of_set + more, bound)) for more in ("", "/results", "/expected")]
        events += [(9, request(method, of_set + "/results", bound, {"testGroups": [], "vsId": foreign * 100 + 1}))
                   for method in ("POST", "PUT")]
        events.append((9, request("DELETE", of_set, bound)))
    for kind in (*KINDS, "requests", "algorithms"):
        for number in (*range(7000001, 7000008), 7000099, 9000001, 9000099, 1, 13, 9999999999):
            events.append((9, request("GET", f"/{kind}/{number}", token)))
        events += [(9, request("GET", f"/{kind}{page}", token)) for page in ("", "?limit=1", "?offset=3&limit=2")]
    for number in (7000001, 7000002, 7000099, 9000099):
        events.append((9, request("POST", "/modules", token, {"name": "m", "vendorUrl": f"/acvp/v1/vendors/{number}"})))
    events += [(9, request("GET", path, token)) for path in ("/account", "/testSessions", "/testSessions?limit=2")]
    # long ones, of each part of a request
    events.append((9, request("POST", "/vendors", token, {"name": "n" * 20000})))
    events.append((9, request("GET", "/account", token).replace(b"Host: ", b"A: " + b"a" * 9000 + b"\r\nHost: ")))
    events.append((9, request("GET", "/testSessions?limit=" + "0" * 4000 + "7", token)))
    return events + asks_on_session(own, bound)


def by_any_number(command):
    add = [(None, f"account-add 0 {account} {secret_of(account).hex()}") for account in (7, 9, 11)]
    theirs, asked = rows_of_seven(), asks_of_nine()
    made = replies(command, add + theirs)[len(add):]
    for reply in made:
        assert reply == "order done" or shown(reply)[0] == 200, reply
    alone = replies(command, add + asked)[len(add):]
    beside = replies(command, add + theirs + asked)[len(add) + len(theirs):]
    after = replies(command, add + asked + theirs)[len(add):len(add) + len(asked)]
    statuses = {}
    for (_, text), one, other, third in zip(asked, alone, beside, after, strict=True):
        assert one == other == third, f"{text!r}: {one!r} alone, {other!r} beside the rows of account 7, {third!r} before"
        status, thing = shown(one)
        statuses[status] = statuses.get(status, 0) + 1
        assert status != 503, f"{text!r}: {thing}"
        if b"/testSessions/9000001/vectorSets/70" in text:
            assert (status, thing) == (404, {"error": "noResource"}), f"{text!r}: {status} {thing}"
    assert {200, 400, 403, 404, 409} <= set(statuses), statuses
    told = ", ".join(f"{count} of {status}" for status, count in sorted(statuses.items()))
    print(f"{len(asked)} requests by any numbers: {told}; the same bytes whether account 7 has rows or not")


def main():
    three_accounts(sys.argv[1:])
    a_reviewer(sys.argv[1:])
    if sys.argv[1] == "--file":
        a_reviewer_from_the_start(sys.argv[1:])
    by_any_number(sys.argv[1:])


main()

#!/usr/bin/env python3
"""Damages one column of one row at a time, so that the row stands for nothing, and shows what that does: each request
and each order that rests on the row is unavailable and writes nothing, and each other one is answered, byte for byte,
and leaves the rows as over the file without the damage, where what is unavailable isn't asked. The damage itself stays.
A row under another key is another row, so no key is damaged but a reviewer's account, which lists of reviewers read.
What a waiting certification names, and its session and vector set, are also changed to what no run leaves: then its
approval is unavailable.

The file has a validation of each of two accounts, made by the program: vendors, a module and an environment; sessions
that are certified, wait for it, are open, a sample, cancelled, and ready to be certified; vector sets that passed,
failed, miss an answer, have none and are cancelled; requests that are approved, rejected and waiting; reviewers.

    damaged-rows.py PROGRAM SHIM

PROGRAM is the built program, and SHIM the library of set_clock.c, which shows it one moment."""
import collections
import json
import os
import shutil
import sys
import tempfile

import laboratory
import page_sums
from laboratory import Laboratory, compact, expect, free_port, request, shown, signed
from validation import HASHES, answers

MOMENT, END_OF_MOMENTS = 1000000000, 4102444800
HASHES["SHA2-512"] = "sha512"
SHORT = {"algorithm": "SHA2-256", "messageLength": [8, 64], "revision": "1.0"}
LONG = {"algorithm": "SHA2-512", "messageLength": [16], "revision": "1.0"}
KEYED = {"algorithm": "HMAC-SHA2-256", "keyLen": [64], "macLen": [128], "revision": "1.0"}

# ---- what there is of each of the two accounts; numbers are the last digits of those in the file

ACCOUNTS, REVIEWER, SILENT, STRANGER, NEW_REVIEWER = (7, 8), 9, 12, 21, 14
CERTIFIED, WAITING, OPEN, SAMPLE, CANCELLED, READY = SESSIONS = range(1, 7)
# The vector sets of each session, in their order: what is tested, and how its answers stand.
SETS = {CERTIFIED: [(SHORT, "passed"), (KEYED, "passed"), (LONG, "cancelled")], WAITING: [(SHORT, "passed")],
        OPEN: [(SHORT, "passed"), (LONG, "failed"), (SHORT, "missing"), (KEYED, "unanswered"), (KEYED, "cancelled")],
        SAMPLE: [(SHORT, "passed")], CANCELLED: [(SHORT, "unanswered")], READY: [(LONG, "passed")]}
REVIEWERS = {CERTIFIED: [REVIEWER], OPEN: [REVIEWER, SILENT]}
VENDOR, MODULE, ENVIRONMENT, CERTIFICATION = 1, 2, 3, 4
NAMES = {VENDOR: "vendors", MODULE: "modules", ENVIRONMENT: "oes"}
OBJECTS = {VENDOR: [1, 2], MODULE: [1], ENVIRONMENT: [1]}
# The kind of each request: those of 1 to 5 are approved, 6 and 9 rejected, the others wait.
REQUESTS = {1: VENDOR, 2: VENDOR, 3: ENVIRONMENT, 4: MODULE, 5: CERTIFICATION, 6: CERTIFICATION, 7: CERTIFICATION,
            8: VENDOR, 9: MODULE, 10: MODULE, 11: ENVIRONMENT}
LAST_CERTIFICATION = {CERTIFIED: 5, WAITING: 7}

# ---- what is read of the rows: whatever rests on a column is unavailable where that column is damaged

KEYS = {"meta": ["name"], "account": ["account"], "session": ["session"], "vset2": ["vs"], "object": ["kind", "number"],
        "request": ["request"], "reviewer": ["session", "account"]}


def columns(table, key, names):
    return {(table, key, name) for name in names.split()}


def of_account(account):
    return columns("account", account, "secret enabled last_step")


def of_session(session):
    """A session's row, and what was decided on its last certification request."""
    rests = columns("session", session, "account sample cancelled created certify live passed")
    request_of = LAST_CERTIFICATION.get(session % 1000000)
    return rests | of_decision(session // 1000000 * 1000000 + request_of) if request_of else rests


def of_shown_moment(session):
    """That the session's creation is a moment which is served: of what shows it, or what it comes to."""
    return {("session", session, "created: served")}


def of_listed_set(number):
    """How a vector set of a list stands. Of its answers it is read whether there are any, and never the text."""
    return columns("vset2", number, "session cancelled disposition verdicts epoch answers")


def of_set(number):
    """How a vector set stands that is read by its number, which judges the text of its answers too."""
    return of_listed_set(number) | {("vset2", number, "answers: text")}


def of_capability(number):
    return columns("vset2", number, "capability")


def of_sets(session):
    """The list of a session's vector sets, which passes over those that are cancelled."""
    rests = set()
    for number, _, state in sets_of(session):
        rests |= columns("vset2", number, "cancelled") if state == "cancelled" else of_listed_set(number)
    return rests


def of_judged_sets(session):
    """A session's vector sets that a certification rests on: each that isn't cancelled is read whole."""
    return of_sets(session).union(*[of_set(number) | of_capability(number) for number, _, state in sets_of(session)
                                    if state != "cancelled"])


def of_owner(kind, number):
    return columns("object", (kind, number), "account")


def of_object(kind, number):
    return columns("object", (kind, number), "account body")


def of_decision(number):
    return columns("request", number, "status approved")


def of_listed(number):
    """A request in a page, which shows no body of a registration."""
    rests = columns("request", number, "account kind status approved")
    return rests | columns("request", number, "body") if REQUESTS[number % 1000000] == CERTIFICATION else rests


def of_request(number):
    """A request by itself, whose body is of its kind."""
    return columns("request", number, "account kind status approved body") | {("request", number, "kind: of the body")}


def of_reviewers(session):
    return {("reviewer", (session, account), "account") for account in REVIEWERS.get(session % 1000000, [])}


def sets_of(session):
    """The number, the capability and the state of each vector set of a session."""
    return [(session * 100 + place, *each) for place, each in enumerate(SETS[session % 1000000], 1)]


# ---- what is asked

# A request's bytes, or the words of a command; what it rests on; and the status or the fault that it comes to over the
# file without damage.
Event = collections.namedtuple("Event", "name asked rests comes_to")


def token_of(account, session=None):
    claims = {"sub": str(account), "iat": MOMENT, "exp": MOMENT + 1800}
    return signed(claims if session is None else {**claims, "sid": session})


class Account:
    """What an account asks, with the right answers to its vector sets, and what the operator orders of it."""

    def __init__(self, lab, number, right):
        self.lab, self.number, self.first, self.right = lab, number, number * 1000000, right
        self.other = (sum(ACCOUNTS) - number) * 1000000

    def asks(self, rests, method, path, thing=None, session=None, comes_to=200, by=None):
        by = by or self.number
        name = f"{method} {path} by {by}" + (f" of session {session}" if session else f" of {thing}" if thing else "")
        text = request(method, path, token_of(by, session), thing)
        return Event(name, text, rests | of_account(by), comes_to)

    def url(self, kind, number):
        return f"/acvp/v1/{NAMES[kind]}/{self.first + number}"

    def parts(self):
        return {"moduleUrl": self.url(MODULE, 1), "oeUrl": self.url(ENVIRONMENT, 1)}

    def of_certified(self, session):
        """What a certification of a session rests on, beside the session's own row."""
        return of_judged_sets(session) | of_object(MODULE, self.first + 1) | of_object(ENVIRONMENT, self.first + 1)

    # ---- what changes nothing

    def reads(self, places=SESSIONS):
        """All that is read, and changes that are refused; of these of the account's sessions."""
        lists = [self.sessions(), *map(self.session, places), self.sets_that_are_none(), self.reviews(),
                 self.objects(), self.requests(), self.refused()]
        return [event for events in lists for event in events]

    def sessions(self):
        all_of, two_of = (set().union(*[of_session(self.first + place) | of_shown_moment(self.first + place)
                                        for place in places]) for places in (SESSIONS, (OPEN, SAMPLE)))
        return [Event(f"GET /account without a token, {self.number}", request("GET", "/account"), set(), 401),
                self.asks(set(), "GET", "/account"), self.asks(set(), "GET", "/algorithms/2"),
                self.asks(all_of, "GET", "/testSessions"),
                self.asks(two_of, "GET", f"/testSessions?offset={OPEN - 1}&limit=2"),
                self.asks(set(), "GET", "/testSessions?limit=0", comes_to=400)]

    def session(self, place):
        number = self.first + place
        path, row = f"/testSessions/{number}", of_session(number)
        is_cancelled, is_shown = place == CANCELLED, of_shown_moment(number)
        events = [self.asks(row | is_shown | of_sets(number), "GET", path, session=number),
                  self.asks(row | of_sets(number), "GET", path + "/vectorSets", session=number),
                  self.asks(row | of_sets(number) | (set() if is_cancelled else is_shown), "GET", path + "/results",
                            session=number, comes_to=409 if is_cancelled else 200),
                  self.asks(row | of_reviewers(number), "GET", path + "/reviewers", session=number),
                  self.asks(set(), "GET", path, comes_to=403)]
        for vector_set, _, state in sets_of(number):
            is_refused = is_cancelled or state == "cancelled"
            each = {"session": number, "comes_to": 409 if is_refused else 200}
            at, rests = f"{path}/vectorSets/{vector_set}", row | of_set(vector_set)
            events.append(self.asks(rests | of_capability(vector_set), "GET", at, **each))
            # without verdicts the tests are listed as the capability makes them
            is_listed = of_capability(vector_set) if state == "unanswered" else set()
            results = rests | is_listed | (set() if is_refused else is_shown)
            events.append(self.asks(results, "GET", at + "/results", **each))
        return events

    def sets_that_are_none(self):
        """Vector sets of another session, and numbers without one: neither reads a vector set."""
        number = self.first + OPEN
        path, each = f"/testSessions/{number}/vectorSets", {"session": number, "comes_to": 404}
        return [self.asks(set(), "GET", f"{path}/{self.first + CERTIFIED}01", **each),
                self.asks(set(), "GET", f"{path}/{self.other + OPEN}01", **each),
                self.asks(set(), "GET", f"{path}/{self.other + OPEN}01/results", **each),
                self.asks(of_session(number), "GET", f"{path}/{number}99", **each)]

    def reviews(self):
        """What a reviewer reads, and an account that is none."""
        events = []
        for place in (CERTIFIED, OPEN):
            number = self.first + place
            path, rests = f"/testSessions/{number}", of_session(number) | of_shown_moment(number)
            events.append(self.asks(rests | of_sets(number), "GET", path + "/results", by=REVIEWER))
            events.append(self.asks(set(), "GET", path + "/results", by=STRANGER, comes_to=403))
            for vector_set, _, state in sets_of(number):
                if state in ("passed", "unanswered"):
                    is_listed = of_capability(vector_set) if state == "unanswered" else set()
                    events.append(self.asks(rests | of_set(vector_set) | is_listed, "GET",
                                            f"{path}/vectorSets/{vector_set}/results", by=REVIEWER))
        return events

    def objects(self):
        events = []
        for kind, numbers in OBJECTS.items():
            all_of = set().union(*[of_object(kind, self.first + number) for number in numbers])
            events.append(self.asks(all_of, "GET", f"/{NAMES[kind]}"))
            for number in numbers:
                rests, path = of_object(kind, self.first + number), f"/{NAMES[kind]}/{self.first + number}"
                events.append(self.asks(rests, "GET", path))
            events.append(self.asks(set(), "GET", f"/{NAMES[kind]}/{self.other + 1}", comes_to=404))
        return events

    def requests(self):
        numbers = [self.first + number for number in REQUESTS]
        all_of, two_of = (set().union(*map(of_listed, some)) for some in (numbers, numbers[4:6]))
        return [self.asks(all_of, "GET", "/requests"), self.asks(two_of, "GET", "/requests?offset=4&limit=2"),
                self.asks(set(), "GET", f"/requests/{self.other + 1}", comes_to=404),
                *[self.asks(of_request(number), "GET", f"/requests/{number}") for number in numbers]]

    def refused(self):
        """Changes that are refused, after what they rest on is read."""
        frozen, number, sample = (self.first + place for place in (CERTIFIED, OPEN, SAMPLE))
        at, of_open, of_frozen = f"/testSessions/{number}/vectorSets", of_session(number), of_session(frozen)
        first, unanswered, cancelled = (number * 100 + place for place in (1, 4, 5))
        right, of_others = self.right[first], f"/acvp/v1/vendors/{self.other + 1}"
        of_first, of_unanswered, of_sample = (of_set(each) | of_capability(each)
                                              for each in (first, unanswered, sample * 100 + 1))
        return [
            self.asks(of_open | of_first, "POST", f"{at}/{first}/results", right, number, 409),
            self.asks(of_open | of_unanswered, "PUT", f"{at}/{unanswered}/results", right, number, 409),
            self.asks(of_open | of_set(cancelled), "POST", f"{at}/{cancelled}/results", right, number, 409),
            self.asks(of_open | of_first, "GET", f"{at}/{first}/expected", None, number, 403),
            self.asks(of_session(sample) | of_sample, "GET", f"/testSessions/{sample}/vectorSets/{sample}01/expected",
                      None, sample),
            self.asks(of_frozen | self.of_certified(frozen), "PUT", f"/testSessions/{frozen}", self.parts(), frozen,
                      409),
            self.asks(of_frozen, "DELETE", f"/testSessions/{frozen}", None, frozen, 409),
            self.asks(of_frozen | of_set(frozen * 100 + 1) | of_sets(frozen), "DELETE",
                      f"/testSessions/{frozen}/vectorSets/{frozen}01", None, frozen, 409),
            # who is no reviewer is looked for before the session's row is
            self.asks(of_reviewers(number), "DELETE", f"/testSessions/{number}/reviewers/{NEW_REVIEWER}", None, number,
                      404),
            self.asks(set(), "POST", "/modules", {"name": "M", "vendorUrl": of_others}, None, 400),
            self.asks(set(), "POST", "/modules", {"vendorUrl": self.url(VENDOR, 1)}, None, 400)]

    # ---- what changes rows

    def login(self):
        password = self.lab.code(self.number, MOMENT)
        text = request("POST", "/login", thing={"password": password, "user": str(self.number)})
        return Event(f"POST /login by {self.number}", text, of_account(self.number), 200)

    def changes(self):
        number, ready, sample = (self.first + place for place in (OPEN, READY, SAMPLE))
        path, of_open = f"/testSessions/{number}", of_session(number)
        failed, missing, unanswered = (number * 100 + place for place in (2, 3, 4))
        return [
            self.login(), self.asks(set(), "POST", "/testSessions", {"algorithms": [SHORT]}),
            self.asks(set(), "POST", "/vendors", {"name": "More"}),
            self.asks(of_owner(VENDOR, self.first + 1), "POST", "/modules",
                      {"name": "More", "vendorUrl": self.url(VENDOR, 1)}),
            self.asks(of_session(ready) | self.of_certified(ready), "PUT", f"/testSessions/{ready}", self.parts(),
                      ready),
            self.asks(of_open | of_set(unanswered) | of_capability(unanswered), "POST",
                      f"{path}/vectorSets/{unanswered}/results", self.right[unanswered], number),
            self.asks(of_open | of_set(failed) | of_capability(failed), "PUT", f"{path}/vectorSets/{failed}/results",
                      self.right[failed], number),
            self.asks(of_open | of_set(missing) | of_sets(number), "DELETE", f"{path}/vectorSets/{missing}", None,
                      number),
            self.asks(of_open | of_reviewers(number), "POST", f"{path}/reviewers", {"account": NEW_REVIEWER}, number),
            self.asks(of_open | of_reviewers(number), "DELETE", f"{path}/reviewers/{REVIEWER}", None, number),
            self.asks(of_session(sample), "DELETE", f"/testSessions/{sample}", None, sample)]

    # ---- what the operator orders

    def order(self, word, number, comes_to="", rests=frozenset()):
        number += self.first
        return Event(f"request-{word} {number}", (f"request-{word}", "--request", str(number)),
                     rests | (of_request(number) if number - self.first in REQUESTS else set()), comes_to)

    def approves_certification(self):
        """The approval of a certification, which isn't given unless the records are as a run leaves them for it."""
        session, number = self.first + WAITING, LAST_CERTIFICATION[WAITING]
        named = {("request", self.first + number, "body: what it names")}
        return self.order("approve", number, rests=of_session(session) | self.of_certified(session) | named)

    def account_order(self, word, comes_to="", *more):
        return Event(f"account-{word} {self.number}", (f"account-{word}", "--account", str(self.number), *more),
                     of_account(self.number), comes_to)

    def orders(self):
        secret = self.lab.path(f"secret-{self.number}")
        return [self.order("approve", 8), self.order("reject", 10), self.order("approve", 11),
                self.approves_certification(), self.order("approve", 1, "notInitial"),
                self.order("reject", 6, "notInitial"), self.order("reject", 999, "unknown"),
                self.account_order("add", "taken", "--secret", secret), self.account_order("disable")]


# ---- the file without damage


def wrong_answers(right):
    wrong = json.loads(json.dumps(right))
    wrong["testGroups"][0]["tests"][0].update({"md": "00"})
    return wrong


def without_one(right):
    some = json.loads(json.dumps(right))
    some["testGroups"][0]["tests"].pop()
    return some


class Maker:
    """Makes what there is of an account, through the program that is being served."""

    def __init__(self, lab, number):
        self.lab, self.number, self.first, self.right = lab, number, number * 1000000, {}

    def must(self, method, path, thing=None, session=None):
        return self.lab.must(method, path, token_of(self.number, session), thing)

    def begin(self):
        status, _ = self.lab.login(self.number, self.lab.code(self.number, MOMENT - laboratory.STEP))
        expect("a login by the code of the step before", status, 200)
        for name in ("One", "Two"):
            self.must("POST", "/vendors", {"name": name})
        self.must("POST", "/oes", {"name": "Environment"})
        for place in SESSIONS:
            self.session(self.first + place, place)

    def session(self, number, place):
        capabilities = [capability for capability, _ in SETS[place]]
        made = self.must("POST", "/testSessions", {"algorithms": capabilities, "isSample": place == SAMPLE})
        path = f"/testSessions/{number}"
        expect("a new session", made["url"], f"/acvp/v1{path}")
        for vector_set, _, state in sets_of(number):
            at = f"{path}/vectorSets/{vector_set}"
            right = self.right[vector_set] = answers(self.must("GET", at, None, number))
            given = {"failed": wrong_answers, "missing": without_one}.get(state, dict)(right)
            if state != "unanswered":
                self.must("POST", at + "/results", given, number)
            if state == "cancelled":
                self.must("DELETE", at, None, number)
        for account in REVIEWERS.get(place, []):
            self.must("POST", path + "/reviewers", {"account": account}, number)
        if place == CANCELLED:
            self.must("DELETE", path, None, number)

    def module(self):
        self.must("POST", "/modules", {"name": "Module", "vendorUrl": f"/acvp/v1/vendors/{self.first + 1}"})

    def certify(self, place):
        parts = {"moduleUrl": f"/acvp/v1/modules/{self.first + 1}", "oeUrl": f"/acvp/v1/oes/{self.first + 1}"}
        self.must("PUT", f"/testSessions/{self.first + place}", parts, self.first + place)

    def certifications(self):
        self.certify(CERTIFIED)
        self.certify(WAITING)

    def wait(self):
        self.certify(WAITING)
        self.must("POST", "/vendors", {"name": "Waiting"})
        self.module()
        self.module()
        self.must("POST", "/oes", {"name": "Waiting"})


def whole_file(lab):
    """Makes the file, and gives what each account has to ask."""
    lab.does("ready", "init", "--db", lab.db)
    for account in (*ACCOUNTS, REVIEWER, STRANGER):
        lab.add(account)
    makers = [Maker(lab, number) for number in ACCOUNTS]
    steps = [(Maker.begin, ["approve 1", "approve 2", "approve 3"]), (Maker.module, ["approve 4"]),
             (Maker.certifications, ["approve 5", "reject 6"]), (Maker.wait, ["reject 9"])]
    for does, orders in steps:
        lab.serve()
        for maker in makers:
            does(maker)
        lab.kill()
        for maker in makers:
            for word, number in map(str.split, orders):
                done = lab.run(f"request-{word}", "--db", lab.db, "--request", str(maker.first + int(number)))
                expect(f"request-{word} {number}", done[0], 0)
    return [Account(lab, maker.number, maker.right) for maker in makers]


# ---- rows


def opened(path):
    connection = page_sums.connect(path, isolation_level=None)
    connection.execute("PRAGMA synchronous = OFF")
    connection.execute("PRAGMA foreign_keys = OFF")
    return connection


def rows_of(path):
    """What each column of each row holds, by the table, the row's place in it and the column's name."""
    connection = opened(path)
    rows = {}
    for table in KEYS:
        found = connection.execute(f"SELECT rowid AS place, * FROM {table} ORDER BY rowid")
        names = [column[0] for column in found.description]
        for place, *values in found:
            rows.update({(table, place, name): value for name, value in zip(names[1:], values)})
    connection.close()
    return rows


# A column of a row, and what it is made to hold; under which name events rest on that, where it isn't the column's; and
# whether the column is said to be written anew.
Damage = collections.namedtuple("Damage", "table key column value read is_mended", defaults=(None, False))


def place_of(connection, damage):
    keys = damage.key if isinstance(damage.key, tuple) else (damage.key,)
    wanted = " AND ".join(f"{name} = ?" for name in KEYS[damage.table])
    (place,), = connection.execute(f"SELECT rowid FROM {damage.table} WHERE {wanted}", keys).fetchall()
    return place


def do_damage(path, damage):
    """Damages the file, and gives the place of the row."""
    connection = opened(path)
    place = place_of(connection, damage)
    statement = f"UPDATE {damage.table} SET {damage.column} = ? WHERE rowid = ? AND {damage.column} IS NOT ?"
    changed = connection.execute(statement, (damage.value, place, damage.value)).rowcount
    connection.close()
    expect(f"the rows that {damage} changes", changed, 1)
    return place


# ---- the damages


def damaged(table, key, **values):
    """Damages of the columns of a row, by the values that each is made to hold."""
    return [Damage(table, key, column, value) for column, some in values.items() for value in some]


def read_as(read, damages):
    return [damage._replace(read=read) for damage in damages]


NO_TEXTS = ("", "[", "{}", "[]", "null")
# Texts in which no answers are kept: what isn't JSON, JSON of another form, and other texts of the same JSON.
NO_ANSWERS = ("", "[", "[[1]]", '[[1,["00"]], [2,["00"]]]', '[[2,["00"]],[1,["00"]]]', '[[1,["\\u0030"]]]')
SETS_OF_SEVEN = 700000000


def of_accounts():
    return [*damaged("account", 7, secret=[b"", bytes(31), bytes(33)], enabled=[-1, 2, 3], last_step=[-1, -2**63]),
            *damaged("account", REVIEWER, enabled=[2], last_step=[-1])]


def of_sessions():
    number = 7000000 + OPEN
    return [*damaged("session", number, account=[-1, 65536], sample=[-1, 2, 3], cancelled=[-1, 2, 3], certify=[-1],
                     created=[-1, -2**63], live=[-1], passed=[-1]),
            *damaged("session", 7000000 + CERTIFIED, account=[65536], certify=[-1]),
            *damaged("session", 7000000 + WAITING, account=[65536], created=[-1], passed=[-1]),
            *damaged("session", 7000000 + SAMPLE, sample=[2]),
            *damaged("session", 7000000 + CANCELLED, cancelled=[2], live=[-1]),
            *damaged("session", 7000000 + READY, passed=[-1]),
            *read_as("created: served", damaged("session", number, created=[END_OF_MOMENTS, 2**63 - 1]))]


def of_how_sets_stand():
    passed, failed, missing, unanswered, cancelled = (SETS_OF_SEVEN + OPEN * 100 + place for place in range(1, 6))
    return [*damaged("vset2", passed, session=[-1], cancelled=[-1, 2, 3], epoch=[-1], answers=[None],
                     disposition=[-1, 0, 1, 3, 99, None], verdicts=["x", "px", "f", "pm", "PP", None]),
            *damaged("vset2", failed, disposition=[1, 2, None], verdicts=["", "p", "m", "fx", None]),
            *damaged("vset2", missing, disposition=[0, 2, 99], verdicts=["p", "mf", "x"], answers=[None]),
            *damaged("vset2", unanswered, disposition=[0, 2, 99], verdicts=["", "p", "x"], answers=["", "[]"],
                     epoch=[-1]),
            *damaged("vset2", cancelled, cancelled=[-1, 2], disposition=[0, 99], verdicts=["x"], epoch=[-1],
                     session=[-1], answers=[None]),
            *damaged("vset2", SETS_OF_SEVEN + CERTIFIED * 100 + 2, disposition=[99], epoch=[-1]),
            *damaged("vset2", SETS_OF_SEVEN + CERTIFIED * 100 + 3, disposition=[99], cancelled=[3]),
            *damaged("vset2", SETS_OF_SEVEN + CANCELLED * 100 + 1, disposition=[99]),
            *[damage for place in (WAITING, READY) for damage in damaged(
                "vset2", SETS_OF_SEVEN + place * 100 + 1, answers=[None], verdicts=["x"], disposition=[0, 7])]]


def of_texts_of_sets():
    """A list of vector sets reads no text of answers, and each set that is read by its number has its own judged."""
    passed, failed, missing, unanswered, cancelled = (SETS_OF_SEVEN + OPEN * 100 + place for place in range(1, 6))
    others = [{**SHORT, "algorithm": "SHA-1"}, {**SHORT, "messageLength": [7]}, {**SHORT, "revision": "2.0"},
              {**KEYED, "macLen": [1024]}]
    texts = [*NO_TEXTS, *[compact(other).decode() for other in others]]
    return [*damaged("vset2", passed, capability=texts),
            *[damage for number in (failed, missing, unanswered, cancelled, SETS_OF_SEVEN + CANCELLED * 100 + 1)
              for damage in damaged("vset2", number, capability=["{}"])],
            *read_as("answers: text", damaged("vset2", passed, answers=NO_ANSWERS)),
            *[damage for place in (CERTIFIED, WAITING, READY) for damage in [
                *damaged("vset2", SETS_OF_SEVEN + place * 100 + 1, capability=["{}"]),
                *read_as("answers: text", damaged("vset2", SETS_OF_SEVEN + place * 100 + 1, answers=["["]))]],
            *read_as("answers: text", [*damaged("vset2", failed, answers=["no answers"]),
                                       *damaged("vset2", SETS_OF_SEVEN + SAMPLE * 100 + 1, answers=["["]),
                                       *damaged("vset2", cancelled, answers=["[]]"])])]


def of_objects():
    vendor, other_vendor, module, environment = [(VENDOR, 7000001), (VENDOR, 7000002), (MODULE, 7000001),
                                                 (ENVIRONMENT, 7000001)]
    return [*damaged("object", vendor, account=[-1, 65536], body=[*NO_TEXTS, '{"name":""}', '{"name":"V","size":0.5}']),
            *damaged("object", other_vendor, account=[65536], body=["{}"]),
            *damaged("object", module, account=[65536],
                     body=['{"name":"V"}', '{"name":"M","vendorUrl":"/acvp/v1/oes/1"}']),
            *damaged("object", environment, account=[-1], body=['{"name":1}', ""])]


def of_requests():
    vendor, certified, rejected_before, waits, vendor_waits, rejected, module_waits, environment_waits = \
        (7000000 + number for number in (1, 5, 6, 7, 8, 9, 10, 11))
    parts = {"moduleUrl": "/acvp/v1/modules/7000001", "oeUrl": "/acvp/v1/oes/7000001", "session": 7000001}
    # those of a certification that waits, where one isn't the account's, isn't there or may not be certified
    others_parts = [compact({**parts, "session": 7000000 + WAITING, name: value}).decode() for name, value in
                    [("moduleUrl", "/acvp/v1/modules/8000001"), ("oeUrl", "/acvp/v1/oes/8000001"),
                     ("oeUrl", "/acvp/v1/oes/7000099"), ("session", 8000000 + WAITING), ("session", 7000000 + OPEN),
                     ("session", 7000000 + READY), ("session", 7000099)]]
    no_parts = [compact({**parts, name: value}).decode() for name, value in
                [("moduleUrl", "/acvp/v1/vendors/7000001"), ("oeUrl", 3), ("session", -1), ("session", "7000001")]]
    return [*damaged("request", vendor, account=[-1, 65536], kind=[-1, 0, 99, CERTIFICATION], status=[-1, 0, 2, 3, 99],
                     approved=[-1, None], body=["", "{}"]),
            *damaged("request", certified, account=[65536], kind=[99], status=[-1, 0, 2, 99], approved=[-1, None],
                     body=[*NO_TEXTS, *no_parts]),
            *damaged("request", rejected_before, status=[1, 3], approved=[7000001], body=["{}"]),
            *damaged("request", waits, account=[-1], status=[1, 99], approved=[7000002], body=["{}", no_parts[0]]),
            *damaged("request", vendor_waits, account=[65536], kind=[99], status=[1, 3], approved=[7000003],
                     body=[*NO_TEXTS, '{"name":""}']),
            *damaged("request", rejected, approved=[7000001], body=['{"name":"V"}']),
            *damaged("request", module_waits, status=[2**31], body=['{"name":"V"}', '{"name":"M","vendorUrl":"V"}']),
            *damaged("request", environment_waits, account=[65536], body=["["]),
            *read_as("body: what it names", damaged("request", waits, body=others_parts)),
            *read_as("kind: of the body", damaged("request", waits, kind=[VENDOR])),
            *read_as("kind: of the body", damaged("request", vendor_waits, kind=[MODULE]))]


def of_rows_of_reviewers():
    return damaged("reviewer", (7000000 + OPEN, SILENT), account=[-1, 65536, 70000, -2**63])


GROUPS = {"accounts": of_accounts, "sessions": of_sessions, "how vector sets stand": of_how_sets_stand,
          "texts of vector sets": of_texts_of_sets, "objects": of_objects, "requests": of_requests,
          "reviewers": of_rows_of_reviewers}

# ---- runs

# Rows for damaged columns to refer to, since no file is opened in which a column refers to no row. No request has a
# number of theirs.
REFERRED_TO = [("account", (-1, bytes(32), 1, None)), ("account", (65536, bytes(32), 1, None)),
               ("session", (-1, 7, 0, MOMENT, 0, None, 0, 0)), ("request", (-1, 7, VENDOR, '{"name":"V"}', 0, None))]

UNAVAILABLE = (b"HTTP/1.1 503 Service Unavailable\r\nContent-Type: application/json\r\nContent-Length: 46\r\n"
               b"Connection: close\r\n\r\n" b'[{"acvVersion":"1.0"},{"error":"unavailable"}]')
UNAVAILABLE_ORDER = (1, "", "fault: unavailable\n")


class Runs:
    """Runs of what is asked, each over a copy of the file."""

    def __init__(self, lab, accounts):
        self.lab, self.whole, self.without = lab, lab.path("whole.db"), {}
        shutil.copy(lab.db, self.whole)
        connection = opened(self.whole)
        for table, values in REFERRED_TO:
            connection.execute(f"INSERT INTO {table} VALUES ({','.join('?' * len(values))})", values)
        connection.close()
        one, other = accounts
        self.reads = one.reads() + other.reads([OPEN])
        self.changes = one.changes() + other.changes()
        self.others = [other.order("approve", 8), other.account_order("disable")]
        self.orders = one.orders() + [Account(lab, STRANGER, {}).account_order("disable")] + self.others
        self.events = self.reads + self.changes + self.orders
        expect("the names of what is asked", len({event.name for event in self.events}), len(self.events))
        self.fresh()
        self.read, rows = self.answered(self.reads, [])
        expect("the rows after what changes nothing", rows, rows_of(self.whole))

    def fresh(self):
        for end in ("-wal", "-shm"):
            if os.path.exists(self.lab.db + end):
                os.remove(self.lab.db + end)
        shutil.copy(self.whole, self.lab.db)

    def answered(self, requests, orders):
        """What these are answered over the file as it is, and the rows that they leave."""
        self.lab.serve(len(requests), port=self.lab.port)
        told = {event.name: self.lab.ask(event.asked) for event in requests}
        self.lab.served(len(requests))
        for event in orders:
            command, *options = event.asked
            told[event.name] = self.lab.run(command, "--db", self.lab.db, *options)
        return told, rows_of(self.lab.db)

    def without_damage(self, orders, unavailable=frozenset()):
        """The same over the file without damage, where what is unavailable isn't asked."""
        asked = [event for event in self.changes if event.name not in unavailable]
        orders = [event for event in orders if event.name not in unavailable]
        run = tuple(event.name for event in asked + orders)
        if run not in self.without:
            self.fresh()
            self.without[run] = self.answered(asked, orders)
        told, rows = self.without[run]
        return {**self.read, **told}, rows

    def unavailable(self, damage):
        """The names of what rests on what is damaged."""
        read = (damage.table, damage.key, damage.read or damage.column)
        return frozenset(event.name for event in self.events if read in event.rests)

    def over_damage(self, damage, orders):
        """What is told over the damaged file, the rows that are left, and the place of the damaged one."""
        self.fresh()
        place = do_damage(self.lab.db, damage)
        return (*self.answered(self.reads + self.changes, orders), place)

    def wrong(self, damage, orders, outcome, unavailable):
        """The events that aren't answered as they must be where these are unavailable, and the columns that differ."""
        told, rows, place = outcome
        wanted, wanted_rows = self.without_damage(orders, unavailable)
        refusals = {event.name: UNAVAILABLE_ORDER if event in orders else UNAVAILABLE for event in self.events}
        if not damage.is_mended:
            wanted_rows = {**wanted_rows, (damage.table, place, damage.column): damage.value}
        events = [name for name in told if told[name] != (refusals if name in unavailable else wanted)[name]]
        return events + sorted({column for column, _ in rows.items() ^ wanted_rows.items()})

    def holds(self, damage, orders):
        """What rests on the damaged column is unavailable, and nothing else; gives how many events that are."""
        unavailable = self.unavailable(damage)
        wrong = self.wrong(damage, orders, self.over_damage(damage, orders), unavailable)
        expect(f"what isn't as it must be over {damage}", wrong, [])
        return len(unavailable)


def as_it_is(runs):
    """Over the file without damage each event comes to what is said of it, and nothing is unavailable."""
    told, _ = runs.without_damage(runs.orders)
    for event in runs.reads + runs.changes:
        expect(event.name, shown(told[event.name])[0], event.comes_to)
    for event in runs.orders:
        status, _, fault = told[event.name]
        expect(event.name, (status, fault), (1, f"fault: {event.comes_to}\n") if event.comes_to else (0, ""))
    rows = rows_of(runs.whole)
    expect("the dispositions of an open session's sets",
           [rows["vset2", number, "disposition"] for number, _, _ in sets_of(7000000 + OPEN)], [2, 0, 1, None, 2])
    print(f"without damage: {len(runs.reads)} requests that change nothing, {len(runs.changes)} that do, and "
          f"{len(runs.orders)} orders")


def groups_hold(runs):
    """All orders are given once a group, and else those that rest on what is damaged, and the other accounts' ones."""
    for name, damages in GROUPS.items():
        counts = []
        for damage in damages():
            unavailable = runs.unavailable(damage)
            orders = [event for event in runs.orders if not counts or event.name in unavailable or event in runs.others]
            counts.append(runs.holds(damage, orders))
        print(f"{name}: {len(counts)} damages, each with {min(counts)} to {max(counts)} events unavailable", flush=True)


def none_is_certified_unlike_runs(runs):
    """Over rows that stand for something, but that no run leaves where a certification waits, its approval is
    unavailable and changes nothing."""
    lab, session, vector_set = runs.lab, 7000000 + WAITING, SETS_OF_SEVEN + WAITING * 100 + 1
    unlike = [damaged("session", session, live=[0]), damaged("session", session, passed=[0]),
              damaged("session", session, live=[2], passed=[2]), damaged("session", session, sample=[1]),
              damaged("session", session, cancelled=[1]), damaged("session", session, account=[8]),
              damaged("session", session, certify=[None]), damaged("session", session, certify=[7000006]),
              damaged("vset2", vector_set, cancelled=[1]),
              damaged("vset2", vector_set, verdicts=["f"], disposition=[0])]
    for damages in unlike:
        runs.fresh()
        for damage in damages:
            do_damage(lab.db, damage)
        before = rows_of(lab.db)
        lab.fails("unavailable", "request-approve", "--db", lab.db, "--request",
                  str(7000000 + LAST_CERTIFICATION[WAITING]), what=damages)
        expect(f"the rows after {damages}", rows_of(lab.db), before)
    print(f"what no run leaves of a certification that waits: {len(unlike)} changes, each with fault: unavailable")


def no_command_begins(runs):
    """A file whose version isn't told is none of this schema, and one with a column that refers to no row is none at
    all, to each command; where the seed of a vector set isn't there, serving finds the keys at fault."""
    lab, vector_set = runs.lab, SETS_OF_SEVEN + OPEN * 100 + 1
    serve = ["serve", "--keys", lab.keys, "--port", str(free_port()), "--count", "1"]
    commands = [serve, ["request-approve", "--request", "7000008"], ["account-disable", "--account", str(STRANGER)]]
    to_none = [*damaged("session", 7000000 + OPEN, account=[-2, 6], certify=[-2, 7000099]),
               *damaged("vset2", vector_set, session=[-2, 7000099]), *damaged("object", (VENDOR, 7000001), account=[6]),
               *damaged("request", 7000001, account=[-2]), *damaged("reviewer", (7000000 + OPEN, SILENT), session=[-2])]
    for what, word, some, damages in [
            ("the version", "schema", commands, damaged("meta", "schema", value=[-1, 2, 4], name=["", "Schema"])),
            ("what refers to no row", "unavailable", commands, to_none),
            ("a seed that isn't there", "keys", commands[:1], damaged("vset2", vector_set, epoch=[1, 2**63 - 1]))]:
        for damage in damages:
            runs.fresh()
            do_damage(lab.db, damage)
            before = rows_of(lab.db)
            for command, *options in some:
                lab.fails(word, command, "--db", lab.db, *options, what=damage)
            expect(f"the rows after {damage}", rows_of(lab.db), before)
        print(f"{what}: {len(damages)} damages, each with fault: {word}")


def another_expectation_fails(runs):
    """So the comparison can fail: more, fewer and other events are said to be unavailable than are, and the damage is
    said to be gone."""
    damage = Damage("object", (VENDOR, 7000001), "body", "{}")
    outcome, rests = runs.over_damage(damage, runs.orders), runs.unavailable(damage)
    expect("what rests on a vendor's body", rests, {"GET /vendors by 7", "GET /vendors/7000001 by 7"})
    for unavailable in (frozenset(), rests - {"GET /vendors by 7"}, rests | {"GET /oes by 7"}):
        expect(f"what isn't as where {unavailable} are unavailable",
               set(runs.wrong(damage, runs.orders, outcome, unavailable)), rests ^ unavailable)
    expect("what isn't as where the damage is gone",
           runs.wrong(damage._replace(is_mended=True), runs.orders, outcome, rests), [("object", outcome[2], "body")])
    print("the comparison fails where another outcome is expected")


def main():
    program, shim = map(os.path.abspath, sys.argv[1:])
    with tempfile.TemporaryDirectory() as folder:
        lab = Laboratory(program, folder)
        # for the program that is started, not for this one
        os.environ.update({"LD_PRELOAD": shim, "CLOCK": lab.write(lab.path("clock"), f"{MOMENT}\n")})
        try:
            runs = Runs(lab, whole_file(lab))
            for part in (as_it_is, groups_hold, none_is_certified_unlike_runs, no_command_begins,
                         another_expectation_fails):
                part(runs)
        finally:
            lab.kill()
    print(f"{laboratory.checked} comparisons")


if __name__ == "__main__":
    main()

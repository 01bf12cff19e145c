#!/usr/bin/env python3
"""A small server in Python's standard library for the three requests that ./bench times, over the file that
`acvp_server init` makes, so that there is something to compare with.

    baseline_server.py serve --db FILE --keys FILE --port P --count C

It does the same work for them, by http.server, sqlite3, hashlib and hmac:

- a login: the account's row, the one-time code of this time step or the last, which must be later than the one that was
  used, the step kept in a transaction, and a token signed with HS256;
- a read of a vector set: the token verified, the rows of the account, the session and the vector set, and the prompts
  made from the capability that is kept, of the same words of ChaCha20, so that each reply has the same bytes;
- a submission: the same, the standard answers by hashlib and hmac, the grading, and the answers, verdicts, disposition
  and the session's counter kept in one transaction.

The last 64 vector sets are cached, as the server does. The journal is the one that the file names, the write-ahead log,
and writes are synchronous as they are by SQLite's default: so a transaction waits for the disk once, and the server's
twice.

It's no server to be used: of the algorithms it has SHA2-256 and HMAC-SHA2-256, and what isn't one of these requests it
refuses in fewer ways, or not at all."""
import argparse
import email.utils
import functools
import hashlib
import hmac
import http.server
import json
import re
import socketserver
import sqlite3
import time

from chacha20 import Words
from laboratory import STEP, compact, decoded, signed
from validation import answers, one_time_code

API = "/acvp/v1"
SET_PATH = re.compile(API + r"/testSessions/([1-9][0-9]{0,18})/vectorSets/([1-9][0-9]{0,18})(/results)?")
TOKEN_LIFE, SET_LIFE, SESSION_LIFE = 1800, 604800, 2592000
CACHED = 64
PASSED, MISSING, FAIL = "p", "m", "f"
DISPOSITIONS = {FAIL: 0, MISSING: 1, PASSED: 2}


class Refused(Exception):
    """A refusal, by its status and its word."""


# ---- vector sets


def members_of(domain):
    """The members of a domain, ascending."""
    ranges = [range(item, item + 1) if isinstance(item, int) else range(item["min"], item["max"] + 1, item["increment"])
              for item in domain]
    return sorted({member for members in ranges for member in members})


def chosen(members, edges):
    """The least and the greatest member and the edges that are members, ascending."""
    return sorted({members[0], members[-1], *(edge for edge in edges if edge in members)})


def hash_groups(words, capability):
    members = members_of(capability["messageLength"])
    lengths = chosen(members, [0, 8, 440, 448, 504, 512, 520, 1024]) + [words.draw(members) for _ in range(16)]
    groups = [("AFT", lengths)] + ([("MCT", [256])] if 768 in members else [])
    number = iter(range(1, len(lengths) + 2))
    return [{"testType": kind, "tgId": place,
             "tests": [{"len": bits, "msg": words.take(bits // 8).hex(), "tcId": next(number)} for bits in sizes]}
            for place, (kind, sizes) in enumerate(groups, 1)]


def hmac_groups(words, capability):
    members, macs = members_of(capability["keyLen"]), members_of(capability["macLen"])
    keys = chosen(members, [504, 512, 520]) + [words.draw(members) for _ in range(2)]
    pairs = [(key, mac) for key in keys for mac in sorted({macs[0], macs[-1]})]
    number = iter(range(1, 3 * len(pairs) + 1))
    return [{"keyLen": key, "macLen": mac, "msgLen": 128, "testType": "AFT", "tgId": place,
             "tests": [{"key": words.take(key // 8).hex(), "msg": words.take(16).hex(), "tcId": next(number)}
                       for _ in range(3)]}
            for place, (key, mac) in enumerate(pairs, 1)]


@functools.lru_cache(maxsize=CACHED)
def prompts(seed, vs, capability):
    """The vector set that is kept with this capability's text, as its reply has it but for the session's `isSample`."""
    capability = json.loads(capability)
    groups = hmac_groups if capability["algorithm"].startswith("HMAC-") else hash_groups
    return {"algorithm": capability["algorithm"], "revision": "1.0", "vsId": vs,
            "testGroups": groups(Words(seed, vs), capability)}


def texts_of(test):
    """The texts of an answer to a test."""
    if "resultsArray" in test:
        return [checkpoint["md"] for checkpoint in test["resultsArray"]]
    return [test["mac"] if "mac" in test else test["md"]]


@functools.lru_cache(maxsize=CACHED)
def standard(seed, vs, capability):
    """The texts that pass, of each test."""
    groups = answers(prompts(seed, vs, capability))["testGroups"]
    return {test["tcId"]: texts_of(test) for group in groups for test in group["tests"]}


def verdict(right, given):
    if given is None:
        return MISSING
    return PASSED if [text.lower() for text in given] == right else FAIL


def graded(right, given):
    """What is kept of answers: their text, a verdict for each test, and the disposition."""
    verdicts = "".join(verdict(texts, given.get(number)) for number, texts in sorted(right.items()))
    worst = FAIL if FAIL in verdicts else MISSING if MISSING in verdicts else PASSED
    return compact(sorted(given.items())).decode(), verdicts, DISPOSITIONS[worst]


# ---- bodies


def body_field(holds):
    if not holds:
        raise Refused(400, "bodyField")


def whole(value):
    return isinstance(value, int) and not isinstance(value, bool) and value >= 0


def opened(body):
    """The second object of a body."""
    try:
        both = json.loads(body)
    except ValueError:
        raise Refused(400, "bodyNotJson") from None
    objects = isinstance(both, list) and len(both) == 2 and all(isinstance(one, dict) for one in both)
    if not objects or both[0].get("acvVersion") != "1.0":
        raise Refused(400, "bodyEnvelope")
    return both[1]


def read_answers(body, vector_set):
    """The texts of the answers in a body, by the tests' numbers."""
    thing = opened(body)
    body_field(whole(thing.get("vsId")) and isinstance(thing.get("testGroups"), list))
    for group in thing["testGroups"]:
        body_field(isinstance(group, dict) and whole(group.get("tgId")) and isinstance(group.get("tests"), list))
        for test in group["tests"]:
            body_field(isinstance(test, dict) and whole(test.get("tcId")))
            body_field(all(isinstance(test[name], str) for name in ("md", "mac") if name in test))
            checkpoints = test.get("resultsArray", [])
            body_field(isinstance(checkpoints, list))
            body_field(all(isinstance(one, dict) and isinstance(one.get("md"), str) for one in checkpoints))
    if any(thing.get(name, vector_set[name]) != vector_set[name] for name in ("vsId", "algorithm", "revision")):
        raise Refused(400, "setMismatch")
    member = "mac" if vector_set["algorithm"].startswith("HMAC-") else "md"
    members = {(group["tgId"], test["tcId"]): "resultsArray" if group["testType"] == "MCT" else member
               for group in vector_set["testGroups"] for test in group["tests"]}
    given = {}
    for group in thing["testGroups"]:
        for test in group["tests"]:
            name = members.get((group["tgId"], test["tcId"]))
            if name is None:
                raise Refused(400, "unknownTest")
            if test["tcId"] in given:
                raise Refused(400, "duplicateTest")
            body_field(name in test)
            given[test["tcId"]] = texts_of({name: test[name]})
    return given


# ---- requests


class Records:
    """The records in a file, and the keys."""

    def __init__(self, db, keys):
        with open(keys) as file:
            self.key, self.seed = map(bytes.fromhex, file.read().split())
        self.connection = sqlite3.connect(db)
        self.connection.execute("PRAGMA foreign_keys = ON")
        self.connection.execute("PRAGMA synchronous = FULL")

    def row(self, text, number):
        return self.connection.execute(text, (number,)).fetchone()

    def change(self, *statements):
        """Carries statements out in one transaction."""
        with self.connection:
            for text, values in statements:
                self.connection.execute(text, values)

    def login(self, moment, body):
        thing = opened(body)
        user, password = thing.get("user"), thing.get("password")
        body_field(isinstance(user, str) and isinstance(password, str))
        row = self.row("SELECT secret, enabled, last_step FROM account WHERE account = ?1", int(user)) \
            if re.fullmatch("[1-9][0-9]{0,3}", user) else None
        secret, enabled, last = row or (b"", 0, None)
        now = moment // STEP
        steps = [step for step in (now, now - 1) if enabled and (last is None or step > last)
                 and hmac.compare_digest(one_time_code(secret, step * STEP), password)]
        if not steps:
            raise Refused(403, "loginRefused")
        self.change(("UPDATE account SET last_step = ?2 WHERE account = ?1", (int(user), steps[0])))
        return {"accessToken": signed({"exp": moment + TOKEN_LIFE, "iat": moment, "sub": user}, self.key)}

    def caller(self, moment, field):
        """The account and the session, if any, that the token of a request stands for."""
        if field is None or not field[:7].lower() == "bearer ":
            raise Refused(401, "tokenMissing")
        try:
            text, signature = field[7:].strip(" ").rsplit(".", 1)
            header, claims = text.split(".")
            header, signature = json.loads(decoded(header)), decoded(signature)
            if len(field) > 1031 or header["alg"] != "HS256" or "crit" in header:
                raise ValueError(header)
        except (ValueError, KeyError, TypeError):
            raise Refused(401, "tokenMalformed") from None
        if not hmac.compare_digest(signature, hmac.digest(self.key, text.encode(), "sha256")):
            raise Refused(401, "tokenSignature")
        claims = json.loads(decoded(claims))
        if not (re.fullmatch("[1-9][0-9]{0,3}", claims["sub"]) and whole(claims["iat"]) and whole(claims["exp"])):
            raise Refused(401, "tokenClaims")
        if moment >= claims["exp"]:
            raise Refused(401, "tokenExpired")
        account = int(claims["sub"])
        if self.row("SELECT enabled FROM account WHERE account = ?1", account) != (1,):
            raise Refused(403, "accountRefused")
        return account, claims.get("sid")

    def vector_set(self, moment, field, session, vs):
        """What a session's row and that of its vector set, which the caller may read, say of the two."""
        account, bound = self.caller(moment, field)
        if bound is None:
            raise Refused(403, "sessionTokenNeeded")
        if bound != session or account != session // 1000000:
            raise Refused(403, "otherSession")
        found = self.row("SELECT sample, created, cancelled, certify FROM session WHERE session = ?1", session)
        of_set = self.row("SELECT session, cancelled, capability, disposition FROM vset2 WHERE vs = ?1", vs)
        if found is None or of_set is None or of_set[0] != session:
            raise Refused(404, "noResource")
        sample, created, cancelled, certify = found
        for broken, word in [(cancelled, "sessionCancelled"), (moment >= created + SESSION_LIFE, "sessionExpired"),
                             (of_set[1], "setCancelled"), (moment >= created + SET_LIFE, "setExpired")]:
            if broken:
                raise Refused(409, word)
        return bool(sample), certify, of_set[2], of_set[3]

    def read(self, moment, field, session, vs):
        sample, _, capability, _ = self.vector_set(moment, field, session, vs)
        return {**prompts(self.seed, vs, capability), "isSample": sample}

    def submit(self, moment, field, session, vs, again, body):
        _, certify, capability, disposition = self.vector_set(moment, field, session, vs)
        if certify is not None and self.row("SELECT status FROM request WHERE request = ?1", certify) != (2,):
            raise Refused(409, "sessionFrozen")
        if again != (disposition is not None):
            raise Refused(409, "notSubmitted" if again else "alreadySubmitted")
        given = read_answers(body, prompts(self.seed, vs, capability))
        columns = graded(standard(self.seed, vs, capability), given)
        self.change(("UPDATE vset2 SET answers = ?2, verdicts = ?3, disposition = ?4 WHERE vs = ?1", (vs, *columns)),
                    ("UPDATE session SET passed = (SELECT COUNT(*) FROM vset2 WHERE vs BETWEEN ?2 AND ?3 "
                     "AND cancelled = 0 AND disposition = 2) WHERE session = ?1",
                     (session, session * 100, session * 100 + 99)))
        return {"status": "received", "url": f"{API}/testSessions/{session}/vectorSets/{vs}/results"}


class Handler(http.server.BaseHTTPRequestHandler):
    """One request of a connection."""

    protocol_version = "HTTP/1.1"
    wbufsize = -1

    def outcome(self, moment, body):
        """The status and the object of the reply."""
        records, field = self.server.records, self.headers["Authorization"]
        try:
            path = SET_PATH.fullmatch(self.path)
            if self.path == API + "/login":
                if self.command != "POST":
                    raise Refused(405, "noMethod")
                return 200, records.login(moment, body)
            if path is None:
                raise Refused(404, "noRoute")
            session, vs, results = int(path[1]), int(path[2]), path[3] is not None
            if results != (self.command != "GET"):
                raise Refused(405, "noMethod")
            if results:
                return 200, records.submit(moment, field, session, vs, self.command == "PUT", body)
            return 200, records.read(moment, field, session, vs)
        except Refused as refusal:
            return refusal.args[0], {"error": refusal.args[1]}

    def answer(self):
        moment = int(time.time())
        body = self.rfile.read(int(self.headers["Content-Length"] or 0))
        status, thing = self.outcome(moment, body)
        text = compact([{"acvVersion": "1.0"}, thing])
        self.send_response_only(status)
        for name, value in [("Date", email.utils.formatdate(moment, usegmt=True)), ("Content-Type", "application/json"),
                            ("Content-Length", len(text)), ("Connection", "close")]:
            self.send_header(name, value)
        self.end_headers()
        self.wfile.write(text)

    do_GET = do_POST = do_PUT = answer


class Server(socketserver.TCPServer):
    allow_reuse_address = True
    request_queue_size = 128


def main():
    parser = argparse.ArgumentParser(description=__doc__, formatter_class=argparse.RawDescriptionHelpFormatter)
    serve = parser.add_subparsers(required=True).add_parser("serve")
    for name, kind in [("--db", str), ("--keys", str), ("--port", int), ("--count", int)]:
        serve.add_argument(name, type=kind, required=True)
    asked = parser.parse_args()
    with Server(("127.0.0.1", asked.port), Handler) as server:
        server.records = Records(asked.db, asked.keys)
        print(f"listening 127.0.0.1:{asked.port}", flush=True)
        for _ in range(asked.count):
            server.process_request(*server.get_request())
    print(f"served {asked.count}")


if __name__ == "__main__":
    main()

#!/usr/bin/env python3
"""Goes through the protocol for ten accounts in turn: each of the 31 actions is accepted, and each rule of refusal is
met but three: that an account is full, that the moment isn't served, and that memory is refused. With ample memory no
reply has status 503 and no order is unavailable. Tokens that are no good are signed by Python's hmac. Each account after
the first also asks for what the one before it has, and is told no more than of what isn't there.

    every-action.py COMMAND..
    every-action.py --file PROGRAM FILE KEYS SHIM

COMMAND runs the server in script mode. With --file PROGRAM serves the records in FILE, which `init` has made, over
sockets, and is ended whenever the operator has an order; SHIM, the library of set_clock.c, shows it the moment of each
request."""
import hashlib
import json
import sys

from laboratory import Piped, Served, signed
from validation import answers, one_time_code

STATUSES = {400: "badHead truncated badLength hostMissing bodyNotJson bodyEnvelope bodyField notByteOriented lengthOutOfRange"
                 " unsupported unknownTest duplicateTest setMismatch noReference badPage",
            401: "tokenMissing tokenMalformed tokenSignature tokenClaims tokenExpired",
            403: "accountRefused accountTokenNeeded sessionTokenNeeded otherSession notSample sampleNotCertifiable"
                 " loginRefused renewalRefused reviewersFull",
            404: "noRoute noResource", 405: "noMethod", 411: "lengthMissing", 413: "bodyTooLarge", 431: "headTooLarge",
            409: "sessionCancelled sessionExpired sessionFrozen setCancelled setExpired alreadySubmitted notSubmitted notPassed",
            501: "transferCoding"}
STATUS_OF = {word: status for status, words in STATUSES.items() for word in words.split()}
DAY = 86400


def hash_set(*lengths):
    return {"algorithm": "SHA2-256", "messageLength": list(lengths), "revision": "1.0"}


class Walk:
    """One account's walk through the protocol, with a clock that it sets."""

    def __init__(self, server, account, moment, before=None):
        self.server, self.account, self.moment, self.before = server, account, moment, before
        self.session = account * 1000000 + 1
        self.actions, self.rules = set(), set()
        self.secret = hashlib.sha256(b"%d" % account).digest()
        self.token = None

    def ask(self, text, moment=None):
        head, _, content = self.server.ask_at(moment or self.moment, text).partition(b"\r\n\r\n")
        return int(head.split(b" ")[1]), json.loads(content)[1]

    def request(self, method, path, token=None, thing=None, body=None, moment=None, lengths=("{}",)):
        if thing is not None:
            body = json.dumps([{"acvVersion": "1.0"}, thing]).encode()
        lines = [f"{method} /acvp/v1{path} HTTP/1.1", "Host: laboratory.example"]
        lines += [f"Authorization: Bearer {token}"] if token is not None else []
        lines += ["Content-Length: " + length.format(len(body)) for length in lengths if body is not None]
        return self.ask("\r\n".join(lines + ["", ""]).encode() + (body or b""), moment)

    def does(self, action, method, path, token=None, thing=None, moment=None):
        status, shown = self.request(method, path, token, thing, None, moment)
        assert status == 200, f"account {self.account}: action {action} is answered {status} {shown}"
        self.actions.add(action)
        return shown

    def refused(self, word, got):
        assert got == (STATUS_OF[word], {"error": word}), f"account {self.account}: {got} in place of {word}"
        self.rules.add(word)

    def order(self, text, wanted="order done"):
        got = self.server.order(text)
        assert got == wanted, f"{text}: {got} in place of {wanted}"

    def login(self, moment, renewed=None):
        body = {"password": one_time_code(self.secret, moment), "user": str(self.account)}
        body.update({"accessToken": renewed} if renewed else {})
        # its length is given twice, as the same number
        return self.request("POST", "/login", thing=body, moment=moment, lengths=("{}", "0{}"))

    def session_token(self, session, moment):
        """A token of the session that is good at the moment, as its clients renew theirs."""
        return signed({"sub": str(self.account), "iat": moment, "exp": moment + 1800, "sid": session})

    # ---- the head, the framing and the route

    def transport(self):
        post = b"POST /acvp/v1/login HTTP/1.1\r\nHost: h\r\n"
        for word, text in [("badHead", b"GET /\r\n\r\n"), ("headTooLarge", b"a" * 16385), ("truncated", b""),
                           ("lengthMissing", post + b"\r\n"), ("hostMissing", b"GET / HTTP/1.1\r\n\r\n"),
                           ("badLength", post + b"Content-Length: 5\r\nContent-Length: 6\r\n\r\n123456"),
                           ("bodyTooLarge", post + b"Content-Length: 2097153\r\n\r\n"),
                           ("transferCoding", post + b"Transfer-Encoding: chunked\r\n\r\n")]:
            self.refused(word, self.ask(text))
        self.refused("noRoute", self.request("GET", "/testSessions/07"))
        self.refused("noMethod", self.request("DELETE", "/login"))

    # ---- the caller

    def caller(self):
        other = self.account % 9999 + 1
        claims = {"sub": str(self.account), "iat": self.moment, "exp": self.moment + 1800}
        self.order(f"account-add 0 {self.account} {self.secret.hex()}")
        self.order(f"account-add 0 {self.account} {self.secret.hex()}", "order taken")
        self.refused("renewalRefused", self.login(self.moment, signed({**claims, "sub": str(other)})))
        status, shown = self.login(self.moment)
        assert status == 200, shown
        self.actions.add(1)
        self.token = shown["accessToken"]
        self.refused("loginRefused", self.login(self.moment))
        self.refused("bodyNotJson", self.request("POST", "/login", body=b"["))
        self.refused("bodyEnvelope", self.request("POST", "/login", body=b"[]"))
        for word, token in [("tokenMissing", None), ("tokenMalformed", "a.b"), ("tokenSignature", signed(claims, b"k")),
                            ("tokenClaims", signed({**claims, "sub": "0"})), ("tokenExpired", signed({**claims, "exp": self.moment})),
                            ("accountRefused", signed({**claims, "sub": "9999"}))]:
            self.refused(word, self.request("GET", "/account", token))
        assert self.does(2, "GET", "/account", self.token)["account"] == self.account
        assert len(self.does(3, "GET", "/algorithms", self.token)["algorithms"]) == 12
        assert self.does(4, "GET", "/algorithms/2", self.token)["name"] == "SHA2-256"
        self.refused("noResource", self.request("GET", "/algorithms/13", self.token))

    def no_envelope(self, method, path, token):
        self.refused("bodyNotJson", self.request(method, path, token, body=b"["))
        self.refused("bodyEnvelope", self.request(method, path, token, body=b"[]"))

    # ---- sessions and sets

    def new_session(self, *capabilities, sample=False):
        made = self.does(6, "POST", "/testSessions", self.token, {"algorithms": list(capabilities), "isSample": sample})
        return made["url"][len("/acvp/v1"):], made["accessToken"], [url[len("/acvp/v1"):] for url in made["vectorSetUrls"]]

    def registrations(self):
        for word, capability in [("bodyField", hash_set()), ("notByteOriented", hash_set(1)), ("lengthOutOfRange", hash_set(65544)),
                                 ("unsupported", {"algorithm": "SHA-1", "revision": "1.0"})]:
            self.refused(word, self.request("POST", "/testSessions", self.token, {"algorithms": [capability]}))
        self.refused("badPage", self.request("GET", "/testSessions?limit=0", self.token))

    def submissions(self):
        session, bound, (first, second) = self.new_session(hash_set(8), hash_set(16))
        assert session == f"/testSessions/{self.session}" and first == f"{session}/vectorSets/{self.session}01", first
        shown = self.does(12, "GET", first, bound)
        right = answers(shown)
        twice = json.loads(json.dumps(right))
        twice["testGroups"][0]["tests"] *= 2
        unknown = {**right, "testGroups": [{"tgId": 2, "tests": [{"tcId": 99, "md": ""}]}]}
        results = first + "/results"
        self.refused("notSubmitted", self.request("PUT", results, bound, right))
        for word, thing in [("setMismatch", {**right, "vsId": 1}), ("duplicateTest", twice), ("unknownTest", unknown)]:
            self.refused(word, self.request("POST", results, bound, thing))
        self.does(15, "POST", results, bound, right)
        self.refused("alreadySubmitted", self.request("POST", results, bound, right))
        self.does(16, "PUT", results, bound, right)
        self.no_envelope("PUT", results, bound)
        for word, thing in [("bodyField", {}), ("setMismatch", {**right, "vsId": 1}), ("duplicateTest", twice), ("unknownTest", unknown)]:
            self.refused(word, self.request("PUT", results, bound, thing))
        assert self.does(14, "GET", results, bound)["disposition"] == "passed"
        assert self.does(10, "GET", session + "/results", bound)["passed"] is False
        self.refused("notPassed", self.request("PUT", session, bound, {}))
        self.refused("notSample", self.request("GET", first + "/expected", bound))
        self.does(13, "DELETE", second, bound)
        self.refused("setCancelled", self.request("GET", second, bound))
        assert self.does(11, "GET", session + "/vectorSets", bound)["vectorSetUrls"] == ["/acvp/v1" + first]
        assert self.does(7, "GET", session, bound)["passed"] is True
        assert self.does(5, "GET", "/testSessions?limit=1", self.token)["totalCount"] == 1
        self.refused("sessionTokenNeeded", self.request("GET", session, self.token))
        self.refused("accountTokenNeeded", self.request("POST", "/vendors", bound, {"name": "n"}))
        self.refused("otherSession", self.request("GET", "/testSessions/1", bound))
        self.others(session)
        self.ended(session, first)
        return session, bound

    def others(self, session):
        """What another account has is told as what isn't there: by a token that names its session, and by the numbers
        of its sets."""
        there = self.before.session if self.before else 1
        for foreign in (there, 9999999999):
            for path in (f"/testSessions/{foreign}", session):
                self.refused("otherSession", self.request("GET", path, self.session_token(foreign, self.moment)))
            path = f"{session}/vectorSets/{foreign}01"
            self.refused("noResource", self.request("GET", path, self.session_token(self.session, self.moment)))

    def ended(self, session, first):
        number = int(session.rsplit("/", 1)[1])
        for word, later, path in [("setExpired", 7 * DAY, first), ("sessionExpired", 30 * DAY, first)]:
            moment = self.moment + later
            self.refused(word, self.request("GET", path, self.session_token(number, moment), moment=moment))

    def samples(self):
        session, bound, (vector_set,) = self.new_session(hash_set(8), sample=True)
        self.does(15, "POST", vector_set + "/results", bound, self.does(17, "GET", vector_set + "/expected", bound))
        self.refused("sampleNotCertifiable", self.request("PUT", session, bound, {}))
        assert self.does(9, "DELETE", session, bound)["status"] == "cancelled"
        self.refused("sessionCancelled", self.request("GET", session + "/results", bound))

    def reviewers(self, session, bound):
        path = session + "/reviewers"
        for account in range(1, 17):
            named = self.does(30, "POST", path, bound, {"account": account})["reviewers"]
            assert named == list(range(1, account + 1)), named
        self.refused("reviewersFull", self.request("POST", path, bound, {"account": 17}))
        self.refused("bodyField", self.request("POST", path, bound, {"account": 0}))
        self.no_envelope("POST", path, bound)
        assert self.does(31, "DELETE", path + "/16", bound)["reviewers"] == list(range(1, 16))
        assert self.does(29, "GET", path, bound)["reviewers"] == list(range(1, 16))

    # ---- registries and certification

    def registered(self, actions, kind, thing):
        new, listed, read = actions
        url = self.does(new, "POST", f"/{kind}", self.token, thing)["url"]
        number = url.rsplit("/", 1)[1]
        self.order(f"request-approve 0 {number}")
        self.order(f"request-approve 0 {number}", "order notInitial")
        shown = self.does(28, "GET", f"/requests/{number}", self.token)["approvedUrl"]
        assert self.does(listed, "GET", f"/{kind}", self.token)["data"] == [{**thing, "url": shown}]
        assert self.does(read, "GET", shown[len("/acvp/v1"):], self.token)["name"] == thing["name"]
        return shown

    def certification(self, session, bound):
        for kind in ("vendors", "modules", "oes"):
            self.no_envelope("POST", f"/{kind}", self.token)
            self.refused("bodyField", self.request("POST", f"/{kind}", self.token, {}))
        absent = f"/acvp/v1/vendors/{self.account}999999"
        self.refused("noReference", self.request("POST", "/modules", self.token, {"name": "m", "vendorUrl": absent}))
        vendor = self.registered((19, 18, 20), "vendors", {"name": "Acme"})
        parts = {"moduleUrl": self.registered((22, 21, 23), "modules", {"name": "m", "vendorUrl": vendor}),
                 "oeUrl": self.registered((25, 24, 26), "oes", {"name": "e"})}
        url = self.does(8, "PUT", session, bound, parts)["url"]
        self.refused("sessionFrozen", self.request("DELETE", session, bound))
        self.order(f"request-reject 0 {url.rsplit('/', 1)[1]}")
        assert self.does(7, "GET", session, bound)["status"] == "open"
        assert self.does(27, "GET", "/requests", self.token)["totalCount"] == 4

    def walk(self):
        self.transport()
        self.caller()
        self.registrations()
        session, bound = self.submissions()
        self.samples()
        self.reviewers(session, bound)
        self.certification(session, bound)
        missing = set(range(1, 32)) - self.actions
        assert not missing, f"account {self.account}: the actions {missing} weren't accepted"
        assert self.rules == set(STATUS_OF), f"account {self.account}: {set(STATUS_OF) - self.rules} weren't met"


def main():
    server = Served(*sys.argv[2:]) if sys.argv[1] == "--file" else Piped(sys.argv[1:])
    walk = None
    try:
        for place in range(10):
            walk = Walk(server, 11 + 998 * place, 1000000000 + 100000000 * place, walk)
            walk.walk()
    except BaseException:
        server.process and server.process.kill()
        raise
    server.end()
    print(f"ten accounts: 31 actions accepted and {len(STATUS_OF)} rules met by each")


main()

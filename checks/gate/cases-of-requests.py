#!/usr/bin/env python3
"""Plays the cases in checks/cases, each over records of its own: requests at moments and orders, and what each must be
answered, byte for byte. Over a file SQLite also tells whether the records changed.

    cases-of-requests.py COMMAND..
    cases-of-requests.py --file PROGRAM SHIM

COMMAND runs the server in script mode under a token key and a seed of zeros. With --file PROGRAM serves a file a case
over sockets; SHIM, the library of set_clock.c, shows it the moment of each request.

A file of cases has comments, which begin with #, and

    text NAME TEXT     a text, which $NAME stands for
    steps NAME         begins steps that cases take
    case NAME          begins a case; its records have the accounts 7 and 9

Most steps are a request with what it must be answered:

    MOMENT ACTION NUMBER NUMBER TOKEN QUERY BODY ANSWER

The action may be several, joined by commas: each is asked. The numbers are those of its path, or 0; the second may be
a range, as 1-3: each is asked. The token is `missing`, `doubled` or itself. A dash stands for nothing. The answer is
one of

    shows BODY         and the records are as they were
    digests SHA-256    a body of that digest, in hex, and the records are as they were
    keeps NAME         some body, which becomes the text of that name, and the records are as they were
    makes BODY         and the records change
    repeats BODY       and the records are as they were, since what is asked for is so already
    accepts changed    some body; or `accepts unchanged`
    denies RULE        and the records are as they were

The other steps are

    takes NAME                  the steps of that name
    approves NUMBER ANSWER      the answer is a fault's word, or `done`, or what the request became: `Vendor 7000001`
    rejects NUMBER ANSWER       and likewise adds and disables, of an account
    under KEY ..                from now on the keys file has these lines, as token:0 or seed:1, each of a byte that is
                                repeated, and token:- for a key that is retired
    starts not FAULT            `serve` ends with that fault
    stored VALUE STATEMENT      what a statement of SQL gives

With the last three, a case is of a file alone. Rows of `meta` are no records: the first start writes its seeds
there."""
import email.utils
import glob
import hashlib
import json
import os
import re
import sqlite3
import subprocess
import sys
import tempfile
from contextlib import closing

from laboratory import Piped, Served, expect, free_port
import laboratory

CASES = os.path.join(os.path.dirname(os.path.abspath(__file__)), "..", "cases")
# that of RFC 6238's test vectors
SECRET = b"12345678901234567890123456789012".hex()
LAST = 4102444799

PATHS = dict(line.split(" ", 1) for line in """\
Login POST /login
ReadAccount GET /account
ListAlgorithms GET /algorithms
ReadAlgorithm GET /algorithms/#
ListSessions GET /testSessions
NewSession POST /testSessions
ReadSession GET /testSessions/#
Certify PUT /testSessions/#
CancelSession DELETE /testSessions/#
SessionResults GET /testSessions/#/results
ListSets GET /testSessions/#/vectorSets
ReadSet GET /testSessions/#/vectorSets/#
CancelSet DELETE /testSessions/#/vectorSets/#
SetResults GET /testSessions/#/vectorSets/#/results
Submit POST /testSessions/#/vectorSets/#/results
Resubmit PUT /testSessions/#/vectorSets/#/results
Expected GET /testSessions/#/vectorSets/#/expected
ListVendors GET /vendors
NewVendor POST /vendors
ReadVendor GET /vendors/#
ListModules GET /modules
NewModule POST /modules
ReadModule GET /modules/#
ListEnvironments GET /oes
NewEnvironment POST /oes
ReadEnvironment GET /oes/#
ListRequests GET /requests
ReadRequest GET /requests/#
ListReviewers GET /testSessions/#/reviewers
AddReviewer POST /testSessions/#/reviewers
RemoveReviewer DELETE /testSessions/#/reviewers/#
""".splitlines())

# where what an approval makes is read
PLACES = {"Vendor": "vendors", "Module": "modules", "Environment": "oes", "Certification": "testSessions"}

STATUSES = {"400 Bad Request": "badHead truncated badLength hostMissing bodyNotJson bodyEnvelope bodyField"
                               " notByteOriented lengthOutOfRange unsupported unknownTest duplicateTest setMismatch"
                               " noReference badPage",
            "401 Unauthorized": "tokenMissing tokenMalformed tokenSignature tokenClaims tokenExpired",
            "403 Forbidden": "accountRefused accountTokenNeeded sessionTokenNeeded otherSession notSample"
                             " sampleNotCertifiable accountFull loginRefused renewalRefused reviewersFull",
            "404 Not Found": "noRoute noResource", "405 Method Not Allowed": "noMethod",
            "409 Conflict": "sessionCancelled sessionExpired sessionFrozen setCancelled setExpired alreadySubmitted"
                            " notSubmitted notPassed",
            "411 Length Required": "lengthMissing", "413 Payload Too Large": "bodyTooLarge",
            "431 Request Header Fields Too Large": "headTooLarge", "501 Not Implemented": "transferCoding",
            "503 Service Unavailable": "clockOutOfRange"}
STATUS_OF = {word: status for status, words in STATUSES.items() for word in words.split()}


def reply(moment, status, body, more=()):
    """A whole reply; past the last moment it has no Date."""
    lines = [f"HTTP/1.1 {status}"]
    lines += [f"Date: {email.utils.formatdate(moment, usegmt=True)}"] if moment <= LAST else []
    lines += ["Content-Type: application/json", f"Content-Length: {len(body)}", "Connection: close", *more, "", ""]
    return "\r\n".join(lines).encode() + body


def refusal(moment, word, more=()):
    status = STATUS_OF[word]
    more = ["WWW-Authenticate: Bearer"] if status.startswith("401 ") else more
    return reply(moment, status, b'[{"acvVersion":"1.0"},{"error":"%s"}]' % word.encode(), more)


def request(method, target, lines=(), body=b""):
    lines = [f"{method} /acvp/v1{target} HTTP/1.1", "Host: localhost", *lines, f"Content-Length: {len(body)}", "", ""]
    return "\r\n".join(lines).encode() + body


def read_cases():
    """The texts, the steps and the cases of all files, each by its name."""
    found = {"text": {}, "steps": {}, "case": {}}
    for path in sorted(glob.glob(os.path.join(CASES, "*.txt"))):
        lines = None
        with open(path, encoding="utf-8") as file:
            for line in file.read().splitlines():
                kind, _, rest = line.partition(" ")
                if kind == "text":
                    name, _, rest = rest.partition(" ")
                    assert name not in found["text"], f"two texts {name}"
                    found["text"][name] = rest
                elif kind in found:
                    assert rest not in found[kind], f"two of {line}"
                    lines = found[kind][rest] = []
                elif line and kind != "#":
                    lines.append(line)
    return found["text"], found["steps"], found["case"]


def kept(body):
    """A body of answers, and its forms in which the Monte Carlo test at its end lacks something or has too much."""
    def with_last(change):
        thing = json.loads(body)
        change(thing[1]["testGroups"])
        return json.dumps(thing, separators=(",", ":"))

    def with_entries(change):
        def of_last(groups):
            test = groups[-1]["tests"][-1]
            test["resultsArray"] = change(test.get("resultsArray", []))
        return with_last(of_last)
    return {"": body.decode(), ".but_an_entry": with_entries(lambda entries: entries[:-1]),
            ".with_an_entry_more": with_entries(lambda entries: entries + entries[-1:]),
            ".without_entries": with_entries(lambda entries: []),
            ".but_the_last_group": with_last(lambda groups: groups.pop())}


class Script:
    """Records that a script is run over."""
    is_file = False

    def __init__(self, command):
        self.server = Piped(command)

    def ask(self, moment, text):
        return self.server.ask_at(moment, text)

    def order(self, text):
        return self.server.order(text)

    def records(self):
        return None

    def end(self):
        self.server.end()


class File:
    """Records in a file that is served."""
    is_file = True

    def __init__(self, program, shim, folder):
        self.program, self.folder = program, folder
        self.db, self.keys = os.path.join(folder, "laboratory.db"), os.path.join(folder, "keys.txt")
        self.under("token:0 seed:0")
        subprocess.run([program, "init", "--db", self.db], check=True, stdout=subprocess.DEVNULL)
        self.server = Served(program, self.db, self.keys, shim)

    def under(self, keys):
        with open(self.keys, "w") as file:
            for key in keys.split(" "):
                word, _, byte = key.partition(":")
                file.write(f"{word} {'-' if byte == '-' else bytes([int(byte)] * 32).hex()}\n")

    def ask(self, moment, text):
        return self.server.ask_at(moment, text)

    def order(self, text):
        """Carries an order out by its command, and gives the answer that it has in a script."""
        word, _, number, *secret = text.split(" ")
        options = ["--account" if word.startswith("account") else "--request", number]
        if secret:
            options += ["--secret", os.path.join(self.folder, "secret.txt")]
            with open(options[-1], "w") as file:
                file.write(secret[0] + "\n")
        command = [self.program, word, "--db", self.db, *options]
        done = subprocess.run(command, capture_output=True, text=True, timeout=600)
        self.printed = done.stdout
        return "order done" if done.returncode == 0 else "order " + done.stderr.removeprefix("fault: ").rstrip("\n")

    def select(self, statement):
        """What SQLite gives over a copy of the file and its log."""
        with tempfile.TemporaryDirectory() as folder:
            copy = os.path.join(folder, "copy.db")
            for end in ("", "-wal"):
                if os.path.exists(self.db + end):
                    with open(self.db + end, "rb") as file, open(copy + end, "wb") as to:
                        to.write(file.read())
            with closing(sqlite3.connect(copy)) as connection:
                return statement(connection)

    def records(self):
        def dump(connection):
            return [line for line in connection.iterdump() if "INSERT INTO" in line and '"meta"' not in line]
        return self.select(dump)

    def end(self):
        self.server.end()


class Play:
    """A case over records of its own."""

    def __init__(self, where, texts, steps):
        self.where, self.texts, self.blocks = where, dict(texts), steps
        for account in (7, 9):
            expect(f"account {account} is added", where.order(f"account-add 0 {account} {SECRET}"), "order done")

    def text(self, word):
        return "" if word == "-" else self.texts[word[1:]] if word.startswith("$") else word

    def follow(self, lines):
        for line in lines:
            word, _, rest = line.partition(" ")
            step = getattr(self, word, None) if word.isalpha() else None
            step(rest) if step else self.request(line)

    def takes(self, name):
        self.follow(self.blocks[name])

    # ---- orders

    def ordered(self, line, order, more=""):
        number, _, answer = line.partition(" ")
        kind, _, made = answer.partition(" ")
        word = "done" if kind in PLACES else answer
        expect(f"{order} {number}", self.where.order(f"{order} 0 {number}{more}"), f"order {word}")
        if self.where.is_file and kind in PLACES:
            printed = f"request {number} approved /acvp/v1/{PLACES[kind]}/{made}\n"
            expect(f"what {order} {number} prints", self.where.printed, printed)

    def approves(self, line):
        self.ordered(line, "request-approve")

    def rejects(self, line):
        self.ordered(line, "request-reject")

    def adds(self, line):
        self.ordered(line, "account-add", f" {SECRET}")

    def disables(self, line):
        self.ordered(line, "account-disable")

    # ---- of a file alone

    def under(self, keys):
        self.where.end()
        self.where.under(keys)

    def starts(self, line):
        word, fault = line.split(" ")
        assert word == "not", line
        self.where.end()
        files = ["--db", self.where.db, "--keys", self.where.keys]
        serve = [self.where.program, "serve", *files, "--port", str(free_port())]
        done = subprocess.run(serve, capture_output=True, text=True, timeout=600)
        expect("what serve says", (done.returncode, done.stdout, done.stderr), (1, "", f"fault: {fault}\n"))

    def stored(self, line):
        wanted, _, statement = line.partition(" ")
        found = self.where.select(lambda connection: connection.execute(statement).fetchall())
        expect(statement, found, [(int(wanted) if wanted.isdigit() else wanted,)])

    # ---- requests

    def request(self, line):
        moment, actions, first, second, token, query, body, *answer = line.split(" ", 7)
        low, _, high = second.partition("-")
        assert int(low) <= int(high or low), line
        for action in self.text(actions).split(","):
            for number in range(int(low), int(high or low) + 1):
                numbers = iter((first, str(number)))
                path = re.sub("#", lambda _: next(numbers), PATHS[action])
                self.ask(action, line, int(moment), path, token, self.text(query), self.text(body), *answer)

    def ask(self, action, line, moment, path, token, query, body, answer):
        what, (method, target) = f"{action} of {line}", path.split(" ")
        lines = {"missing": [], "doubled": ["Authorization: Bearer a.b.c"] * 2}.get(token)
        lines = [f"Authorization: Bearer {self.text(token)}"] if lines is None else lines
        before = self.where.records()
        got = self.where.ask(moment, request(method, target + (f"?{query}" if query else ""), lines, body.encode()))
        changed = self.where.records() != before
        is_change = self.answered(what, moment, got, answer)
        if self.where.is_file:
            expect(f"{what}: whether the records change", changed, is_change)

    def answered(self, what, moment, got, answer):
        """Compares a reply, and says whether the records must change."""
        kind, _, word = answer.partition(" ")
        if kind == "denies":
            expect(what, got, refusal(moment, word))
            return False
        body = got.partition(b"\r\n\r\n")[2]
        expect(what, got, reply(moment, "200 OK", body))
        if kind in ("shows", "makes", "repeats"):
            expect(what, body, self.text(word).encode())
        elif kind == "digests":
            expect(what, hashlib.sha256(body).hexdigest(), self.text(word))
        elif kind == "keeps":
            self.texts.update((word + form, text) for form, text in kept(body).items())
        else:
            expect(what, (kind, word in ("changed", "unchanged"), body != b""), ("accepts", True, True))
        return kind == "makes" or word == "changed"


# ---- whole requests

LOGIN = b'POST /acvp/v1/login HTTP/1.1\r\nHost: localhost\r\n%sContent-Length: 57\r\n%s\r\n' \
        b'[{"acvVersion":"1.0"},{"password":"46119246","user":"7"}]'
# requests and the words of their refusals
BROKEN = [(b"", "truncated"), (b"GET /\r\n\r\n", "badHead"), (b"GET / HTTP/1.1\r\n\r\n", "hostMissing"),
          (b"GET / HTTP/1.1\r\nHost: a\r\nHost: a\r\n\r\n", "hostMissing"), (b"GET / HTTP/1.0\r\n\r\n", "noRoute"),
          (b"POST /acvp/v1/login HTTP/1.1\r\nHost: a\r\n\r\n", "lengthMissing"),
          (b"GET / HTTP/1.1\r\nContent-Length: 5\r\nContent-Length: 6\r\nHost: a\r\n\r\n", "badLength"),
          (b"GET / HTTP/1.1\r\nContent-Length: 5\r\ncontent-length: 05\r\nHost: a\r\n\r\n1234", "truncated"),
          (b"GET / HTTP/1.1\r\nContent-Length: x\r\nHost: a\r\n\r\n", "badLength"),
          (b"GET / HTTP/1.1\r\nContent-Length: 2097153\r\nHost: a\r\n\r\n", "bodyTooLarge"),
          (b"POST / HTTP/1.1\r\nTransfer-Encoding: chunked\r\n\r\n", "transferCoding"),
          (LOGIN % (b"", b"Transfer-Encoding: chunked\r\n"), "transferCoding"),
          ((LOGIN % (b"", b"")).replace(b": 57\r\n", b": 2097153\r\n"), "bodyTooLarge"),
          (b"GET /acvp/v1/logins HTTP/1.1\r\nHost: a\r\n\r\n", "noRoute"),
          (b"GET /acvp/v1/testSessions/07000001 HTTP/1.1\r\nHost: a\r\n\r\n", "noRoute"),
          (b"GET /acvp/v1/%6cogin HTTP/1.1\r\nHost: a\r\n\r\n", "noRoute"), (b"a" * 16385, "headTooLarge")]
NO_TARGETS = [b"", b"/acvp/v1/testSessions/\xff"]
NO_PATHS = [b"/acvp/v1/login/", b"/acvp/v1/Login", b"/acvp/v1/algorithms/", b"/acvp/v1/algorithms/00",
            b"/acvp/v1/algorithms/+7", b"/acvp/v1/requests/10000000000000000000", b"/acvp/v1/testSessions/abc",
            b"/acvp/v1/testSessions/{session}",
            b"/acvp/v1/testSessions//results", b"/acvp/v1/testSessions/1/vectorSets/02/results",
            b"/acvp/v1/testSessions/01/vectorSets/2/results", b"/acvp/v1/testSessions/\xc2\x9b"]
# a method that a path doesn't have, and those that it has
OTHER_METHODS = [("DELETE /login?a=b", "POST"), ("DELETE /login", "POST"), ("DELETE /account", "GET"),
                 ("DELETE /testSessions", "GET, POST"), ("HEAD /testSessions/7000001", "GET, PUT, DELETE"),
                 ("get /testSessions/3/vectorSets/4", "GET, DELETE"),
                 ("DELETE /testSessions/3/vectorSets/4/results", "GET, POST, PUT"),
                 ("GET /testSessions/3/reviewers/8", "DELETE")]
# what stands before a good token in a head, what stands behind it, and the rule that such a read breaks
TOKENS = [("Authorization: Bearer ", "\r\n", ""), ("authorization: \t bEARER   ", "  \t\r\n", ""),
          ("Authorization: Bearer \t", "\r\n", "tokenMalformed"),
          ("Authorization: Bearer ", " b\r\n", "tokenMalformed"),
          ("Authorization: Basic ", "\r\n", "tokenMissing"), ("Authorization: Bearers ", "\r\n", "tokenMissing"),
          ("Authorization: Bearer\r\nToken: ", "\r\n", "tokenMissing")]


def whole_requests(where, texts):
    """Heads, framings, paths, methods, queries and tokens of whole requests."""
    def asked(moment, text, wanted):
        expect(f"{text!r} at {moment}", where.ask(moment, text), wanted)

    def read(head):
        return b"GET /acvp/v1/account HTTP/1.1\r\nHost: h\r\n" + head.encode() + b"\r\n"
    Play(where, texts, {})
    for text in (b"", LOGIN % (b"", b"")):
        asked(LAST + 1, text, refusal(LAST + 1, "clockOutOfRange"))
    asked(LAST, b"", refusal(LAST, "truncated"))
    for text, word in BROKEN:
        asked(90, text, refusal(90, word))
    for path in NO_PATHS:
        asked(90, b"GET " + path + b" HTTP/1.1\r\nHost: a\r\n\r\n", refusal(90, "noRoute"))
    for path in NO_TARGETS:
        asked(90, b"GET " + path + b" HTTP/1.1\r\nHost: a\r\n\r\n", refusal(90, "badHead"))
    longest = b"GET /acvp/v1/testSessions/0/vectorSets/9999999999999999999 HTTP/1.1\r\nHost: a\r\n\r\n"
    asked(90, longest, refusal(90, "tokenMissing"))
    for line, methods in OTHER_METHODS:
        method, target = line.split(" ")
        text = f"{method} /acvp/v1{target} HTTP/1.1\r\nHost: a\r\n\r\n".encode()
        asked(90, text, refusal(90, "noMethod", [f"Allow: {methods}"]))
    token, counts = texts["of_seven"], texts["login.no_rows"].encode()
    for before, behind, word in TOKENS:
        text = read(before + token + behind)
        asked(100, text, refusal(100, word) if word else reply(100, "200 OK", counts))
    line = f"Authorization: Bearer {token}\r\n"
    asked(100, read(line * 2), refusal(100, "tokenMalformed"))
    asked(100, read(""), refusal(100, "tokenMissing"))
    vendors = texts["registry.no_vendors_of_nine"].encode()
    for query in (b"", b"?"):
        text = b"GET /acvp/v1/vendors%s HTTP/1.1\r\nHost: h\r\n%s\r\n" % (query, line.encode())
        asked(100, text, reply(100, "200 OK", vendors))
    # a body ends with its length, whatever stands behind it and in the query
    for query in (b"", b"?", b"?limit=5&a?b"):
        text = (LOGIN % (b"", b"")).replace(b"/login ", b"/login%s " % query) + b" and more"
        asked(100, text, refusal(100, "loginRefused"))
    # lengths are equal as numbers
    asked(59, LOGIN % (b"", b"Content-Length: 057\r\n"), reply(59, "200 OK", texts["login.accepted"].encode()))


def main():
    texts, steps, cases = read_cases()
    is_file = sys.argv[1] == "--file"

    def play(lines):
        return lambda where: Play(where, texts, steps).follow(lines)

    def is_played(lines):
        return is_file or not any(re.match("under |starts |stored ", line) for line in lines)
    plays = {name: play(lines) for name, lines in cases.items() if is_played(lines)}
    plays["whole requests"] = lambda where: whole_requests(where, texts)
    for name, plays_it in plays.items():
        with tempfile.TemporaryDirectory() as folder:
            where = File(*sys.argv[2:], folder) if is_file else Script(sys.argv[1:])
            try:
                plays_it(where)
                where.end()
            except BaseException:
                print(f"the case {name}:", file=sys.stderr)
                where.server.process and where.server.process.kill()
                raise
    print(f"{len(plays)} cases, {laboratory.checked} comparisons")


main()

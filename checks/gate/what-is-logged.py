"""The lines that serving writes if `--log` is given, in words and as JSON: one for each request and order, with what it says; nothing of what
came but the program's own words and numbers; and replies that are the same with and without it.

    what-is-logged.py PROGRAM SHIM

SHIM is the library of set_clock.c, which shows the program one moment."""
import datetime
import json
import os
import re
import socket
import struct
import sys
import tempfile
import time

from laboratory import Laboratory, encoded, expect, one_time_code, read_all, request, shown, signed
import laboratory
import page_sums

MOMENT, END_OF_MOMENTS = 1790000000, 4102444800
MARK = "marked-by-who-sent-it"
LINE = re.compile(r"(\S+) (-|[1-9]\d{0,3}) (-|[A-Za-z]+|[a-z]+-[a-z]+) (-|\d+) (-|\d{3}) ([A-Za-z]+|-) (\d+)((?: unsent| because: [ -~]+)?)\n")
# What a line is expected to tell, but for the milliseconds.
WANTED = re.compile(r"(\S+) (\S+) (\S+) (\S+) (\S+)(?: because: (.*))?")
MEMBERS = ["account", "action", "because", "milliseconds", "result", "sent", "status", "subject", "time"]
STORE = ("the store refused a statement (a full disk, a folder that can't be written to), or met a damaged page or a malformed"
         " row")
REGISTRATION = {"algorithms": [{"algorithm": "SHA2-256", "revision": "1.0", "messageLength": [8]}], "mark": MARK}


def told_as(moment):
    """The date and time of a moment, as a line begins with it."""
    return datetime.datetime.fromtimestamp(moment, datetime.timezone.utc).strftime("%Y-%m-%dT%H:%M:%SZ")


class Logged:
    """A laboratory that is served under a clock that is set, whose lines are read one by one."""

    def __init__(self, program, shim, folder, options):
        self.lab = Laboratory(program, folder)
        self.options, self.path, self.read = options, self.lab.path("log"), 0
        self.secret_texts, self.replies, self.lines = [], [], []
        self.clock = self.lab.path("clock")
        self.at(MOMENT)
        os.environ.update({"LD_PRELOAD": shim, "CLOCK": self.clock})
        self.lab.does("ready", "init", "--db", self.lab.db)

    def at(self, moment):
        self.moment = moment
        self.lab.write(self.clock, f"{moment}\n")

    def serve(self):
        with open(self.path, "ab") as faults:
            self.lab.serve(count=None, more=self.options, faults=faults)

    def line(self):
        """The next line. It may be written once the reply is out."""
        for _ in range(500):
            with open(self.path, "rb") as file:
                file.seek(self.read)
                line, end, _ = file.read().partition(b"\n")
            if end:
                self.read += len(line) + 1
                return (line + end).decode()
            time.sleep(0.01)
        raise SystemExit("a line is missing")

    def tells(self, what, wanted):
        """The next line has this account, action, number, status, word, and what stands behind the milliseconds."""
        if not self.options:
            return
        line = self.line()
        self.lines.append(line)
        if "json" in self.options:
            self.tells_object(what, line, wanted)
            return
        found = LINE.fullmatch(line)
        expect(f"the form of the line {line!r} of {what}", found is not None, True)
        moment, account, action, subject, status, word, took, tail = found.groups()
        expect(f"the line of {what}", (moment, f"{account} {action} {subject} {status} {word}{tail}"), (told_as(self.moment), wanted))
        expect(f"the milliseconds of {what}", int(took) < 60000, True)

    def tells_object(self, what, line, wanted):
        """The line is an object of this, with all members, null if none or unknown."""
        told = json.loads(line)
        expect(f"the form of the line of {what}", (json.dumps(told, separators=(",", ":")) + "\n", list(told)), (line, MEMBERS))
        account, action, subject, status, word, because = WANTED.fullmatch(wanted).groups()
        known, number = lambda text: None if text == "-" else text, lambda text: None if text == "-" else int(text)
        milliseconds = told["milliseconds"]
        expect(f"the line of {what}", told, dict(zip(MEMBERS, (
            number(account), known(action), because, milliseconds, known(word), word != "broken", number(status), number(subject),
            told_as(self.moment)))))
        expect(f"the milliseconds of {what}", type(milliseconds) is int and 0 <= milliseconds < 60000, True)

    def asks(self, what, text, wanted):
        """What a request is answered, whose line is this."""
        with self.lab.connect() as connection:
            connection.sendall(text)
            connection.shutdown(socket.SHUT_WR)
            reply = read_all(connection)
        self.replies.append(reply)
        self.tells(what, wanted)
        return reply

    def calls(self, wanted, method, path, token=None, thing=None, body=None):
        return shown(self.asks(f"{method} {path}", request(method, path, token, thing, body), wanted))[1]

    def orders(self, what, line, wanted):
        """What a line at the socket is answered, whose own line is this."""
        with socket.socket(socket.AF_UNIX) as connection:
            connection.connect(self.lab.db + "-orders")
            connection.sendall(line)
            connection.shutdown(socket.SHUT_WR)
            self.replies.append(read_all(connection))
        self.tells(what, wanted)

    def quiet(self):
        """No line is left."""
        with open(self.path, "rb") as file:
            file.seek(self.read)
            expect("what else is written", file.read(), b"")


def requests(it):
    """Each kind of request, with and without a token."""
    secret = it.lab.secret(7)
    it.orders("account-add", f"account-add 1 7 {secret.hex()}\n".encode(), "- account-add 7 - ok")
    code = one_time_code(secret, MOMENT)
    it.secret_texts += [secret.hex(), code, MARK]
    login = {"password": code, "user": "7", "mark": MARK}
    it.calls("- Login - 403 loginRefused", "POST", "/login", thing={**login, "password": "00000000"})
    it.calls("- Login - 400 bodyField", "POST", "/login", thing={"user": "7"}, token=signed({"sub": "8", "iat": 1, "exp": 2}))
    token = it.calls("7 Login - 200 ok", "POST", "/login", thing=login)["accessToken"]
    it.calls("- Login - 403 loginRefused", "POST", "/login", thing=login)
    it.calls("7 ReadAccount - 200 ok", "GET", "/account", token)
    it.calls("- ReadAccount - 401 tokenMissing", "GET", "/account")
    it.calls("- ReadAccount - 401 tokenMalformed", "GET", "/account", MARK)
    forged = signed({"exp": MOMENT + 9, "iat": MOMENT, "sub": "8"}, bytes([1] * 32))
    it.calls("- ReadAccount - 401 tokenSignature", "GET", "/account", forged)
    old = signed({"exp": MOMENT, "iat": MOMENT - 9, "sub": "7"})
    it.calls("- ReadAccount - 401 tokenExpired", "GET", "/account", old)
    it.calls("8 ReadAccount - 403 accountRefused", "GET", "/account", signed({"exp": MOMENT + 9, "iat": MOMENT, "sub": "8"}))
    it.calls("7 NewSession - 400 bodyField", "POST", "/testSessions", token, {"mark": MARK})
    it.calls("7 NewSession - 400 bodyNotJson", "POST", "/testSessions", token, body=MARK.encode())
    session = it.calls("7 NewSession - 200 ok", "POST", "/testSessions", token, REGISTRATION)
    bound, path = session["accessToken"], session["url"].removeprefix("/acvp/v1")
    it.secret_texts += [part for one in (token, bound, forged, old) for part in one.split(".")[1:]]
    of_set = session["vectorSetUrls"][0].removeprefix("/acvp/v1")
    it.calls("7 ReadSet 700000101 200 ok", "GET", of_set, bound)
    it.calls("7 SetResults 700000101 200 ok", "GET", of_set + "/results", bound)
    it.calls("7 Resubmit 700000101 409 notSubmitted", "PUT", of_set + "/results", bound, {"mark": MARK})
    it.calls("7 ReadSession 7000001 403 sessionTokenNeeded", "GET", path, token)
    it.calls("7 NewVendor - 403 accountTokenNeeded", "POST", "/vendors", bound, {"name": MARK})
    it.calls("7 ReadSession 8000001 403 otherSession", "GET", "/testSessions/8000001", bound)
    it.calls("7 ReadSet 1 404 noResource", "GET", path + "/vectorSets/1", bound)
    it.calls("7 NewVendor - 200 ok", "POST", "/vendors", token, {"name": MARK})
    it.calls("7 ListVendors - 400 badPage", "GET", f"/vendors?{MARK}", token)
    longest = "9" * 19
    it.calls(f"- ReadSet {longest} 401 tokenMissing", "GET", f"/testSessions/0/vectorSets/{longest}")
    it.calls("- - - 404 noRoute", "GET", f"/testSessions/0/vectorSets/1{longest}", token)
    it.calls("- - - 404 noRoute", "GET", f"/{MARK}", token)
    it.calls("- - - 405 noMethod", "DELETE", "/account", token)


def orders(it):
    """Each kind of order, and what is none."""
    it.orders("an account that is there", b"account-add 1 7 " + b"ab" * 32 + b"\n", "- account-add 7 - taken")
    it.orders("a rejection", b"request-reject 1 7000001\n", "- request-reject 7000001 - ok")
    it.orders("another rejection", b"request-reject 1 7000001\n", "- request-reject 7000001 - notInitial")
    it.orders("an approval of nothing", b"request-approve 1 7000002\n", "- request-approve 7000002 - unknown")
    it.orders("another word", f"{MARK} 1 7\n".encode(), "- - - - syntax")
    it.orders("nothing", b"", "- - - - syntax")
    it.orders("control characters", b"account-disable 1 \x1b[31m7\r\n", "- - - - syntax")
    it.orders("account-disable", b"account-disable 1 7\n", "- account-disable 7 - ok")
    token = signed({"exp": MOMENT + 9, "iat": MOMENT, "sub": "7"})
    it.calls("7 ReadAccount - 403 accountRefused", "GET", "/account", token)


def hostile_bytes(it):
    """What is no request, and what is a large one."""
    it.asks("nothing", b"", "- - - 400 truncated")
    it.asks("half a head", b"GET /acvp/v1/account HTTP/1.1\r\nHost:", "- - - 400 truncated")
    host = b" HTTP/1.1\r\nHost: laboratory.example\r\n"
    for what, target in [("an escape", b"/\x1b[31m"), ("a bell", b"/acvp/v1/account\x07"), ("a line feed", b"/acvp\n1 7 Login 200 ok 0"),
                         ("a null", b"/\0")]:
        it.asks(what, b"GET " + target + host + b"\r\n", "- - - 400 badHead")
    it.asks("an escape by two bytes", b"GET /\xc2\x9b31m" + host + b"\r\n", "- - - 404 noRoute")
    it.asks("a control character in a field", b"GET /acvp/v1/account" + host + b"A: \x1b[31m\r\n\r\n", "- - - 400 badHead")
    it.asks("no bytes of a head", bytes(range(256)) * 100, "- - - 431 headTooLarge")
    it.asks("a method of another name", b"\x1b[31m /acvp/v1/account" + host + b"\r\n", "- - - 400 badHead")
    it.asks("two fields for the token", b"GET /acvp/v1/account" + host + b"Authorization: Bearer a\r\n" * 2 + b"\r\n",
            "- ReadAccount - 401 tokenMalformed")
    it.asks("no token", b"GET /acvp/v1/account" + host + b"Authorization: \x80\r\n\r\n", "- ReadAccount - 401 tokenMissing")
    it.asks("claims that are none", request("GET", "/account", (encoded(b"{}") + b".\x1b." + encoded(b"{}")).decode()),
            "- - - 400 badHead")
    large = b"[" + b"\x1b" * (2097152 - 2) + b"]"
    it.calls("- Login - 400 bodyNotJson", "POST", "/login", body=large)
    it.calls("- Login - 400 bodyEnvelope", "POST", "/login", body=b"[" + b'"' + MARK.encode() + b"a" * 2097000 + b'"' + b"]")
    it.asks("a body that is too large", request("POST", "/login", body=b"") .replace(b"Content-Length: 0", b"Content-Length: 2097153"),
            "- - - 413 bodyTooLarge")
    with it.lab.connect() as broken:
        broken.sendall(b"GET /acvp")
        it.lab.wait_until_read(broken)
        broken.setsockopt(socket.SOL_SOCKET, socket.SO_LINGER, struct.pack("ii", 1, 0))
    it.tells("a connection that is reset", "- - - - broken")


def what_is_unavailable(it):
    """For each 503 the line says why, as far as it can be told."""
    lab = it.lab
    it.lab.kill()
    connection = page_sums.connect(lab.db)
    with connection:
        connection.execute("INSERT INTO account SELECT 8, X'00', 1, last_step FROM account")
    connection.close()
    it.serve()
    token = signed({"exp": MOMENT + 9, "iat": MOMENT, "sub": "8"})
    because = f" because: {STORE}"
    it.calls(f"8 ReadAccount - 503 unavailable{because}", "GET", "/account", token)
    it.orders("an order on such a row", b"account-disable 1 8\n", f"- account-disable 8 - unavailable{because}")
    other = lab.path("other")
    os.link(lab.db, other)
    it.calls("8 ReadAccount - 503 unavailable because: it has 2 names (hard links), and may have one", "GET", "/account", token)
    os.remove(other)
    os.rename(lab.db, other)
    it.calls("8 ReadAccount - 503 unavailable because: there is no such file", "GET", "/account", token)
    os.rename(other, lab.db)
    it.at(END_OF_MOMENTS)
    past = "because: the clock is past the year 2099, or can't be read"
    it.calls(f"- - - 503 clockOutOfRange {past}", "GET", "/account", token)
    it.at(MOMENT)
    it.calls("- ReadAccount - 401 tokenMissing", "GET", "/account")


def nobody_reads(program):
    """Where nobody reads the lines any more, they are lost, and serving goes on."""
    with tempfile.TemporaryDirectory() as folder:
        lab = Laboratory(program, folder)
        lab.does("ready", "init", "--db", lab.db)
        unknown = lab.run("serve", "--db", lab.db, "--keys", "none", "--port", "1", "--log", "xml")
        expect("a log of no known form", unknown[:2], (2, ""))
        lab.serve(count=3, more=["--log"])
        try:
            lab.call("GET", "/account")
            expect("the first line", LINE.fullmatch(lab.process.stderr.readline().decode()) is not None, True)
            lab.process.stderr.close()
            for _ in range(2):
                expect("an answer whose line nobody reads", lab.call("GET", "/account")[0], 401)
            expect("the end of serve", (lab.process.stdout.read(), lab.process.wait(60)), (b"served 3\n", 0))
        finally:
            lab.process.kill()
            lab.process.wait()


def run(program, shim, *options):
    """The bytes of all answers, and the lines."""
    with tempfile.TemporaryDirectory() as folder:
        it = Logged(program, shim, folder, list(options))
        try:
            it.serve()
            for part in (requests, orders, hostile_bytes, what_is_unavailable):
                part(it)
            it.quiet()
        finally:
            it.lab.kill()
            for name in ("LD_PRELOAD", "CLOCK"):
                os.environ.pop(name, None)
        with open(it.path, "rb") as file:
            log = file.read()
        expect("the bytes of the lines", [byte for byte in set(log) if byte != 10 and not 32 <= byte < 127], [])
        for text in it.secret_texts:
            expect("a token, a code, a secret or a body in the lines", text.encode() in log, False)
        if not options:
            expect("what is written without --log", log, b"")
        return it.replies, it.lines


def main():
    program, shim = os.path.abspath(sys.argv[1]), os.path.abspath(sys.argv[2])
    without, _ = run(program, shim)
    for options in (["--log", "json"], ["--log"]):
        with_lines, lines = run(program, shim, *options)
        expect("how many answers there are", len(with_lines), len(without))
        for one, other in zip(with_lines, without):
            expect("an answer with and without --log", one, other)
    nobody_reads(program)
    print(f"{len(lines)} lines; {laboratory.checked} comparisons")


main()

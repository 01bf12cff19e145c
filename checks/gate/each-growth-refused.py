#!/usr/bin/env python3
"""Runs a script with each growth of memory refused in turn, or does so with requests over a file that is served.

    each-growth-refused.py SHIM FAULT COMMAND..
    each-growth-refused.py --file SHIM CLOCK PROGRAM KEYS

COMMAND runs the server in script mode under a token key and a seed of zeros, and FAULT is what it writes to its
standard error where memory ends the run. SHIM is the library of refuse_growth.c.

The right answers are those of the small server below, which is written from the protocol and not from the program.
With nothing refused every answer is right, and none is `unavailable`. With one growth refused, the event that was
being handled may be answered `unavailable`, and has then changed nothing: every other answer is right, and so is
that to the same event where it is sent again. Or the run ends there as `fault: memory`, with the answers to the
events before it.

With --file PROGRAM serves a file under the keys in KEYS, and CLOCK, the library of set_clock.c, shows it the moment of
each request: a login, one POST and one GET. Each growth from the moment that it listens until it has replied is refused
to a process of its own, over a copy of the file. The reply is right; or it is `unavailable`, and the same request, sent
again, is answered right. The process goes on. Of the growths before it listens some are refused, too: there it may also
end as `fault: memory`. Each time the file is then served anew with nothing refused: what was acknowledged is there, and
nothing else. The command that adds an account is done, or it is `fault: unavailable` or `fault: memory`. Given again it
is `taken`, or done where it wasn't acknowledged, and the account logs in."""
import copy
import hashlib
import itertools
import os
import shutil
import subprocess
import sys
import tempfile
import time

from chacha20 import Words
from laboratory import Served, compact, signed
from validation import one_time_code

IS_SERVED = sys.argv[1] == "--file"
if IS_SERVED:
    SHIM, CLOCK, PROGRAM, KEYS = sys.argv[2:]
else:
    SHIM, FAULT, COMMAND = sys.argv[1], sys.argv[2].encode(), sys.argv[3:]
TOKEN_KEY, SEED = bytes(32), bytes(32)
ANOTHER_KEY = bytes(range(32))
SECRET = b"12345678901234567890123456789012"
DAYS = ["Mon", "Tue", "Wed", "Thu", "Fri", "Sat", "Sun"]
MONTHS = ["Jan", "Feb", "Mar", "Apr", "May", "Jun", "Jul", "Aug", "Sep", "Oct", "Nov", "Dec"]


def token(issued, session=None, account="7", key=TOKEN_KEY):
    claims = {"exp": issued + 1800, "iat": issued, "sub": account}
    return signed(claims if session is None else {**claims, "sid": session}, key)


def reply(status, phrase, thing, moment=None, besides=b""):
    body = compact([{"acvVersion": "1.0"}, thing])
    lines = [b"HTTP/1.1 %d %s" % (status, phrase.encode())]
    if moment is not None:
        at = time.gmtime(moment)
        date = f"{DAYS[at.tm_wday]}, {at.tm_mday:02} {MONTHS[at.tm_mon - 1]}"
        lines.append(f"Date: {date} {time.strftime('%Y %H:%M:%S', at)} GMT".encode())
    lines += [b"Content-Type: application/json", b"Content-Length: %d" % len(body), b"Connection: close"]
    text = b"\r\n".join(lines + [besides + b"\r\n"]) + body
    return b"reply %d\n%s\n" % (len(text), text)


class Event:
    """An event of a script. Its answer is a function of the accounts, which it changes: each number has whether the
    account is enabled and the last step that it has used; `session` has when that of account 7 was created and whether
    the answers to its set pass."""

    def __init__(self, what, text, unavailable, answer):
        self.what, self.text, self.unavailable, self.answer = what, text, unavailable, answer


def order(what, line, answer):
    return Event(what, line + b"\n", b"order unavailable\n", lambda accounts: b"order %s\n" % answer(accounts))


def add(number):
    def answer(accounts):
        if number in accounts:
            return b"taken"
        accounts[number] = {"enabled": True, "last": -1}
        return b"done"
    return order("add", b"account-add 0 %d %s" % (number, SECRET.hex().encode()), answer)


def disable(number):
    def answer(accounts):
        if number not in accounts:
            return b"unknown"
        accounts[number]["enabled"] = False
        return b"done"
    return order("disable", b"account-disable 0 %d" % number, answer)


def request(what, moment, text, answer):
    unavailable = reply(503, "Service Unavailable", {"error": "unavailable"})
    return Event(what, b"request %d %d\n%s\n" % (moment, len(text), text), unavailable, answer)


def refused(what, moment, text, status, phrase, word, besides=b"", dated=True):
    answer = reply(status, phrase, {"error": word}, moment if dated else None, besides)
    return request(what, moment, text, lambda accounts: answer)


def posting(body, path=b"/acvp/v1/login", method=b"POST"):
    return b"%s %s HTTP/1.1\r\nHost: localhost\r\nContent-Length: %d\r\n\r\n%s" % (method, path, len(body), body)


def login(what, moment, step, access=None, renews=True, session=None, number=7):
    """A login with the code of a step, which is the moment's own or the one before it."""
    assert moment // 30 - step in (0, 1)
    members = {"password": one_time_code(SECRET, step * 30), "user": str(number)}
    if access is not None:
        members["accessToken"] = access

    def answer(accounts):
        account = accounts.get(number, {"enabled": False})
        if not account["enabled"] or step <= account["last"]:
            return reply(403, "Forbidden", {"error": "loginRefused"}, moment)
        if not renews:
            return reply(403, "Forbidden", {"error": "renewalRefused"}, moment)
        account["last"] = step
        return reply(200, "OK", {"accessToken": token(moment, session, str(number))}, moment)
    return request(what, moment, posting(compact([{"acvVersion": "1.0"}, members])), answer)


# The one vector set of the first session of account 7: SHA2-256 over messages of one byte. The greatest length and 16
# drawn ones are the same; the words of the draws come first.
SESSION, SET = 7000001, 700000101
WORDS = Words(SEED, SET)
WORDS.take(16 * 4)
MESSAGES = [WORDS.take(1) for _ in range(17)]
SESSION_URL = f"/acvp/v1/testSessions/{SESSION}"
SET_URL = f"{SESSION_URL}/vectorSets/{SET}"
REGISTERED = {"algorithms": [{"algorithm": "SHA2-256", "messageLength": [8], "revision": "1.0"}]}
ANSWERS = [{"md": hashlib.sha256(message).hexdigest(), "tcId": n + 1} for n, message in enumerate(MESSAGES)]


def called(what, moment, method, path, shown, body=None, bound=True):
    """A request with a token of account 7, which is bound to its first session or to none. It is answered by what is
    shown, a status with its phrase and an object, where its caller is let in and what it names is there."""
    bearer = token(moment, SESSION if bound else None)
    head = f"{method} {path} HTTP/1.1\r\nHost: localhost\r\nAuthorization: Bearer {bearer}\r\n".encode()
    if body is None:
        text = head + b"\r\n"
    else:
        sent = compact([{"acvVersion": "1.0"}, body])
        text = head + b"Content-Length: %d\r\n\r\n%s" % (len(sent), sent)

    def answer(accounts):
        if not accounts.get(7, {"enabled": False})["enabled"]:
            return reply(403, "Forbidden", {"error": "accountRefused"}, moment)
        if bound and "session" not in accounts:
            return reply(404, "Not Found", {"error": "noResource"}, moment)
        status, phrase, thing = shown(accounts, moment)
        return reply(status, phrase, thing, moment)
    return request(what, moment, text, answer)


def time_text(moment):
    return time.strftime("%Y-%m-%dT%H:%M:%SZ", time.gmtime(moment))


def new_session(accounts, moment):
    accounts["session"] = {"created": moment, "passed": None}
    return 200, "OK", {"accessToken": token(moment, SESSION), "createdOn": time_text(moment),
                       "expiresOn": time_text(moment + 2592000), "url": SESSION_URL, "vectorSetUrls": [SET_URL]}


def prompts(accounts, moment):
    tests = [{"len": 8, "msg": message.hex(), "tcId": n + 1} for n, message in enumerate(MESSAGES)]
    return 200, "OK", {"algorithm": "SHA2-256", "isSample": False, "revision": "1.0", "vsId": SET,
                       "testGroups": [{"testType": "AFT", "tests": tests, "tgId": 1}]}


def submitted(is_first, passed):
    def answer(accounts, moment):
        session = accounts["session"]
        if is_first and session["passed"] is not None:
            return 409, "Conflict", {"error": "alreadySubmitted"}
        if not is_first and session["passed"] is None:
            return 409, "Conflict", {"error": "notSubmitted"}
        session["passed"] = passed
        return 200, "OK", {"status": "received", "url": f"{SET_URL}/results"}
    return answer


def results(accounts, moment):
    passed = accounts["session"]["passed"]
    result = "missing" if passed is None else "passed"
    tests = [{"result": result, "tcId": test["tcId"]} for test in ANSWERS]
    if passed is False:
        tests[0]["result"] = "fail"
    disposition = {None: "unreceived", True: "passed", False: "fail"}[passed]
    return 200, "OK", {"disposition": disposition, "tests": tests, "vsId": SET}


def session_results(accounts, moment):
    passed = accounts["session"]["passed"]
    status = {None: "unreceived", True: "passed", False: "fail"}[passed]
    return 200, "OK", {"passed": passed is True, "results": [{"status": status, "vectorSetUrl": SET_URL}]}


def new_vendor(accounts, moment):
    accounts["requests"] = accounts.get("requests", []) + ["initial"]
    return 200, "OK", {"status": "initial", "url": f"/acvp/v1/requests/{7000000 + len(accounts['requests'])}"}


def approve(number):
    def answer(accounts):
        place = number - 7000001
        if place >= len(accounts.get("requests", [])):
            return b"unknown"
        if accounts["requests"][place] != "initial":
            return b"notInitial"
        accounts["requests"][place] = "approved"
        return b"done"
    return order("approval", b"request-approve 0 %d" % number, answer)


def vendor(accounts, moment):
    if "approved" not in accounts.get("requests", []):
        return 404, "Not Found", {"error": "noResource"}
    return 200, "OK", {"name": "V", "url": "/acvp/v1/vendors/7000001"}


def vendor_request(accounts, moment):
    url = "/acvp/v1/requests/7000001"
    if "requests" not in accounts:
        return 404, "Not Found", {"error": "noResource"}
    if "approved" not in accounts.get("requests", []):
        return 200, "OK", {"status": "initial", "url": url}
    return 200, "OK", {"approvedUrl": "/acvp/v1/vendors/7000001", "status": "approved", "url": url}


def sent(tests):
    return {"testGroups": [{"tests": tests, "tgId": 1}], "vsId": SET}


WRONG = [{"md": ANSWERS[0]["md"][::-1], "tcId": 1}] + ANSWERS[1:]


def refused_body(moment, body, word):
    return refused("refused body", moment, posting(body), 400, "Bad Request", word)


EVENTS = [
    add(7), add(7), add(8), disable(9),
    refused_body(59, b'[{"acvVersion":"1.0"},{"password":"46119246","user":"7"}', "bodyNotJson"),
    refused_body(59, b'[{"acvVersion":"1.0"},{"password":46119246.5,"user":"7"}]', "bodyNotJson"),
    refused_body(59, b'[{"acvVersion":"1.1"},{"password":"46119246","user":"7"}]', "bodyEnvelope"),
    refused_body(59, b'[{"acvVersion":"1.0"},{"password":"46119246","user":7}]', "bodyField"),
    login("login", 59, 1), login("login", 60, 1),
    login("renewal", 90, 3, token(59)),
    login("renewal", 100000, 3333, token(59, 7000001), session=7000001),
    login("refused renewal", 100020, 3334, token(59, 8000001), renews=False),
    login("refused renewal", 100021, 3334, token(59, key=ANOTHER_KEY), renews=False),
    login("refused renewal", 100022, 3334, token(59, account="8"), renews=False),
    login("renewal", 100023, 3334, token(100000, 7000001), session=7000001),
    login("login", 100024, 3334), login("login", 100050, 3335),
    refused("other path", 90, posting(b"[]", b"/acvp/v1/logins"), 404, "Not Found", "noRoute"),
    refused("other method", 90, posting(b"[]", method=b"PUT"), 405, "Method Not Allowed", "noMethod",
            b"Allow: POST\r\n"),
    refused("head", 90, b"POST /acvp/v1/login HTTP/1.1\r\n", 400, "Bad Request", "truncated"),
    refused("clock", 4102444800, posting(b"[]"), 503, "Service Unavailable", "clockOutOfRange", dated=False),
    called("new session", 100060, "POST", "/acvp/v1/testSessions", new_session, REGISTERED, bound=False),
    called("prompts", 100061, "GET", SET_URL, prompts),
    called("resubmission", 100062, "PUT", f"{SET_URL}/results", submitted(False, True), sent(ANSWERS)),
    called("submission", 100063, "POST", f"{SET_URL}/results", submitted(True, False), sent(WRONG)),
    called("results", 100064, "GET", f"{SET_URL}/results", results),
    called("resubmission", 100065, "PUT", f"{SET_URL}/results", submitted(False, True), sent(ANSWERS)),
    called("results", 100066, "GET", f"{SET_URL}/results", results),
    called("session's results", 100067, "GET", f"{SESSION_URL}/results", session_results),
    approve(7000001),
    called("new vendor", 100068, "POST", "/acvp/v1/vendors", new_vendor, {"name": "V"}, bound=False),
    called("request", 100069, "GET", "/acvp/v1/requests/7000001", vendor_request, bound=False),
    called("vendor", 100069, "GET", "/acvp/v1/vendors/7000001", vendor, bound=False),
    approve(7000001), approve(7000001),
    called("request", 100070, "GET", "/acvp/v1/requests/7000001", vendor_request, bound=False),
    called("vendor", 100070, "GET", "/acvp/v1/vendors/7000001", vendor, bound=False),
    disable(7), login("login", 100080, 3336), login("login", 100081, 3336, number=8),
]
# What no memory can be refused to: the moment and the head are judged before any is asked for.
NEVER_UNAVAILABLE = {"head", "clock"}
# What asks for memory, so that the refusals must have met it.
MET = {"add", "refused body", "login", "renewal", "refused renewal", "new session", "prompts", "submission", "resubmission",
       "results", "session's results", "new vendor", "approval", "request", "vendor"}


def right_answers(events, without=None):
    """The answers where nothing is refused but, if it is given, the event at this place."""
    accounts = {}
    return [e.unavailable if at == without else e.answer(accounts) for at, e in enumerate(events)]


def run(events, at, folder):
    """The program's status, output and errors, and how much of the output was written where the growth was refused."""
    mark, output = (os.path.join(folder, name) for name in ("refused", "output"))
    env = {"LD_PRELOAD": SHIM, "REFUSE_AT": str(at), "REFUSED": mark}
    with open(output, "wb") as file:
        ran = subprocess.run(COMMAND, input=b"".join(e.text for e in events), stdout=file,
                             stderr=subprocess.PIPE, env=env, timeout=600)
    written = None
    if os.path.exists(mark):
        with open(mark) as file:
            written = int(file.read())
        os.remove(mark)
    with open(output, "rb") as file:
        return ran.returncode, file.read(), ran.stderr, written


def judge(events, at, folder):
    """Runs the events with this growth refused, and gives the place of the event that was being handled, or None where
    the program has no such growth, and whether it was answered as unavailable."""
    status, output, errors, written = run(events, at, folder)
    answers = right_answers(events)
    if written is None:
        if (status, output, errors) != (0, b"".join(answers), b""):
            sys.exit(f"with nothing refused: {told(events, answers, status, output, errors)}")
        return None, False
    place = next((n for n in range(len(events) + 1) if len(b"".join(answers[:n])) == written), None)
    if place is None:
        sys.exit(f"growth {at}, refused within an answer: {told(events, answers, status, output, errors)}")
    if (status, output, errors) == (1, b"".join(answers[:place]), FAULT):
        return place, False
    if (status, output, errors) == (0, b"".join(answers), b""):
        return place, False
    if place < len(events) and events[place].what not in NEVER_UNAVAILABLE:
        answers = right_answers(events, without=place)
        if (status, output, errors) == (0, b"".join(answers), b""):
            return place, True
    sys.exit(f"growth {at}, refused at event {place}: {told(events, answers, status, output, errors)}")


def told(events, answers, status, output, errors):
    """Where an output leaves these answers."""
    for n, answer in enumerate(answers):
        if not output.startswith(answer):
            got = output[:len(answer) + 20]
            what = f"event {n} ({events[n].what})"
            return f"{what} is answered {got!r} in place of {answer!r}; status {status}, {errors!r}"
        output = output[len(answer):]
    return f"status {status}, {errors!r}, and more output: {output[:200]!r}"


# The first event that is refused memory is answered by these bytes, and then as if nothing had been.
UNAVAILABLE = (b"reply 153\nHTTP/1.1 503 Service Unavailable\r\nContent-Type: application/json\r\nContent-Length: 46\r\n"
               b'Connection: close\r\n\r\n[{"acvVersion":"1.0"},{"error":"unavailable"}]\n')


def main():
    met, again = set(), 0
    if any(event.unavailable not in (UNAVAILABLE, b"order unavailable\n") for event in EVENTS):
        sys.exit("the reply that says unavailable isn't that of 153 bytes")
    if not next(e for e in EVENTS if e.what == "login").answer({7: {"enabled": True, "last": -1}}).startswith(b"reply 292\n"):
        sys.exit("the reply to the first login isn't that of 292 bytes")
    with tempfile.TemporaryDirectory() as folder:
        judge(EVENTS, 0, folder)
        for at in range(1, 100000):
            place, is_unavailable = judge(EVENTS, at, folder)
            if place is None:
                break
            if is_unavailable:
                twice = EVENTS[:place + 1] + EVENTS[place:]
                if judge(twice, at, folder) != (place, True):
                    sys.exit(f"growth {at}: event {place} isn't met in the same way where it is sent twice")
                met.add(EVENTS[place].what)
                again += 1
        else:
            sys.exit("no end of growths")
    if not MET <= met or at < 20:
        sys.exit(f"{at - 1} growths, and none refused to: {', '.join(sorted(MET - met))}. Is the shim in place?")
    print(f"{at - 1} growths, each refused once; {again} made an event unavailable, answered right when sent again")


# ---- over a file that is served

REQUESTS = [login("login", 59, 1),
            called("new session", 60, "POST", "/acvp/v1/testSessions", new_session, REGISTERED, bound=False),
            called("session's results", 61, "GET", f"{SESSION_URL}/results", session_results)]
# What is asked when the file is served anew: the code is used, or not, and the session is there, or not.
ASKED_ANEW = [login("login", 62, 1), REQUESTS[2]]
# Of the growths before a process listens, and before the last ones of a command, one in so many is tried. What a
# command takes to carry its order out, and to say so, is among its last ones.
STRIDE, LAST = 1000, 120
# No machine stops here, so the files may lie in memory, where a commit waits for no disk.
ROOM = "/dev/shm" if os.access("/dev/shm", os.W_OK) else None
ADDED, TAKEN = (0, b"account 7 added\n", b""), (1, b"", b"fault: taken\n")
NO_MEMORY, NOT_AVAILABLE = (1, b"", b"fault: memory\n"), (1, b"", b"fault: unavailable\n")


def without_line(text):
    """The request of a script, or the reply among its answers, without the line before it."""
    return text.partition(b"\n")[2][:-1]


def refusing(at, mark):
    """The environment of a process to which this growth is refused, or none, as 0."""
    return {**os.environ, "REFUSE_AT": str(at), "REFUSED": mark}


class Serving(Served):
    """A file that is served by one process, to which this growth is refused."""

    def __init__(self, file, at=0):
        super().__init__(PROGRAM, file, KEYS, f"{CLOCK}:{SHIM}")
        self.mark = f"{file}-refused"
        args = [PROGRAM, "serve", "--db", file, "--keys", KEYS, "--port", str(self.port), "--count", "9"]
        self.process = subprocess.Popen(args, stdout=subprocess.PIPE, stderr=subprocess.PIPE,
                                        env=refusing(at, self.mark))
        self.listens = self.process.stdout.readline() == b"listening 127.0.0.1:%d\n" % self.port

    def is_refused(self):
        return os.path.exists(self.mark)

    def ended(self):
        """How the process has ended by itself."""
        output, errors = self.process.communicate(timeout=600)
        return self.process.returncode, output, errors

    def asked(self, event):
        return self.ask_at(int(event.text.split(b" ")[1]), without_line(event.text))


def copied(base, room):
    """The file of a folder, in a copy of the folder."""
    shutil.rmtree(room, ignore_errors=True)
    shutil.copytree(base, room, ignore=shutil.ignore_patterns("*-orders"))
    return os.path.join(room, "laboratory.db")


def is_right(what, event, got, accounts):
    wanted = without_line(event.answer(accounts))
    if got != wanted:
        sys.exit(f"{what}: {event.what} is answered {got!r} in place of {wanted!r}")


def served_anew(what, file, events, accounts):
    """Serves the file with nothing refused: these events are answered right."""
    serving = Serving(file)
    for event in events:
        is_right(what, event, serving.asked(event), accounts)
    serving.end()


def serve_without(base, room, event, accounts, at):
    """Serves an event over a copy of the file with this growth refused. Whether it was refused, and whether the event
    was unavailable, or its connection was closed before it was read."""
    what = f"growth {at}, refused to a process that serves"
    accounts, file = copy.deepcopy(accounts), copied(base, room)
    serving, is_unavailable = Serving(file, at), False
    if serving.listens:
        was_refused, got = serving.is_refused(), serving.asked(event)
        is_put_off = got in (without_line(UNAVAILABLE), b"")
        is_unavailable = is_put_off and serving.is_refused() and not was_refused
        is_right(what, event, serving.asked(event) if is_unavailable else got, accounts)
        if serving.process.poll() is not None:
            sys.exit(f"{what}: it ends with {serving.ended()}")
        serving.end()
    elif (ended := serving.ended()) != NO_MEMORY:
        sys.exit(f"{what}: it ends with {ended}")
    served_anew(f"{what}, and then anew", file, ASKED_ANEW, accounts)
    return serving.is_refused(), is_unavailable


def listens_without(base, room, at):
    """Whether a process listens before it meets this growth."""
    serving = Serving(copied(base, room), at)
    listens = serving.listens and not serving.is_refused()
    serving.end()
    return listens


def added(file, secret, at=0):
    """How the command that adds account 7 ends, with this growth refused."""
    args = [PROGRAM, "account-add", "--db", file, "--account", "7", "--secret", secret]
    env = {**refusing(at, f"{file}-refused"), "LD_PRELOAD": SHIM}
    done = subprocess.run(args, stdin=subprocess.DEVNULL, capture_output=True, env=env, timeout=600)
    return done.returncode, done.stdout, done.stderr


def account_seven():
    accounts = {}
    add(7).answer(accounts)
    return accounts


def add_without(base, room, secret, at):
    """Adds account 7 to a copy of the file with this growth refused. Whether it was refused."""
    what = f"growth {at}, refused to the command that adds an account"
    file = copied(base, room)
    first = added(file, secret, at)
    again = added(file, secret)
    may_be = [(ADDED, TAKEN), *((fault, told) for fault in (NO_MEMORY, NOT_AVAILABLE) for told in (ADDED, TAKEN))]
    if (first, again) not in may_be:
        sys.exit(f"{what}: it ends with {first}, and given again with {again}")
    served_anew(what, file, REQUESTS[:1], account_seven())
    return os.path.exists(f"{file}-refused")


def first_that(holds):
    """The first growth for which this holds, as it does for all behind it."""
    low, high = 1, 100000
    while low < high:
        middle = (low + high) // 2
        low, high = (low, middle) if holds(middle) else (middle + 1, high)
    return low


def command_with_a_file(base, room, secret):
    end = first_that(lambda at: not add_without(base, room, secret, at))
    last = end - LAST
    for at in [*range(1, last, STRIDE), *range(last, end)]:
        add_without(base, room, secret, at)
    print(f"an account is added: the last {LAST} of {end - 1} growths, and one in {STRIDE} before, each refused once")


def requests_with_a_file(base, room, event, accounts):
    start = first_that(lambda at: listens_without(base, room, at))
    for at in range(1, start, STRIDE):
        serve_without(base, room, event, accounts, at)
    met = 0
    for at in itertools.count(start):
        is_refused, is_unavailable = serve_without(base, room, event, accounts, at)
        met += is_unavailable
        if not is_refused:
            break
    if met < 20:
        sys.exit(f"{event.what}: {met} growths made it unavailable. Is the shim in place?")
    print(f"{event.what}: {at - start} growths, each refused once; {met} made it unavailable, right when sent again")


def over_a_file():
    os.umask(0o077)
    with tempfile.TemporaryDirectory(dir=ROOM) as folder:
        base, room, secret = (os.path.join(folder, name) for name in ("base", "room", "secret"))
        file = os.path.join(base, "laboratory.db")
        os.mkdir(base)
        with open(secret, "w") as written:
            written.write(SECRET.hex() + "\n")
        subprocess.run([PROGRAM, "init", "--db", file], check=True, stdout=subprocess.DEVNULL)
        command_with_a_file(base, room, secret)
        if added(file, secret) != ADDED:
            sys.exit("with nothing refused no account is added")
        accounts = account_seven()
        for event in REQUESTS:
            requests_with_a_file(base, room, event, accounts)
            served_anew("with nothing refused", file, [event], accounts)


if IS_SERVED:
    over_a_file()
else:
    main()

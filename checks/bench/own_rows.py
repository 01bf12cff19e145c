#!/usr/bin/env python3
"""Instructions of the processor for each request of an account that has many rows of its own.

    ./bench --own-rows
    own_rows.py COMMAND..

COMMAND is as in `acvp_server script --keys keys.txt`, under keys of zero bytes. One run of it, under callgrind of
valgrind, makes 10, 1000 and 20000 test sessions and as many vendors of account 7, each of them approved; at each of
these sizes so many requests of each action are counted, from the first byte of the first to the last of the last reply.
It is no part of the gate, and takes some minutes."""
import glob
import itertools
import os
import re
import subprocess
import sys
import tempfile

from laboratory import Piped, request, shown, signed
from validation import answers, one_time_code

# What is counted of each action, and how many rows a page shows.
MOMENT, SECRET, COUNTED, SHOWN = 1000000000, bytes(32), 40, 5
FIRST = 7000001
SIZES = [10, 1000, 20000]
MODULE = {"name": "module", "vendorUrl": f"/acvp/v1/vendors/{FIRST}"}
CAPABILITY = {"algorithm": "SHA2-256", "messageLength": [8], "revision": "1.0"}


class Account:
    """Account 7, with so many test sessions, vendors and requests."""

    def __init__(self, server):
        self.server, self.sessions, self.vendors, self.requests, self.waiting = server, 0, 0, 0, []
        self.steps, self.answers = 0, {}
        self.order(f"account-add 0 7 {SECRET.hex()}")
        self.vendor()
        for _ in range(SHOWN):
            self.registers("/modules", MODULE)
            self.approval()
            self.environment()
            self.approval()

    def order(self, text):
        answer = self.server.order(text)
        assert answer == "order done", (text, answer)

    def asks(self, method, path, thing=None, session=None):
        claims = {"sub": "7", "iat": MOMENT, "exp": MOMENT + 1800}
        token = signed(claims if session is None else {**claims, "sid": session})
        status, reply = shown(self.server.ask_at(MOMENT, request(method, path, token, thing)))
        assert status == 200, (method, path, status, reply)
        return reply

    def waits(self):
        """The request that was asked last waits for its approval."""
        self.requests += 1
        self.waiting.append(FIRST - 1 + self.requests)

    def registers(self, path, thing):
        self.asks("POST", path, thing)
        self.waits()

    def approval(self, place=0):
        self.order(f"request-approve 0 {self.waiting.pop(place)}")

    def environment(self):
        self.registers("/oes", {"name": "environment"})

    def vendor(self):
        self.registers("/vendors", {"name": "vendor"})
        self.approval(-1)
        self.vendors += 1

    def session(self, sample=False):
        self.asks("POST", "/testSessions", {"algorithms": [CAPABILITY], "isSample": sample})
        self.sessions += 1
        return FIRST - 1 + self.sessions

    def login(self):
        self.steps += 1
        moment = MOMENT + 30 * self.steps
        login = {"password": one_time_code(SECRET, moment), "user": "7"}
        status, reply = shown(self.server.ask_at(moment, request("POST", "/login", thing=login)))
        assert status == 200, (status, reply)

    def grow(self, size):
        while self.vendors < size:
            self.vendor()
        while self.sessions < size:
            self.session()

    def page(self, path, offset):
        self.asks("GET", f"{path}?limit={SHOWN}&offset={offset}")

    def kinds(self):
        """The actions, each with what asks for it, in an order in which each of them is accepted; and the operator's
        approval. What is done before an action is counted with none."""
        sample = self.session(sample=True)
        expected = f"/testSessions/{sample}/vectorSets/{sample}01/expected"
        to_cancel = [self.session() for _ in range(COUNTED)]
        begun = FIRST + self.sessions
        sessions = {}

        def of_session(what, method, place, thing=None, first=begun):
            session = next(sessions.setdefault(what, itertools.count(first)))
            path = f"/testSessions/{session}{place.format(session)}"
            return self.asks(method, path, thing and thing(session), session)

        def right(session):
            return self.answers[session]

        def read(session):
            vector_set = self.asks("GET", f"/testSessions/{session}/vectorSets/{session}01", session=session)
            self.answers[session] = answers(vector_set)

        def certification(session):
            parts = {"moduleUrl": f"/acvp/v1/modules/{FIRST}", "oeUrl": f"/acvp/v1/oes/{FIRST}"}
            self.waits()
            return parts

        return {
            "login": self.login,
            "the account's counts": lambda: self.asks("GET", "/account"),
            "the algorithms": lambda: self.asks("GET", "/algorithms"),
            "an algorithm": lambda: self.asks("GET", "/algorithms/3"),
            "a new vendor": lambda: self.registers("/vendors", {"name": "vendor"}),
            "a new module": lambda: self.registers("/modules", MODULE),
            "a new environment": self.environment,
            "an approval": self.approval,
            "a new test session": self.session,
            "a test session": lambda: of_session("read", "GET", ""),
            "its vector sets": lambda: of_session("sets", "GET", "/vectorSets"),
            "a vector set": lambda: read(next(sessions.setdefault("read set", itertools.count(begun)))),
            "answers to one": lambda: of_session("answered", "POST", "/vectorSets/{}01/results", right),
            "answers anew": lambda: of_session("anew", "PUT", "/vectorSets/{}01/results", right),
            "the results of one": lambda: of_session("results", "GET", "/vectorSets/{}01/results"),
            "the expected answers to one": lambda: self.asks("GET", expected, session=sample),
            "the results of a test session": lambda: of_session("all results", "GET", "/results"),
            "a new reviewer": lambda: of_session("reviewer", "POST", "/reviewers", lambda _: {"account": 9}),
            "the reviewers": lambda: of_session("reviewers", "GET", "/reviewers"),
            "a reviewer taken away": lambda: of_session("none", "DELETE", "/reviewers/9"),
            "the certification of one": lambda: of_session("certified", "PUT", "", certification),
            "a vector set cancelled": lambda: of_session("less", "DELETE", "/vectorSets/{}01", first=to_cancel[0]),
            "a test session cancelled": lambda: of_session("cancelled", "DELETE", "", first=to_cancel[0]),
            "the first 5 test sessions": lambda: self.page("/testSessions", 0),
            "the last 5 test sessions": lambda: self.page("/testSessions", self.sessions - 5),
            "the first 5 vendors": lambda: self.page("/vendors", 0),
            "the last 5 vendors": lambda: self.page("/vendors", self.vendors - 5),
            "the modules": lambda: self.page("/modules", 0),
            "the environments": lambda: self.page("/oes", 0),
            "the last 5 requests": lambda: self.page("/requests", self.requests - 5),
            "a vendor": lambda: self.asks("GET", f"/vendors/{FIRST}"),
            "a module": lambda: self.asks("GET", f"/modules/{FIRST}"),
            "an environment": lambda: self.asks("GET", f"/oes/{FIRST}"),
            "a request": lambda: self.asks("GET", f"/requests/{FIRST}"),
        }


def counted(process, folder, does):
    """The instructions that the run takes while this is done."""
    for old in glob.glob(os.path.join(folder, "out*")):
        os.remove(old)
    control = ["callgrind_control", str(process)]
    subprocess.run([*control, "-z"], check=True, capture_output=True)
    does()
    subprocess.run([*control, "-d"], check=True, capture_output=True)
    (told,) = glob.glob(os.path.join(folder, "out*"))
    with open(told, encoding="utf-8") as file:
        return int(re.search(r"^(?:summary|totals): (\d+)", file.read(), re.MULTILINE)[1])


def main():
    if len(sys.argv) < 2:
        sys.exit(__doc__)
    with tempfile.TemporaryDirectory() as folder:
        out = os.path.join(folder, "out")
        server = Piped(["valgrind", "-q", "--tool=callgrind", f"--callgrind-out-file={out}", *sys.argv[1:]])
        account = Account(server)
        for size in SIZES:
            account.grow(size)
            print(f"{size} test sessions and vendors:", flush=True)
            for name, does in account.kinds().items():
                def many(does=does):
                    for _ in range(COUNTED):
                        does()
                print(f"    {name}: {counted(server.process.pid, folder, many) // COUNTED}", flush=True)
        server.end()


if __name__ == "__main__":
    main()

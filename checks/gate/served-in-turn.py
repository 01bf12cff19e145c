"""Clients are served in the order in which their requests were whole, and a reply that its client didn't wait for is
logged as unsent.

    served-in-turn.py PROGRAM

While the server makes the standard answers of a vector set with a Monte Carlo test, other clients send the ends of their
requests one after another. The lines of `serve --log`, and its objects, tell in which order they were served."""
import json
import os
import random
import signal
import socket
import struct
import sys
import tempfile
import time

from laboratory import Laboratory, expect, read_all, request, shown, signed
import laboratory

HASHES = ["SHA2-224", "SHA2-256", "SHA2-384", "SHA2-512", "SHA2-512/224", "SHA2-512/256"]
# three digests long, as the messages of a Monte Carlo test are
LENGTHS = [672, 768, 1152, 1536]
REGISTRATION = {"isSample": True,
                "algorithms": [{"algorithm": name, "revision": "1.0", "messageLength": LENGTHS} for name in HASHES]}
ACCOUNTS, TURNS = 16, 10


class Watched:
    """A laboratory with accounts, that is served with a log, in words or as JSON."""

    def __init__(self, program, folder, form):
        self.lab = Laboratory(program, folder)
        self.path, self.read, self.sets, self.form = self.lab.path("log"), 0, [], form
        self.lab.does("ready", "init", "--db", self.lab.db)
        for account in range(1, ACCOUNTS + 1):
            self.lab.add(account)
        with open(self.path, "ab") as log:
            self.lab.serve(count=None, more=["--log", form], faults=log)

    def token(self, account):
        now = int(time.time())
        return signed({"exp": now + 900, "iat": now, "sub": str(account)})

    def lines(self, count):
        """The next lines, so many: of each the account, the action, the status, the word, and what stands behind the
        milliseconds."""
        for _ in range(1000):
            with open(self.path, encoding="ascii") as file:
                file.seek(self.read)
                text = file.read()
            if text.count("\n") >= count:
                self.read += len(text)
                found = [self.words_of(line) for line in text.splitlines()]
                expect("how many lines there are", len(found), count)
                return [tuple(words[1:3] + words[4:6] + words[7:]) for words in found]
            time.sleep(0.01)
        raise SystemExit(f"a line is missing: {text!r}")

    def words_of(self, line):
        """The words of a line; of an object, those that it would have."""
        if self.form == "words":
            return line.split(" ", 7)
        told = json.loads(line)
        members = ("time", "account", "action", "subject", "status", "result", "milliseconds")
        return ["-" if told[name] is None else str(told[name]) for name in members] + ([] if told["sent"] else ["unsent"])

    def dear(self):
        """A request that keeps the server busy: for the expected answers of a vector set that nobody has asked for."""
        if not self.sets:
            session = self.lab.must("POST", "/testSessions", self.token(1), REGISTRATION)
            self.lines(1)
            self.sets = [(url.removeprefix("/acvp/v1"), session["accessToken"]) for url in session["vectorSetUrls"]]
        path, token = self.sets.pop()
        return request("GET", path + "/expected", token)


def in_turn(it, order):
    """Of clients that wait in any order, each is served once its request is whole, in that order."""
    accounts, clients, rest = list(range(1, ACCOUNTS + 1)), {}, {}
    dear = it.dear()
    order.shuffle(accounts)
    for account in accounts:
        text = request("GET", "/account", it.token(account))
        clients[account], rest[account] = it.lab.connect(), text[-20:]
        clients[account].sendall(text[:-20])
    it.lab.wait_until_read(*clients.values())
    order.shuffle(accounts)
    with it.lab.connect() as busy:
        busy.sendall(dear)
        it.lab.wait_until_read(busy)
        for account in accounts:
            clients[account].sendall(rest[account])
            time.sleep(0.001)
        expect("the answer that took long", shown(read_all(busy))[0], 200)
    for account in accounts:
        with clients[account] as client:
            expect("an answer", shown(read_all(client))[0], 200)
    first, *lines = it.lines(ACCOUNTS + 1)
    expect("the line of the answer that took long", first, ("1", "Expected", "200", "ok"))
    expect("who was served, in turn", lines, [(str(account), "ReadAccount", "200", "ok") for account in accounts])


def gone_before_its_reply(it):
    """A client asks for what takes long, and is gone once that is read, and nothing answered; the server is stopped
    meanwhile. Not so if the answer was quicker: then it is taken."""
    with it.lab.connect() as client:
        client.sendall(it.dear())
        it.lab.stop_once_read(client)
        client.setblocking(False)
        try:
            client.recv(1, socket.MSG_PEEK)
            is_gone = False
        except BlockingIOError:
            is_gone = True
            client.setsockopt(socket.SOL_SOCKET, socket.SO_LINGER, struct.pack("ii", 1, 0))
            client.close()
        it.lab.process.send_signal(signal.SIGCONT)
        if not is_gone:
            client.settimeout(60)
            expect("an answer that was quick", shown(read_all(client))[0], 200)
            expect("its line", it.lines(1), [("1", "Expected", "200", "ok")])
        return is_gone


def unsent(it):
    """A client that is gone before its reply: the line says so. One that only says no more gets its reply."""
    expect("a client that is gone before its reply", any(gone_before_its_reply(it) for _ in range(20)), True)
    expect("the line of a reply that nobody took", it.lines(1), [("1", "Expected", "200", "ok", "unsent")])
    dear, vendor = it.dear(), request("POST", "/vendors", it.token(2), {"name": "a"})
    with it.lab.connect() as busy, it.lab.connect() as client:
        busy.sendall(dear)
        it.lab.wait_until_read(busy)
        client.sendall(vendor)
        client.shutdown(socket.SHUT_WR)
        expect("the answer that took long", shown(read_all(busy))[0], 200)
        expect("an answer to a client that says no more", shown(read_all(client))[0], 200)
    expect("their lines", it.lines(2), [("1", "Expected", "200", "ok"), ("2", "NewVendor", "200", "ok")])


def main():
    program = os.path.abspath(sys.argv[1])
    for form, turns in (("words", TURNS), ("json", 1)):
        with tempfile.TemporaryDirectory() as folder:
            it = Watched(program, folder, form)
            try:
                order = random.Random(25)
                for _ in range(turns):
                    in_turn(it, order)
                for _ in range(3):
                    unsent(it)
            finally:
                it.lab.kill()
    print(f"{TURNS + 1} times {ACCOUNTS} clients in turn; {laboratory.checked} comparisons")


main()

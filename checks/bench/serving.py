#!/usr/bin/env python3
"""Requests per second of `acvp_server serve` over a file, beside those of a small server in Python's standard library
(baseline_server.py) that does the same work for the same requests, and the most memory that each has had.

    ./bench [--quick] [--program PATH]

Each serves a copy of one file, which `init` has made and SQLite has filled: the client's accounts and vector sets, and
10, 1000 or 20000 test sessions of other accounts, every other one answered. One client asks both over sockets, with a
connection for each request. They take turns by rounds of fifty requests of each kind, and the median of the rounds
counts:

- logins, each of an account of its own;
- reads of vector sets that neither has in its cache, so that the prompts are made, and the same reads again;
- submissions of right answers to them, to which neither has the standard answers yet.

The vector sets are of SHA2-256 (17 tests) and of HMAC-SHA2-256 (9 tests) by turns. It ends with status 1 where anything
isn't as it must be: each token is the one to be issued, each other reply has the same bytes from both but for its date,
and all answers are received and stand in both files at the end, with the disposition passed. It is no part of the
gate."""
import argparse
import contextlib
import os
import re
import shutil
import socket
import sqlite3
import statistics
import sys
import tempfile
import time

import laboratory
import page_sums
from baseline_server import API, TOKEN_LIFE, graded, prompts, standard
from laboratory import SEED, Laboratory, compact, expect, request, shown, signed
from rates import CAPABILITY
from validation import answers

HERE = os.path.dirname(os.path.abspath(__file__))
TOP = os.path.dirname(os.path.dirname(HERE))
BUILT = "crates/acvp_server/out/acvp_server"
BASELINE = os.path.join(HERE, "baseline_server.py")
LOGINS, MADE, CACHED, SUBMISSIONS, MEMORY = "Logins", "Reads, made", "Reads, cached", "Submissions", "Peak memory, MB"
SESSIONS = [10, 1000, 20000]
ROUNDS, FEW_ROUNDS, EACH, TIMES = 20, 4, 50, 100
HMAC = {"algorithm": "HMAC-SHA2-256", "keyLen": [256], "macLen": [256], "revision": "1.0"}
CAPABILITIES = [compact(capability).decode() for capability in (CAPABILITY, HMAC)]
# The client's vector sets are those of two rounds, and more than a cache has room for: so a round finds none of its own
# there.
CLIENT = 1
SETS = [(session, session * 100 + place) for session in range(1000001, 1000006) for place in range(1, 21)]


# ---- the file


def filled(lab, sessions, accounts):
    """The file that init makes, and in it so many accounts and, beside the client's, so many test sessions."""
    lab.does("ready", "init", "--db", lab.db)
    now = int(time.time())
    numbers = list(range(1, accounts + 1))
    rows = [(session, CLIENT, now, 20, 0) for session in sorted({session for session, _ in SETS})]
    sets = [(vs, session, CAPABILITIES[place % 2], None, None, None) for place, (session, vs) in enumerate(SETS)]
    for place in range(sessions):
        account, row = 9001 + place // 1000, place % 1000
        if row == 0:
            numbers.append(account)
        session, capability, answered = account * 1000000 + row + 1, CAPABILITIES[place // 2 % 2], place % 2
        vs = session * 100 + 1
        right = standard(SEED, vs, capability) if answered else None
        rows.append((session, account, now, 1, answered))
        sets.append((vs, session, capability, *(graded(right, right) if answered else (None, None, None))))
    with contextlib.closing(page_sums.connect(lab.db)) as connection, connection:
        expect("the journal of the file", connection.execute("PRAGMA journal_mode").fetchone(), ("wal",))
        connection.executemany("INSERT INTO account VALUES (?, ?, 1, NULL)",
                               [(account, lab.secret(account)) for account in numbers])
        connection.executemany("INSERT INTO session VALUES (?, ?, 0, ?, 0, NULL, ?, ?)", rows)
        connection.executemany("INSERT INTO vset2 VALUES (?, ?, ?, 0, ?, ?, ?, 0)", sets)


def kept(lab, accounts):
    """The rows of the file at the end, in which all logins and all answers of the client must be kept."""
    with contextlib.closing(sqlite3.connect(lab.db)) as connection:
        def rows(text):
            return connection.execute(text).fetchall()

        expect("the accounts with a step that is used", rows("SELECT COUNT(*) FROM account WHERE last_step > 0"),
               [(accounts,)])
        expect("the dispositions of the client's vector sets",
               rows(f"SELECT disposition, COUNT(*) FROM vset2 WHERE session / 1000000 = {CLIENT} GROUP BY disposition"),
               [(2, len(SETS))])
        return rows("SELECT * FROM vset2 ORDER BY vs"), rows("SELECT * FROM session ORDER BY session")


# ---- the requests


class Served(Laboratory):
    """One of the two servers, and the seconds that a request of each kind took."""

    def __init__(self, program, folder):
        os.makedirs(folder)
        super().__init__(program, folder)
        self.seconds = {kind: [] for kind in (LOGINS, MADE, CACHED, SUBMISSIONS)}

    def timed(self, kind, texts):
        """The replies to requests, one after another."""
        begun = time.perf_counter()
        replies = [self.ask(text) for text in texts]
        self.seconds[kind].append((time.perf_counter() - begun) / len(texts))
        for text, reply in zip(texts, replies):
            expect(f"{self.program}: the status of {reply} to {text}", shown(reply)[0], 200)
        return replies

    def logins(self, accounts):
        begun = int(time.time())
        bodies = [{"password": self.code(account), "user": str(account)} for account in accounts]
        replies = self.timed(LOGINS, [request("POST", "/login", thing=body) for body in bodies])
        moments = range(begun, int(time.time()) + 1)
        for account, reply in zip(accounts, replies):
            tokens = [{"accessToken": token(account, moment)} for moment in moments]
            expect(f"{self.program}: that {reply} has the token of account {account}", shown(reply)[1] in tokens, True)

    def round(self, number):
        """Sends the requests of a round, and gives the replies, without dates, but those to the logins."""
        self.logins(range(number * EACH + 1, number * EACH + EACH + 1))
        place = number * EACH % len(SETS)
        sets = [(f"/testSessions/{session}/vectorSets/{vs}", token(CLIENT, int(time.time()), sid=session))
                for session, vs in SETS[place:place + EACH]]
        reads = [request("GET", path, bound) for path, bound in sets]
        made = self.timed(MADE, reads)
        cached = self.timed(CACHED, reads)
        method = "POST" if number * EACH < len(SETS) else "PUT"
        received = self.timed(SUBMISSIONS, [request(method, f"{path}/results", bound, answers(shown(reply)[1]))
                                            for (path, bound), reply in zip(sets, made)])
        for (path, _), reply in zip(sets, received):
            expect(f"{self.program}: the reply to answers to {path}", shown(reply)[1],
                   {"status": "received", "url": f"{API}{path}/results"})
        return [re.sub(rb"\r\nDate: [^\r]*", b"", reply) for reply in made + cached + received]

    def peak(self):
        """The most memory that it has had, in millions of bytes."""
        with open(f"/proc/{self.process.pid}/status") as file:
            return int(re.search(r"VmHWM:\s+(\d+) kB", file.read())[1]) * 1024 / 1e6


def token(account, moment, **session):
    return signed({"exp": moment + TOKEN_LIFE, "iat": moment, "sub": str(account), **session})


def measured(program, sessions, rounds, folder):
    """What the program and the other server come to, over a file with so many test sessions beside the client's."""
    pair = [Served(path, os.path.join(folder, name)) for path, name in ((program, "program"), (BASELINE, "baseline"))]
    filled(pair[0], sessions, rounds * EACH)
    shutil.copy(pair[0].db, pair[1].db)
    try:
        for one in pair:
            one.serve()
        for number in range(rounds):
            order = pair if number % 2 == 0 else pair[::-1]
            for first, second in zip(*[one.round(number) for one in order]):
                expect(f"{order[1].program}: a reply, compared with the other server's", second, first)
        found = {kind: [1 / statistics.median(one.seconds[kind]) for one in pair] for kind in pair[0].seconds}
        found[MEMORY] = [one.peak() for one in pair]
    finally:
        for one in pair:
            one.kill()
    expect("that both files have the same rows", kept(pair[0], rounds * EACH) == kept(pair[1], rounds * EACH), True)
    return found


# ---- what is printed


def machine():
    with open("/proc/cpuinfo") as file:
        models = re.findall(r"model name\s*: (.*)", file.read())
    return f"{models[0] if models else 'a processor without a name'}, {os.cpu_count()} cores"


def milliseconds(work):
    """The median time of some work, which is done for each of these numbers."""
    spent = []
    for number in range(TIMES):
        begun = time.perf_counter()
        work(number)
        spent.append(time.perf_counter() - begun)
    return statistics.median(spent) * 1000


def disk(folder):
    """How long the disk takes to keep a page."""
    with open(os.path.join(folder, "page"), "wb", buffering=0) as file:
        return milliseconds(lambda _: (file.write(bytes(4096)), os.fsync(file.fileno())))


def connection(folder):
    """How long the client takes with a connection by itself, to a process that answers each at once."""
    lab = Laboratory(None, folder)
    with socket.socket() as listener:
        listener.bind(("127.0.0.1", 0))
        listener.listen()
        lab.port = listener.getsockname()[1]
        if os.fork() == 0:
            for _ in range(TIMES):
                taken, _ = listener.accept()
                taken.recv(65536)
                taken.sendall(b"answer")
                taken.close()
            os._exit(0)
        spent = milliseconds(lambda _: lab.ask(b"request"))
        os.wait()
        return spent


def line(first, cells):
    return f"{first:>8}" + "".join(f" | {cell:>15}" for cell in cells)


def main():
    parser = argparse.ArgumentParser(prog="./bench", description="Times the built program, which serves records in a "
                                     "file, beside a small server in Python's standard library that does the same.")
    parser.add_argument("--quick", action="store_true", help="a short run, of fewer rounds")
    parser.add_argument("--program", metavar="PATH", help=f"the program, where it isn't {BUILT}")
    asked = parser.parse_args()
    program = os.path.abspath(asked.program or os.path.join(TOP, BUILT))
    if not (os.path.isfile(program) and os.access(program, os.X_OK)):
        sys.exit(f"There is no program {asked.program or BUILT}: build it by ./test or ./demo --proved, or name "
                 "another by --program PATH.")
    rounds = FEW_ROUNDS if asked.quick else ROUNDS
    kinds = [LOGINS, MADE, CACHED, SUBMISSIONS, MEMORY]
    with tempfile.TemporaryDirectory() as folder:
        page, alone = disk(folder), connection(folder)
        print(f"""{machine()}; Python {sys.version.split()[0]}, SQLite {sqlite3.sqlite_version}
To keep a page the disk of {folder} takes {page:.2f} ms; a connection takes {alone:.2f} ms by itself.
server: acvp_server serve. Python: a small server in Python's standard library that does the same work.
Requests per second of one client, with a connection for each; the median of {rounds} rounds of {EACH} of a kind.
""")
        print(line("Test", kinds))
        print(line("sessions", [" server  Python"] * len(kinds)), flush=True)
        for sessions in SESSIONS:
            found = measured(program, sessions, rounds, os.path.join(folder, str(sessions)))
            print(line(sessions, ["{:7.0f} {:7.0f}".format(*found[kind]) for kind in kinds]), flush=True)
    read = 1000 / found[MADE][1]
    made = milliseconds(lambda vs: prompts.__wrapped__(SEED, vs, CAPABILITIES[vs % 2]))
    print(f"""
Made: the prompts aren't in the cache yet. They take {made:.2f} ms of the {read:.2f} of such a read with Python, most of
it for ChaCha20 in plain Python. A login and a submission wait for the disk: the server twice, and SQLite, as it is
by default, once. All {laboratory.checked} comparisons held: both gave the same replies, and all answers passed.""")


if __name__ == "__main__":
    main()

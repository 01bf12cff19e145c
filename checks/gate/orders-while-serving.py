"""Serving that no client holds up, and orders that are carried out while it serves.

    orders-while-serving.py PROGRAM FAIL_ACCEPT STOP_POLL [STOPS]

FAIL_ACCEPT is the library that fails the taking of connections, and STOP_POLL the one that stops the program behind a wait. STOPS is how often serving is killed while clients and the operator write: 40 without it."""
import os
import random
import signal
import socket
import sqlite3
import stat
import struct
import subprocess
import sys
import tempfile
import threading
import time

from laboratory import BrokenOff, Laboratory, expect, free_port, read_all, request, shown, within_a_step
import laboratory
from validation import answers

REGISTRATION = {"algorithms": [{"algorithm": "SHA2-256", "revision": "1.0", "messageLength": [{"min": 0, "max": 1024, "increment": 8}]}]}
MISSING = (401, {"error": "tokenMissing"})
SOCKET = "-orders"


def short(url):
    return url.removeprefix("/acvp/v1")


def reset(connection):
    """Ends a connection at once, and drops what is still under way."""
    connection.setsockopt(socket.SOL_SOCKET, socket.SO_LINGER, struct.pack("ii", 1, 0))
    connection.close()


def told(lab, line, end=True):
    """What is answered at the socket of orders."""
    with socket.socket(socket.AF_UNIX) as connection:
        connection.settimeout(60)
        connection.connect(lab.db + SOCKET)
        connection.sendall(line)
        if end:
            connection.shutdown(socket.SHUT_WR)
        return read_all(connection)


# ---- orders


def a_validation_without_an_outage(lab):
    """One run of the server sees accounts added, requests decided and an account disabled."""
    lab.serve(count=None)
    db = ["--db", lab.db]
    lab.add(7)
    within_a_step(5)
    token = lab.token(7)
    session = lab.must("POST", "/testSessions", token, REGISTRATION)
    bound, path, (of_set,) = session["accessToken"], short(session["url"]), map(short, session["vectorSetUrls"])
    lab.must("POST", of_set + "/results", bound, answers(lab.must("GET", of_set, bound)))
    lab.must("POST", "/vendors", token, {"name": "V"})
    lab.must("POST", "/oes", token, {"name": "E"})
    lab.does("request 7000001 approved /acvp/v1/vendors/7000001", "request-approve", *db, "--request", "7000001")
    lab.must("POST", "/modules", token, {"name": "M", "vendorUrl": "/acvp/v1/vendors/7000001"})
    lab.does("request 7000002 approved /acvp/v1/oes/7000001", "request-approve", *db, "--request", "7000002")
    lab.does("request 7000003 approved /acvp/v1/modules/7000001", "request-approve", *db, "--request", "7000003")
    parts = {"moduleUrl": "/acvp/v1/modules/7000001", "oeUrl": "/acvp/v1/oes/7000001"}
    lab.must("PUT", path, bound, parts)
    lab.does("request 7000004 rejected", "request-reject", *db, "--request", "7000004")
    lab.must("PUT", path, bound, parts)
    lab.does("request 7000005 approved /acvp/v1/testSessions/7000001", "request-approve", *db, "--request", "7000005")
    expect("the certified session", lab.must("GET", path, bound)["status"], "approved")
    for command in ("request-approve", "request-reject"):
        lab.fails("notInitial", command, *db, "--request", "7000004")
        lab.fails("unknown", command, *db, "--request", "7000006")
    lab.fails("taken", "account-add", *db, "--account", "7", "--secret", lab.path("secret-7"))
    lab.fails("unknown", "account-disable", *db, "--account", "8")
    lab.fails("secret", "account-add", *db, "--account", "8", "--secret", lab.path("no-secret"))
    lab.does("account 7 disabled", "account-disable", *db, "--account", "7")
    expect("a token of an account that is disabled", lab.call("GET", "/account", token), (403, {"error": "accountRefused"}))
    for command in (["init"], ["migrate"], ["serve", "--keys", lab.keys, "--port", str(free_port()), "--count", "1"]):
        lab.fails("unavailable", command[0], *db, *command[1:], what="while the database is served")
    lab.kill()
    connection = sqlite3.connect(lab.db)
    expect("the requests in the file", connection.execute("SELECT request, status, approved FROM request ORDER BY request").fetchall(),
           [(7000001, 1, 7000001), (7000002, 1, 7000001), (7000003, 1, 7000001), (7000004, 2, None), (7000005, 1, 7000001)])
    connection.close()


def lines_at_the_socket(lab):
    """An order is one line of a script; whatever else comes is told to be none, and changes nothing."""
    lab.serve(count=None)
    digits = "ab" * 32
    for what, line in [("nothing", b""), ("a line feed", b"\n"), ("another word", b"init 1 2\n"), ("no moment", b"account-disable 9\n"),
                       ("a request", b"request 1 0\n\n"), ("two orders", b"account-disable 1 9\naccount-disable 1 9\n"),
                       ("no line feed", b"account-disable 1 9"), ("account 0", b"account-disable 1 0\n"),
                       ("account 10000", b"account-disable 1 10000\n"), ("a zero before", b"account-disable 1 09\n"),
                       ("a secret of 63 digits", f"account-add 1 9 {digits[:63]}\n".encode()), ("a carriage return", b"account-disable 1 9\r\n"),
                       ("a line without an end", b"a" * 1000)]:
        expect(f"an order that is none: {what}", told(lab, line), b"fault: syntax\n")
    expect("an order", told(lab, f"account-add 0 9 {digits}\n".encode()), b"account 9 added\n")
    expect("the same again", told(lab, f"account-add 4102444800 9 {digits}\n".encode()), b"fault: taken\n")
    expect("an order whose side stays open", told(lab, b"account-disable 1 9\n", end=False), b"account 9 disabled\n")
    with socket.socket(socket.AF_UNIX) as slow:
        slow.connect(lab.db + SOCKET)
        for byte in b"account-disable 1 9\n":
            slow.send(bytes([byte]))
            expect("a client beside a slow order", lab.call("GET", "/account"), MISSING)
        expect("a slow order", read_all(slow), b"account 9 disabled\n")
    # who gives orders and reads no answer, or ends at once, holds nobody up
    silent = [socket.socket(socket.AF_UNIX) for _ in range(20)]
    for connection in silent:
        connection.connect(lab.db + SOCKET)
    expect("a client beside silent orders", lab.call("GET", "/account"), MISSING)
    for connection in silent:
        connection.close()
    expect("an order behind silent ones", told(lab, b"account-disable 1 9\n"), b"account 9 disabled\n")
    lab.kill()


def the_socket(lab):
    """The socket is its owner's alone, is made anew where a killed server left one, and is gone at the end."""
    lab.serve(count=2)
    place = lab.db + SOCKET
    left = os.stat(place)
    expect("a socket", (stat.S_ISSOCK(left.st_mode), stat.S_IMODE(left.st_mode)), (True, 0o600))
    if os.geteuid() == 0:
        os.chmod(lab.folder, 0o755)
        child = os.fork()
        if child == 0:
            os.setgid(65534)
            os.setuid(65534)
            try:
                told(lab, b"account-disable 1 9\n")
            except PermissionError:
                os._exit(0)
            os._exit(1)
        expect("an order of another user", os.waitpid(child, 0)[1], 0)
    else:
        print("skipped: an order of another user (only root may become one)")
    lab.kill()
    expect("the socket of a killed server", os.path.exists(place), True)
    lab.fails("unknown", "account-disable", "--db", lab.db, "--account", "8", what="where nobody answers at the socket")
    lab.serve(count=1)
    expect("an order to the next server", told(lab, b"account-disable 1 8\n"), b"fault: unknown\n")
    expect("its one connection", lab.call("GET", "/account"), MISSING)
    lab.served(1)
    expect("the socket when serving has ended", os.path.exists(place), False)
    lab.serve(count=1)
    kept = lab.path("moved.db")
    os.rename(lab.db, kept)
    lab.fails("unavailable", "account-disable", "--db", lab.db, "--account", "8", what="of a file that is no longer there")
    os.rename(kept, lab.db)
    os.remove(place)
    lab.write(place, "kept")
    lab.call("GET", "/account")
    lab.served(1)
    expect("a file in the socket's place when serving has ended", os.path.exists(place), True)
    os.remove(place)
    lab.write(place, "kept")
    for _ in range(2):
        lab.fails("bind", "serve", "--db", lab.db, "--keys", lab.keys, "--port", str(free_port()), "--count", "1",
                  what="with another file in the socket's place")
    with open(place) as file:
        expect("that file", file.read(), "kept")
    os.remove(place)
    with socket.socket(socket.AF_UNIX) as another:
        another.bind(place)
        another.listen()
        lab.fails("bind", "serve", "--db", lab.db, "--keys", lab.keys, "--port", str(free_port()), "--count", "1",
                  what="with another program's socket in its place")
        expect("that socket", os.path.exists(place), True)
    with socket.socket() as taken:
        taken.bind(("127.0.0.1", 0))
        taken.listen()
        lab.fails("bind", "serve", "--db", lab.db, "--keys", lab.keys, "--port", str(taken.getsockname()[1]))
    expect("the socket where the port is taken", os.path.exists(place), False)
    with open("/dev/full", "w") as full:
        done = subprocess.run([lab.program, "serve", "--db", lab.db, "--keys", lab.keys, "--port", str(free_port())], stdout=full,
                              stderr=subprocess.PIPE)
    expect("output that can't be written", (done.returncode, done.stderr), (1, b"fault: write\n"))
    expect("the socket where output can't be written", os.path.exists(place), False)


# ---- clients


def a_validation(lab, token):
    """The seconds of a session that passes."""
    began = time.monotonic()
    for _ in range(5):
        session = lab.must("POST", "/testSessions", token, REGISTRATION)
        bound, of_set = session["accessToken"], short(session["vectorSetUrls"][0])
        lab.must("POST", of_set + "/results", bound, answers(lab.must("GET", of_set, bound)))
        expect("the results", lab.must("GET", short(session["url"]) + "/results", bound)["passed"], True)
    return time.monotonic() - began


def two_hundred_clients(lab):
    """A validation beside 200 clients, of which 50 send a byte a second, 20 never send, 20 never read a large reply, 20 end
    at once and 90 wait before they ask, takes no more than twice its time alone."""
    lab.serve(count=None, more=["--patience", "600"])
    lab.add(30)
    within_a_step(5)
    token = lab.token(30)
    alone = a_validation(lab, token)
    large = lab.must("POST", "/testSessions", token, {"algorithms": [
        {"algorithm": "SHA2-512", "revision": "1.0", "messageLength": [{"min": 0, "max": 65536, "increment": 8}]}]})
    of_large = request("GET", short(large["vectorSetUrls"][0]), large["accessToken"])
    whole = request("GET", "/account")
    silent = [lab.connect() for _ in range(20)]
    slow = [lab.connect() for _ in range(50)]
    unread = []
    for _ in range(20):
        connection = socket.socket()
        connection.setsockopt(socket.SOL_SOCKET, socket.SO_RCVBUF, 2048)
        connection.connect(("127.0.0.1", lab.port))
        connection.sendall(of_large)
        unread.append(connection)
    waiting = [lab.connect() for _ in range(90)]
    for _ in range(20):
        connection = lab.connect()
        connection.sendall(whole[:20])
        reset(connection)
    ended = threading.Event()

    def drips():
        at = 0
        while not ended.wait(1) and at < len(whole) - 1:
            for connection in slow:
                connection.send(whole[at:at + 1])
            at += 1
        for connection in slow:
            connection.sendall(whole[at:])

    dripping = threading.Thread(target=drips)
    dripping.start()
    beside = min(a_validation(lab, token) for _ in range(2))
    expect(f"a validation beside 200 clients in {beside:.2f} s, alone in {alone:.2f} s", beside <= 2 * alone + 0.2, True)
    ended.set()
    dripping.join()
    for connection in slow:
        expect("a slow client", shown(read_all(connection)), MISSING)
    for connection in waiting:
        connection.sendall(whole)
    for connection in waiting:
        expect("one that has waited", shown(read_all(connection)), MISSING)
    for connection in unread:
        expect("a large reply that is read late", shown(read_all(connection))[0], 200)
    for connection in silent + slow + unread + waiting:
        connection.close()
    lab.kill()


def gone_after(connection, begun):
    """How many seconds it takes until what is sent to a connection meets a reset, of a side that ended."""
    for _ in range(100):
        time.sleep(0.1)
        try:
            connection.send(b"x")
        except OSError:
            return time.monotonic() - begun
    return None


def patience(lab):
    """Who takes more time than it has is let go, for its request, the reply and its close together. So is the 257th
    client."""
    lab.serve(count=None, more=["--patience", "2"])
    began = time.monotonic()
    half = lab.connect()
    half.sendall(b"GET /acvp")
    with lab.connect() as silent, half:
        for connection in (silent, half):
            expect("what a client is sent that is too slow", read_all(connection), b"")
            expect("after two seconds", 1.5 < time.monotonic() - began < 8, True)
    # the last of its time goes by behind the reply; one that has more is waited for two seconds then. None is let go
    # too early; of five tries one has to be in time, since the machine may be busy with something else
    for before, least, most in ((1.2, 0.3, 1.9), (0, 1.8, 3.5)):
        for _ in range(5):
            with lab.connect() as late:
                time.sleep(before)
                late.sendall(request("GET", "/account"))
                expect("the reply to a late request", late.recv(65536)[:12], b"HTTP/1.1 401")
                left = gone_after(late, time.monotonic())
            expect(f"{left} seconds at least behind a reply after {before}", left is not None and least <= left, True)
            if left <= most:
                break
        expect(f"{left} seconds at most behind a reply after {before}", left <= most, True)
    lab.kill()
    lab.serve(count=None)
    many = [lab.connect() for _ in range(256)]
    with lab.connect() as one_more:
        expect("what the 257th client is sent", one_more.recv(1), b"")
    many[0].sendall(request("GET", "/account"))
    expect("one of 256", shown(read_all(many[0])), MISSING)
    for connection in many:
        connection.close()
    for wrong in ("0", "3601", "01", "1.5", "-1", ""):
        status, output, faults = lab.run("serve", "--db", lab.db, "--keys", lab.keys, "--port", "1", f"--patience={wrong}")
        expect(f"a patience of {wrong!r}", (status, output, "--patience" in faults), (2, "", True))
    lab.kill()


def answer(connection):
    """What a connection is answered, or why it isn't."""
    try:
        return shown(read_all(connection))
    except (OSError, BrokenOff) as wrong:
        return wrong


def beside_a_stop(lab, what, stop):
    """The process is stopped for seven seconds, where a client has five. Whole requests come meanwhile, of twenty clients
    that were there before and of twenty that weren't. All are answered."""
    whole = request("GET", "/account")
    there = [lab.connect() for _ in range(20)]
    # connections are taken in their order, so those before this one are taken by now
    expect("a client before a stop", lab.call("GET", "/account"), MISSING)
    stop()
    expect("a stop", os.WIFSTOPPED(os.waitpid(lab.process.pid, os.WUNTRACED)[1]), True)
    come = [lab.connect() for _ in range(20)]
    for connection in there + come:
        connection.sendall(whole)
    time.sleep(7)
    lab.process.send_signal(signal.SIGCONT)
    for when, connections in (("before", there), ("during", come)):
        for connection in connections:
            expect(f"a request during {what}, of a client that came {when} it", answer(connection), MISSING)
            connection.close()


def stops_and_goes_on(lab, shim):
    """A stop that is longer than a client's time costs nobody a request that came whole, also where it begins just before
    the program looks who has taken too long."""
    flag = lab.path("stop")
    os.environ.update({"LD_PRELOAD": shim, "STOP_POLL": flag})
    try:
        lab.serve(count=None, more=["--patience", "5"])
    finally:
        del os.environ["LD_PRELOAD"], os.environ["STOP_POLL"]
    beside_a_stop(lab, "a stop", lambda: lab.process.send_signal(signal.SIGSTOP))
    beside_a_stop(lab, "a stop behind a wait", lambda: lab.write(flag, ""))
    lab.kill()


def errors_of_the_network(lab, shim):
    """An error of the network that accept(2) passes on is told with --verbose, and the connection is taken a second later;
    other errors end serving."""
    passing = [100, 71, 92, 112, 64, 113, 95, 101]
    os.environ.update({"LD_PRELOAD": shim, "FAIL_ACCEPT": ",".join(map(str, [103, *passing[:2]]))})
    try:
        began = time.monotonic()
        lab.serve(count=1, more=["--verbose"])
        expect("a client behind two errors", lab.call("GET", "/account"), MISSING)
        expect("the pauses behind them", 1.5 < time.monotonic() - began < 6, True)
        output, faults = lab.process.communicate(timeout=600)
        expect("what is told of them", (lab.process.returncode, output, faults.count(b"a connection isn't taken, and serving goes on: ")),
               (0, b"served 1\n", 2))
        for number in passing[2:]:
            os.environ["FAIL_ACCEPT"] = str(number)
            lab.serve(count=1)
            expect(f"a client behind error {number}", lab.call("GET", "/account"), MISSING)
            output, faults = lab.process.communicate(timeout=600)
            expect(f"what is told of error {number} without --verbose", (output, faults), (b"served 1\n", b""))
        for number in (24, 23, 22):
            os.environ["FAIL_ACCEPT"] = str(number)
            lab.serve(count=1)
            output, faults = lab.process.communicate(timeout=600)
            expect(f"the end behind error {number}", (lab.process.returncode, output, faults), (1, b"", b"fault: accept\n"))
    finally:
        del os.environ["LD_PRELOAD"], os.environ["FAIL_ACCEPT"]
        lab.process = None


# ---- stops


class Client(threading.Thread):
    """Asks for requests until the server is gone, and keeps what was acknowledged."""

    def __init__(self, lab, token):
        super().__init__()
        self.lab, self.token, self.made, self.wrong = lab, token, [], None

    def run(self):
        try:
            while True:
                self.made.append(int(self.lab.must("POST", "/vendors", self.token, {"name": "V"})["url"].split("/")[-1]))
        except (OSError, BrokenOff):
            pass
        except SystemExit as wrong:
            self.wrong = wrong


class Operator(threading.Thread):
    """Adds accounts and decides the requests of clients until the server is gone, and keeps what was acknowledged."""

    def __init__(self, lab, clients, first):
        super().__init__()
        self.lab, self.clients, self.next = lab, clients, first
        self.added, self.decided, self.gone = [], {}, False

    def order(self, *args):
        status, output, faults = self.lab.run(args[0], "--db", self.lab.db, *args[1:])
        if status != 0:
            self.gone = self.gone or faults == "fault: unavailable\n"
        return output if status == 0 else None

    def run(self):
        at = [0] * len(self.clients)
        while not self.gone:
            if self.order("account-add", "--account", str(self.next), "--secret", self.lab.path("secret-40")) is not None:
                self.added.append(self.next)
            self.next += 1
            for which, client in enumerate(self.clients):
                if at[which] < len(client.made):
                    number = client.made[at[which]]
                    command = ["request-approve", "request-reject"][at[which] % 2]
                    output = self.order(command, "--request", str(number))
                    if output is not None:
                        self.decided[number] = output
                    at[which] += 1


def stops_with_orders(lab, count):
    """Serving is killed at random moments while three clients and the operator write: what was acknowledged is there, and
    nothing is there twice."""
    seed = random.randrange(10**6)
    choice = random.Random(seed)
    accounts = (40, 41, 42)
    lab.serve(count=None)
    for account in accounts:
        lab.add(account)
    within_a_step(5)
    tokens = [lab.token(account) for account in accounts]
    made, added, decided, first, longest = set(), set(), {}, 100, 0.3
    for done in range(count):
        clients = [Client(lab, token) for token in tokens]
        operator = Operator(lab, clients, first)
        for thread in [*clients, operator]:
            thread.start()
        if len(made) < done or len(added) + len(decided) < done:
            # a slow disk
            longest *= 1.5
        time.sleep(choice.uniform(0.02, longest))
        lab.process.kill()
        for thread in clients:
            thread.join()
            if thread.wrong:
                raise thread.wrong
        operator.gone = True
        operator.join()
        lab.kill()
        for client in clients:
            made.update(client.made)
        added.update(operator.added)
        decided.update(operator.decided)
        first = operator.next
        lab.serve(count=None)
    lab.kill()
    # a command that succeeds copies the log into the file
    lab.does("account 40 disabled", "account-disable", "--db", lab.db, "--account", "40")
    connection = sqlite3.connect(lab.db)
    there = dict((number, (status, approved)) for number, status, approved in
                 connection.execute("SELECT request, status, approved FROM request"))
    accounts_there = [number for number, in connection.execute("SELECT account FROM account")]
    numbers = [number for number, in connection.execute("SELECT approved FROM request WHERE approved IS NOT NULL")]
    objects = [number for number, in connection.execute("SELECT number FROM object")]
    connection.close()
    what = f"with seed {seed}"
    expect(f"acknowledged requests that are missing {what}", made - set(there), set())
    expect(f"acknowledged accounts that are missing {what}", added - set(accounts_there), set())
    for number, output in decided.items():
        status, approved = there[number]
        wanted = f"request {number} rejected\n" if status == 2 else f"request {number} approved /acvp/v1/vendors/{approved}\n"
        expect(f"request {number} as it was told {what}", output, wanted)
    expect(f"accounts that are there twice {what}", len(accounts_there), len(set(accounts_there)))
    expect(f"numbers that were given twice {what}", len(numbers), len(set(numbers)))
    expect(f"objects without an approval {what}", sorted(objects), sorted(numbers))
    expect("enough was written", len(made) >= count and len(added) + len(decided) >= count, True)
    print(f"{count} stops: {len(made)} requests, {len(added)} accounts and {len(decided)} decisions were acknowledged, and are there")


def main():
    program, fail_accept, stop_poll = map(os.path.abspath, sys.argv[1:4])
    count = int((sys.argv[4:] or ["40"])[0])
    began = time.time()

    def stops(lab):
        stops_with_orders(lab, count)

    def pauses(lab):
        stops_and_goes_on(lab, stop_poll)

    def network(lab):
        errors_of_the_network(lab, fail_accept)

    for part in (a_validation_without_an_outage, lines_at_the_socket, the_socket, two_hundred_clients, patience, pauses, network, stops):
        with tempfile.TemporaryDirectory() as folder:
            lab = Laboratory(program, folder)
            lab.does("ready", "init", "--db", lab.db)
            try:
                part(lab)
            finally:
                lab.kill()
        print(f"{part.__name__.replace('_', ' ')}: done after {time.time() - began:.0f} s", flush=True)
    print(f"{laboratory.checked} comparisons")


main()

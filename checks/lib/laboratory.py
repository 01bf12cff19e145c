"""A laboratory whose records are in a file, as the checks of the program see it: its operator's commands, what is
served, and a client of it, in standard Python."""
import base64
import contextlib
import hashlib
import hmac
import json
import os
import pty
import re
import shutil
import signal
import socket
import sqlite3
import stat
import subprocess
import sys
import tempfile
import time

sys.path.insert(0, os.path.join(os.path.dirname(os.path.abspath(__file__)), "..", "..", "examples"))
from validation import Server, SocketServer, one_time_code  # noqa: E402

STEP = 30
KEY, SEED = bytes(32), bytes([17] * 32)
checked = 0


def expect(what, got, wanted):
    global checked
    if got != wanted:
        raise SystemExit(f"{what}: {got!r} in place of {wanted!r}")
    checked += 1


def free_ports(count):
    """So many ports that nobody has now."""
    with contextlib.ExitStack() as opened:
        taken = [opened.enter_context(socket.socket()) for _ in range(count)]
        for one in taken:
            one.bind(("127.0.0.1", 0))
        return [one.getsockname()[1] for one in taken]


def free_port():
    return free_ports(1)[0]


def request(method, path, token=None, thing=None, body=None):
    """The bytes of a request."""
    if thing is not None:
        body = json.dumps([{"acvVersion": "1.0"}, thing]).encode()
    lines = [f"{method} /acvp/v1{path} HTTP/1.1", "Host: laboratory.example"]
    lines += [f"Authorization: Bearer {token}"] if token is not None else []
    lines += [f"Content-Length: {len(body)}"] if body is not None else []
    return "\r\n".join(lines + ["", ""]).encode() + (body or b"")


def compact(value):
    """The text of a value as JSON without white space, with its members in ascending order."""
    return json.dumps(value, separators=(",", ":"), sort_keys=True).encode()


def rows_of(path):
    """How many rows the tables of a database have that is in one file, as SQLite counts them."""
    with contextlib.closing(sqlite3.connect(f"file:{path}?mode=ro&immutable=1", uri=True)) as connection:
        tables = [name for name, in connection.execute("SELECT name FROM sqlite_master WHERE type = 'table'")]
        return sum(connection.execute(f'SELECT count(*) FROM "{table}"').fetchone()[0] for table in tables)


def rows_with_log(path):
    """The same of a database and the log beside it, of which copies are counted."""
    path = os.path.realpath(path)
    with tempfile.TemporaryDirectory() as folder:
        copy = os.path.join(folder, "copy.db")
        for end in ("", "-wal"):
            if os.path.exists(path + end):
                shutil.copy(path + end, copy + end)
        with contextlib.closing(sqlite3.connect(copy)) as connection:
            connection.execute("PRAGMA wal_checkpoint(TRUNCATE)")
        return rows_of(copy)


def fingerprint(seed):
    """By what a database knows a seed that it was served with, in the row of `meta` of the seed's place."""
    return int.from_bytes(hashlib.sha256(b"acvp_server seed" + seed).digest()[:4], "big")


def access(path):
    """The owner, the group and the mode of a file."""
    there = os.stat(path)
    return there.st_uid, there.st_gid, stat.S_IMODE(there.st_mode)


def encoded(part):
    return base64.urlsafe_b64encode(part).rstrip(b"=")


def decoded(part):
    return base64.urlsafe_b64decode(part + "=" * (-len(part) % 4))


def signed(claims, key=KEY):
    """A token with these claims, as the server issues it under its first key."""
    text = encoded(b'{"alg":"HS256","typ":"JWT"}') + b"." + encoded(compact(claims))
    return (text + b"." + encoded(hmac.digest(key, text, "sha256"))).decode()


def read_all(connection):
    """What comes until the server ends its side."""
    return b"".join(iter(lambda: connection.recv(65536), b""))


class BrokenOff(Exception):
    """A reply that isn't whole."""


def shown(reply):
    """The status and the second object of a reply."""
    head, end, content = reply.partition(b"\r\n\r\n")
    if not end or len(content) != int(head.split(b"Content-Length: ")[1].split(b"\r\n")[0]):
        raise BrokenOff(reply)
    return int(head.split(b" ")[1]), json.loads(content)[1]


class Piped(Server):
    """A run of a script, which is handed one event after another."""

    def ask_at(self, moment, text):
        self.send(b"request %d %d\n%s\n" % (moment, len(text), text))
        reply = self.process.stdout.read(int(self.line().split(" ")[1]))
        self.line()
        return reply


class Served(SocketServer):
    """A file that is served, under a clock that is set."""

    def __init__(self, program, file, keys, shim):
        super().__init__(free_port(), program, file, keys)
        self.clock = f"{file}-clock"
        # for the processes that are started, not for this one
        os.environ.update({"LD_PRELOAD": shim, "CLOCK": self.clock})

    def ask_at(self, moment, text):
        with open(self.clock, "w") as file:
            file.write(f"{moment}\n")
        if self.process is None:
            self.serve()
        with socket.create_connection(("127.0.0.1", self.port)) as connection:
            connection.sendall(text)
            connection.shutdown(socket.SHUT_WR)
            return read_all(connection)


class Laboratory:
    """A folder with the records, the keys and the secrets of the accounts."""

    def __init__(self, program, folder):
        self.program, self.folder = program, folder
        self.db, self.keys = self.path("laboratory.db"), self.path("keys.txt")
        self.process = self.port = None
        self.write(self.keys, f"{KEY.hex()}\n{SEED.hex()}\n")

    def path(self, name):
        return os.path.join(self.folder, name)

    @staticmethod
    def write(path, text):
        with open(path, "wb") as file:
            file.write(text if isinstance(text, bytes) else text.encode())
        return path

    # ---- the operator

    def run(self, *args, **more):
        """The status, the output and the faults of a command."""
        done = subprocess.run([self.program, *args], stdin=subprocess.DEVNULL, capture_output=True, text=True,
                              timeout=600, **more)
        return done.returncode, done.stdout, done.stderr

    def typed(self, answer, *args):
        """The status of a command on a terminal at which an answer is typed once it asks, and what the terminal shows.
        The terminal isn't its controlling one: when the leader of a session ends, the kernel drops what a terminal
        hasn't shown yet."""
        terminal, its = pty.openpty()
        process = subprocess.Popen([self.program, *args], stdin=its, stdout=its, stderr=its)
        os.close(its)
        said, left = b"", answer
        with contextlib.suppress(OSError):
            for part in iter(lambda: os.read(terminal, 4096), b""):
                said += part
                if b"[y/N] " in said and left:
                    os.write(terminal, left)
                    left = b""
        os.close(terminal)
        return process.wait(), said.decode().replace("\r\n", "\n").replace("^D\b\b", "")

    def does(self, wanted, *args):
        expect(f"the command {args}", self.run(*args), (0, wanted + "\n", ""))

    def restores(self, backup="backup.db", db=None, more=()):
        """A backup is restored, with as many rows as SQLite counts. A copy of what was there is kept, with its rows, its owner
        and its mode, at the path that is told, which is the answer."""
        db = db or self.db
        before = (rows_with_log(db), access(db)) if os.path.exists(db) else None
        status, output, faults = self.run("restore", "--from", self.path(backup), "--db", db, *more)
        lines = output.splitlines()
        last = "next: add a seed to the keys file, and serve with it"
        expect(f"the restore of {backup}", (status, lines[:2], lines[-1:], faults), (0, ["restored", f"rows: {rows_of(db)}"], [last], ""))
        told = [line.removeprefix("what was there is kept: ") for line in lines[2:-1]]
        expect("what is kept", [(rows_of(path), access(path)) for path in told], [before] if before else [])
        for path in told:
            expect("the name that it has", bool(re.fullmatch(re.escape(os.path.realpath(db)) + "-replaced-[0-9]{19}", os.path.realpath(path))), True)
            return path
        return None

    def puts_back(self, backup="backup.db", db=None, more=()):
        """The same, and what was there is taken away."""
        kept = self.restores(backup, db, more)
        if kept is not None:
            os.remove(kept)

    def fails(self, word, *args, what="", **more):
        expect(f"the command {args} {what}", self.run(*args, **more), (1, "", f"fault: {word}\n"))

    def backs_up(self, name="backup.db", db=None, more=()):
        """A backup is made, and says how many rows it has: as many as SQLite counts in it."""
        to = self.path(name)
        done = self.run("backup", "--db", db or self.db, "--to", to, *more)
        expect(f"the backup {name}", done, (0, f"backed up: {rows_of(to)} rows\n", ""))

    def secret(self, account):
        return hashlib.sha256(b"secret of %d" % account).digest()

    def add(self, account):
        secret = self.write(self.path(f"secret-{account}"), self.secret(account).hex() + "\n")
        self.does(f"account {account} added", "account-add", "--db", self.db, "--account", str(account), "--secret", secret)

    # ---- what is served

    def serve(self, count=1000000, keys=None, port=None, more=(), faults=subprocess.PIPE):
        """Serves so many connections, or without an end, from the moment on that the program says so. What it says on
        standard error goes to a pipe, or to a file."""
        for _ in range(5):
            self.port = port or free_port()
            args = ["serve", "--db", self.db, "--keys", keys or self.keys, "--port", str(self.port), *more]
            args += ["--count", str(count)] if count is not None else []
            self.process = subprocess.Popen([self.program, *args], stdin=subprocess.DEVNULL, stdout=subprocess.PIPE,
                                            stderr=faults)
            first, told = self.process.stdout.readline(), b""
            if not first and faults == subprocess.PIPE:
                told = self.process.communicate()[1]
            if port or told != b"fault: bind\n":
                break
            # another process has taken the port meanwhile
        expect("the first line of serve", (first, told), (b"listening 127.0.0.1:%d\n" % self.port, b""))

    def served(self, count):
        """Serving has ended by itself, after so many connections."""
        output, faults = self.process.communicate(timeout=600)
        expect("the end of serve", (self.process.returncode, output, faults), (0, b"served %d\n" % count, b""))
        self.process = None

    def kill(self):
        """Ends serving at once, by the system's SIGKILL."""
        if self.process is not None:
            self.process.kill()
            self.process.communicate()
            self.process = None

    # ---- a client

    def connect(self):
        return socket.create_connection(("127.0.0.1", self.port), timeout=60)

    def is_read(self, client):
        """Whether the server has read all that a client has sent, as the system's table tells of both ends
        (proc_net_tcp(5)): nothing waits to be sent, and nothing to be read."""
        here, there = client.getsockname()[1], self.port
        ends = {(here, there): 0, (there, here): 1}
        waiting = {}
        with open("/proc/net/tcp", encoding="ascii") as table:
            for line in list(table)[1:]:
                words = line.split()
                end = tuple(int(address.split(":")[1], 16) for address in words[1:3])
                if end in ends:
                    waiting[end] = int(words[4].split(":")[ends[end]], 16)
        return waiting == {end: 0 for end in ends}

    def wait_until_read(self, *clients):
        # a system may tell of no queues
        time.sleep(0.01)
        for client in clients:
            for _ in range(60000):
                if self.is_read(client):
                    break
                time.sleep(0.001)
            else:
                raise SystemExit("the server doesn't read what a client has sent")

    def stop_once_read(self, client):
        """Stops serving, by the system's SIGSTOP, soon after it has read all that a client has sent. Serving stands
        still while the system's table is read: that takes long if many connections have ended lately."""
        # a system may tell of no queues
        time.sleep(0.01)
        for _ in range(60000):
            self.process.send_signal(signal.SIGSTOP)
            expect("a stop", os.WIFSTOPPED(os.waitpid(self.process.pid, os.WUNTRACED)[1]), True)
            if self.is_read(client):
                return
            self.process.send_signal(signal.SIGCONT)
            time.sleep(0.001)
        raise SystemExit("the server doesn't read what a client has sent")

    def ask(self, text):
        with self.connect() as connection:
            connection.sendall(text)
            return read_all(connection)

    def call(self, method, path, token=None, thing=None, body=None):
        return shown(self.ask(request(method, path, token, thing, body)))

    def must(self, method, path, token=None, thing=None):
        status, thing = self.call(method, path, token, thing)
        if status != 200:
            raise SystemExit(f"{method} {path} is answered {status} {thing}")
        return thing

    def code(self, account, moment=None):
        return one_time_code(self.secret(account), time.time() if moment is None else moment)

    def login(self, account, code=None):
        return self.call("POST", "/login", thing={"password": code or self.code(account), "user": str(account)})

    def token(self, account):
        status, thing = self.login(account)
        expect(f"a login of account {account}", status, 200)
        return thing["accessToken"]


def how_far(what, said, word, megabytes):
    """Takes the line that says how far a command has come, of up to so many megabytes, and that is written over, from the
    front of what it says, and gives the rest. The command comes to three quarters at least."""
    done, rest = 0, said
    while rest.startswith(step := f"\r{word} {done + 16} of up to {megabytes} MB "):
        done, rest = done + 16, rest[len(step):]
    expect(f"{what}: whether {done} MB are most of {megabytes}", (0.75 * megabytes < done <= megabytes, rest[:1]), (True, "\n"))
    return rest[1:]


def within_a_step(seconds):
    """Waits until so many seconds are left of the step of one-time codes."""
    left = STEP - time.time() % STEP
    if left < seconds:
        time.sleep(left + 0.1)

#!/usr/bin/env python3
"""Runs scripts whose reads and writes fail, at each byte in turn, and compares how the program ends, what it answers and
how much of the script it has read.

    scripts-and-their-faults.py SHIM SAYS COMMAND..
    scripts-and-their-faults.py --file PROGRAM

COMMAND runs the server in script mode under a token key and a seed of zeros. SAYS is what it writes to standard error
before the word of a fault, or nothing if it says nothing of faults. SHIM is the library of fail_stdio.c. With --file
PROGRAM serves a file, whose socket takes the lines of orders, and SQLite reads what they leave there."""
import contextlib
import errno
import os
import shutil
import socket
import sqlite3
import subprocess
import sys
import tempfile

from laboratory import Laboratory, expect, read_all, signed
import laboratory
from validation import one_time_code

KEY = bytes(32)

# the bytes from 0 to 31
COUNTED = "000102030405060708090a0b0c0d0e0f101112131415161718191a1b1c1d1e1f"
# orders, each with its answer in a script
ORDERS = [(f"account-add 0 7 {COUNTED}\n".encode(), b"order done\n"),
          (f"account-add 1 7 {COUNTED}\n".encode(), b"order taken\n"),
          (b"account-disable 2 7\n", b"order done\n"),
          (b"account-disable 3 8\n", b"order unknown\n")]
# a secret in digits of either case
EITHER_CASE_SECRET = "ABCDEFabcdef0102030405060708090A0B0C0D0E0F101112131415161718191A"
EITHER_CASE = [(f"account-add 9999999999999999999 9999 {EITHER_CASE_SECRET}\n".encode(), b"order done\n")]
DECISIONS = [(b"request-approve 4 7000001\n", b"order unknown\n"),
             (b"request-reject 0 9999999999999999999\n", b"order unknown\n")]
OTHER_LINES = [
    b"request 59",
    b"request 59\n",
    b"request 59 4194305\n",
    b"request 59 3\nab",
    b"request 59 3\nabc",
    b"request 59 3\nabcd\n",
    b"account-disable 2  7\n",
    b"account-disable 2 7 \n",
    b"account-disable 02 7\n",
    b"account-disable 2 07\n",
    b"account-disable 2 0\n",
    b"account-disable 2 10000\n",
    b"account-disable 10000000000000000000 7\n",
    b"account-disable 2 7\r\n",
    b"account-disable 2 7",
    b"account-add 2 7 00\n",
    b"request-approve 2 07\n",
    b"request-approve 2\n",
    b"request-reject 2 10000000000000000000\n",
    b"request-rejects 2 7\n",
    b"\n",
    b"account-add 9999999999999999999 9999 00000000000000000000000000000000000000000000000000000000000000000\n"]

# that of RFC 6238's test vectors
SECRET = "3132333435363738393031323334353637383930313233343536373839303132"
# with the code that RFC 6238 gives for second 59 and SHA-256
LOGIN = (b"POST /acvp/v1/login HTTP/1.1\r\nHost: localhost\r\nContent-Length: 57\r\n\r\n"
         b'[{"acvVersion":"1.0"},{"password":"46119246","user":"7"}]')
# its reply at second 59; the token's signature is what Python's hmac gives
TOKEN = (b"eyJhbGciOiJIUzI1NiIsInR5cCI6IkpXVCJ9.eyJleHAiOjE4NTksImlhdCI6NTksInN1YiI6IjcifQ"
         b".-srIBvG7iIbl1lga-mYA-HC8Iyf3j-Tcqx4Vub7FGCI")
ACCEPTED = (b"HTTP/1.1 200 OK\r\nDate: Thu, 01 Jan 1970 00:00:59 GMT\r\nContent-Type: application/json\r\n"
            b"Content-Length: 164\r\nConnection: close\r\n\r\n"
            b'[{"acvVersion":"1.0"},{"accessToken":"' + TOKEN + b'"}]')
REFUSED = (b"HTTP/1.1 403 Forbidden\r\nDate: Thu, 01 Jan 1970 00:01:30 GMT\r\nContent-Type: application/json\r\n"
           b"Content-Length: 47\r\nConnection: close\r\n\r\n"
           b'[{"acvVersion":"1.0"},{"error":"loginRefused"}]')
ADD = (f"account-add 0 7 {SECRET}\n".encode(), b"order done\n")
# second 59 is in the code's time, and second 90 behind it
LOGIN_IN_TIME = [ADD, (b"request 59 126\n" + LOGIN + b"\n", b"reply 292\n" + ACCEPTED + b"\n")]
LATE_LOGIN = [ADD, (b"request 90 126\n" + LOGIN + b"\n", b"reply 181\n" + REFUSED + b"\n")]


def text_of(events):
    return b"".join(text for text, _ in events)


def answers_of(events):
    return b"".join(answer for _, answer in events)


def read_whole(events, place):
    """The events that end within so many bytes of their script."""
    return [event for number, event in enumerate(events) if len(text_of(events[:number + 1])) <= place]


def answered_whole(events, room):
    """The events whose answers end within so many bytes."""
    return [event for number, event in enumerate(events) if len(answers_of(events[:number + 1])) <= room]


# ---- scripts


class Runs:
    """Runs of a command in script mode."""

    def __init__(self, shim, says, command):
        self.shim, self.says, self.command, self.count = shim, says, command, 0

    def run(self, script, **faults):
        """The status of a run, what it answers, what it says on standard error, and how many bytes of the script it has
        read. Where a fault is given, each read and each write moves a byte."""
        self.count += 1
        with tempfile.TemporaryFile(buffering=0) as file:
            file.write(script)
            file.seek(0)
            shim = {"LD_PRELOAD": self.shim} if faults else {}
            places = {name: f"{place}:{number}" for name, (place, number) in faults.items()}
            done = subprocess.run(self.command, stdin=file, capture_output=True, env={**os.environ, **shim, **places}, timeout=600)
            return done.returncode, done.stdout, done.stderr.decode(), file.tell()

    def goes(self, what, events, **faults):
        """The whole script is answered."""
        script = text_of(events)
        expect(what, self.run(script, **faults), (0, answers_of(events), "", len(script)))

    def ends(self, what, script, word, answers, read, **faults):
        """A run ends with a fault, and has answered this and read so much. It may have read more if that isn't given."""
        status, output, said, place = self.run(script, **faults)
        wanted = (1, answers, f"{self.says}{word}\n" if self.says else "", place if read is None else read)
        expect(what, (status, output, said, place), wanted)


def orders_are_answered(runs):
    runs.goes("orders", ORDERS)
    runs.goes("an empty script", [])
    runs.goes("a secret in digits of either case", EITHER_CASE)
    runs.goes("decisions on requests", DECISIONS)


def login(moment, secret, account=7):
    """A login at a moment by the code of second 59, in a script."""
    body = b'[{"acvVersion":"1.0"},{"password":"%s","user":"%d"}]' % (one_time_code(bytes.fromhex(secret), 59).encode(), account)
    head = b"POST /acvp/v1/login HTTP/1.1\r\nHost: localhost\r\nContent-Length: %d\r\n\r\n" % len(body)
    return b"request %d %d\n%s\n" % (moment, len(head + body), head + body)


def reply_with(token):
    """The answer to that login with this token in it."""
    reply = ACCEPTED.replace(TOKEN, token).replace(b": 164\r\n", b": %d\r\n" % (164 + len(token) - len(TOKEN)))
    return b"reply %d\n%s\n" % (len(reply), reply)


def refused_at(time):
    """The answer to a login that is refused at this time of the day."""
    return b"reply 181\n" + REFUSED.replace(b"00:01:30", time) + b"\n"


def accounts_are_as_they_were_ordered(runs):
    """What orders and logins leave is seen by those behind them."""
    accepted, refused = LOGIN_IN_TIME[1][1], refused_at(b"00:00:59")
    expect("a login", login(59, SECRET), LOGIN_IN_TIME[1][0])
    another = COUNTED[:-1] + "e"
    runs.goes("a login of the account that was added", [ORDERS[0], (login(59, COUNTED), accepted)])
    runs.goes("one behind an order that was refused", [*ORDERS[:2], (login(59, COUNTED), accepted)])
    runs.goes("one by another secret", [ORDERS[0], (login(59, another), refused), (login(59, COUNTED), accepted)])
    runs.goes("one of the account that was disabled", [*ORDERS, (login(59, COUNTED), refused)])
    token = signed({"exp": 1859, "iat": 59, "sub": "9999"}, KEY).encode()
    runs.goes("one of account 9999", [*EITHER_CASE, (login(59, EITHER_CASE_SECRET, 9999), reply_with(token))])
    runs.goes("a login whose code was used", [*LOGIN_IN_TIME, (login(60, SECRET), refused_at(b"00:01:00"))])


def a_request_is_answered(runs):
    runs.goes("a login behind its code's time", LATE_LOGIN)
    runs.goes("a login in its code's time", LOGIN_IN_TIME)


def other_lines_are_refused(runs):
    for line in OTHER_LINES:
        runs.ends(f"orders and {line!r}", text_of(ORDERS) + line, "syntax", answers_of(ORDERS), None)


def a_failed_read_ends_the_run(runs):
    """What was read whole is answered, and nothing behind the place is read."""
    for events, number in ((ORDERS, errno.EIO), (LOGIN_IN_TIME, errno.ECONNRESET)):
        script = text_of(events)
        for place in range(len(script) + 1):
            what = f"a read that fails at byte {place} of {script!r}"
            answers = answers_of(read_whole(events, place))
            runs.ends(what, script, "read", answers, place, FAIL_READ=(place, number))


def an_interrupted_read_is_tried_again(runs):
    for place in range(len(text_of(ORDERS)) + 1):
        runs.goes(f"a read of the orders that is interrupted at byte {place}", ORDERS, FAIL_READ=(place, errno.EINTR))


def a_failed_write_ends_the_run(runs):
    """The answers stop at the byte, and no event is read behind the one whose answer is cut."""
    for events, number in ((ORDERS, errno.EPIPE), (ORDERS, errno.EINTR), (LOGIN_IN_TIME, errno.EPIPE)):
        script, answers = text_of(events), answers_of(events)
        for room in range(len(answers)):
            what = f"a write that fails at byte {room} of {answers!r}"
            read = len(text_of(events[:len(answered_whole(events, room)) + 1]))
            runs.ends(what, script, "write", answers[:room], read, FAIL_WRITE=(room, number))


def over_pipes(shim, says, command):
    runs = Runs(shim, says, command)
    for part in (orders_are_answered, a_request_is_answered, accounts_are_as_they_were_ordered, other_lines_are_refused,
                 a_failed_read_ends_the_run, an_interrupted_read_is_tried_again, a_failed_write_ends_the_run):
        part(runs)
    print(f"{runs.count} runs of scripts, {laboratory.checked} comparisons")


# ---- over a file


def told(lab, line):
    """What is answered at the socket for orders."""
    with socket.socket(socket.AF_UNIX) as connection:
        connection.settimeout(60)
        connection.connect(lab.db + "-orders")
        connection.sendall(line)
        connection.shutdown(socket.SHUT_WR)
        return read_all(connection)


def accounts_in(lab):
    """The rows of accounts, as SQLite reads them in a copy of the file and its log."""
    copy = lab.path("copy.db")
    for end in ("", "-wal"):
        with contextlib.suppress(FileNotFoundError):
            os.remove(copy + end)
        if os.path.exists(lab.db + end):
            shutil.copy(lab.db + end, copy + end)
    with contextlib.closing(sqlite3.connect(copy)) as connection:
        return connection.execute("SELECT account, hex(secret), enabled, last_step FROM account ORDER BY account").fetchall()


def over_a_file(program):
    """The socket takes one order a connection, and answers it as the order's command does."""
    added, disabled = [(7, COUNTED.upper(), enabled, None) for enabled in (1, 0)]
    last = (9999, EITHER_CASE_SECRET.upper(), 1, None)
    answers = [(b"account 7 added\n", [added]), (b"fault: taken\n", [added]), (b"account 7 disabled\n", [disabled]),
               (b"fault: unknown\n", [disabled]), (b"account 9999 added\n", [disabled, last]),
               *[(b"fault: unknown\n", [disabled, last])] * len(DECISIONS),
               *[(b"fault: syntax\n", [disabled, last])] * len(OTHER_LINES)]
    lines = [*[line for line, _ in ORDERS + EITHER_CASE + DECISIONS], *OTHER_LINES]
    with tempfile.TemporaryDirectory() as folder:
        lab = Laboratory(program, folder)
        lab.does("ready", "init", "--db", lab.db)
        lab.serve(count=None)
        try:
            for line, (answer, rows) in zip(lines, answers, strict=True):
                expect(f"the line {line!r} at the socket", told(lab, line), answer)
                expect(f"the accounts behind the line {line!r}", accounts_in(lab), rows)
        finally:
            lab.kill()
    print(f"{len(lines)} lines at the socket, {laboratory.checked} comparisons")


if sys.argv[1] == "--file":
    over_a_file(sys.argv[2])
else:
    over_pipes(sys.argv[1], sys.argv[2], sys.argv[3:])

#!/usr/bin/env python3
"""Runs the built program over files and sockets as an operator and clients do, and compares what it does with what it
must.

    program-with-a-file.py PROGRAM SHIM [KILLS]

SHIM is the library of fail_sync.c. KILLS is how often serving is killed while it writes: 100 where it isn't given, and 1000 for a longer run."""
import calendar
import contextlib
import email.utils
import errno
import hashlib
import os
import random
import re
import resource
import shutil
import socket
import sqlite3
import struct
import subprocess
import sys
import tempfile
import threading
import time

import laboratory
import page_sums
from laboratory import BrokenOff, Laboratory, expect, free_port, read_all, request, rows_of, shown, signed, within_a_step
from validation import answers

TOP = os.path.join(os.path.dirname(os.path.abspath(__file__)), "..", "..")
REGISTRATION = {"algorithms": [{"algorithm": "SHA2-256", "messageLength": [8], "revision": "1.0"}]}
WHOLE_BODY = 2097152
# How often serving is killed over one file, so that neither the file nor the age of a token grows with the run.
KILLS_OF_A_FILE = 100


def sum_of(path):
    with open(path, "rb") as file:
        return hashlib.sha256(file.read()).hexdigest()


def short(url):
    return url[len("/acvp/v1"):]


def stored(lab, question, with_log=False):
    """The rows that a question finds in a copy of the file, by itself or with its log."""
    copy = lab.path("stored.db")
    for end in ("", "-wal") if with_log else ("",):
        if os.path.exists(lab.db + end):
            shutil.copy(lab.db + end, copy + end)
    connection = sqlite3.connect(copy)
    rows = connection.execute(question).fetchall()
    connection.close()
    for end in ("", "-wal", "-shm"):
        if os.path.exists(copy + end):
            os.remove(copy + end)
    return rows


# ---- the command line


def options_of(db="absent.db"):
    """Each command with all its options, over a database that isn't there."""
    return {"init": ["--db", db], "migrate": ["--db", db], "account-add": ["--db", db, "--account", "7", "--secret", "secret"],
            "account-disable": ["--db", db, "--account", "7"], "request-approve": ["--db", db, "--request", "7000001"],
            "request-reject": ["--db", db, "--request", "7000001"],
            "serve": ["--db", db, "--keys", "keys.txt", "--port", "8080", "--count", "1", "--patience", "30"],
            "script": ["--keys", "keys.txt"]}


OPTIONAL = ["--count", "--patience"]


def refused_lines(lab):
    """What isn't a command line ends with status 2 and a text, whatever files there are."""
    def refused(*args):
        status, output, faults = lab.run(*args, cwd=lab.folder)
        expect(f"the line {args}", (status, output, faults.startswith("error: ")), (2, "", True))

    bad = ["", "0", "+7", "-7", "07", "7 ", " 7", "7.0", "0x7", "7e0", "seven", "\u0667", "99999999999999999999", "1" * 40]
    for command, option, more in [("account-add", "--account", ["10000", "65543"]), ("account-disable", "--account", ["10000"]),
                                  ("request-approve", "--request", ["10000000000"]),
                                  ("request-reject", "--request", ["10000000000"]),
                                  ("serve", "--port", ["65536"]), ("serve", "--count", ["1000001"]),
                                  ("serve", "--patience", ["3601"])]:
        options = options_of()[command]
        place = options.index(option)
        for number in bad + more:
            refused(command, *options[:place], f"{option}={number}", *options[place + 2:])
    refused("account-add", "--db", "lab.db", "--account", "0", "--secret", "s")
    refused("migration")
    refused()
    refused("init", "--db", b"caf\xe9.db")
    refused(b"\xff")
    for command, options in options_of().items():
        for place in range(0, len(options), 2):
            if options[place] not in OPTIONAL:
                refused(command, *options[:place], *options[place + 2:])
            refused(command, *options, *options[place:place + 2])
        refused(command, *options, "more")
        refused(command, *options, "--more")
        status, output, faults = lab.run(command, "--help")
        expect(f"help of {command}", (status, f"Example: acvp_server {command} --" in output, faults), (0, True, ""))
    expect("files that a line which is refused leaves", os.path.exists(lab.path("absent.db")), False)


def files_that_are_none(lab):
    """Of a database that isn't there, or is none, no command but init makes anything."""
    lab.write(lab.path("secret"), "0" * 64 + "\n")
    for command, options in options_of().items():
        if command in ("init", "script"):
            continue
        before = sorted(os.listdir(lab.folder))
        lab.fails("unavailable", command, *options, cwd=lab.folder)
        lab.fails("unavailable", command, *options_of("nowhere/absent.db")[command], cwd=lab.folder)
        expect(f"the folder after {command}", sorted(os.listdir(lab.folder)), before)
    text = lab.write(lab.path("text.db"), "This is no database.\n" * 200)
    kept = sum_of(text)
    os.mkdir(lab.path("folder.db"))
    for command in options_of():
        if command != "script":
            lab.fails("unavailable", command, *options_of("text.db")[command], cwd=lab.folder)
            lab.fails("unavailable", command, *options_of("folder.db")[command], cwd=lab.folder)
            expect(f"a file that is no database, after {command}", sum_of(text), kept)
    lab.fails("unavailable", "init", "--db", lab.path("nowhere/new.db"))


def made_once(lab):
    """The tables are made once, and a file that has them, or others, stays as it is."""
    lab.does("ready", "init", "--db", lab.db)
    kept = sum_of(lab.db)
    lab.fails("unavailable", "init", "--db", lab.db)
    expect("the file after a second init", sum_of(lab.db), kept)
    lab.add(7)
    kept = sum_of(lab.db)
    lab.fails("unavailable", "init", "--db", lab.db)
    expect("a file with an account after init", sum_of(lab.db), kept)
    empty = lab.write(lab.path("empty.db"), "")
    lab.does("ready", "init", "--db", empty)
    other = lab.path("other.db")
    with sqlite3.connect(other) as connection:
        connection.execute("CREATE TABLE note (text TEXT)")
    connection.close()
    kept = sum_of(other)
    lab.fails("unavailable", "init", "--db", other)
    expect("a file with another table after init", sum_of(other), kept)
    for what, statement in [("an index more", "CREATE INDEX more ON account (enabled)"),
                            ("a table more", "CREATE TABLE more (a INTEGER)"), ("a table less", "DROP TABLE reviewer"),
                            ("no version", "DELETE FROM meta"), ("an older version", "UPDATE meta SET value = 2")]:
        copy = lab.path("copy.db")
        shutil.copy(empty, copy)
        connection = page_sums.connect(copy)
        connection.execute(statement)
        connection.commit()
        connection.close()
        lab.fails("schema", "account-disable", "--db", copy, "--account", "7", what=what)
        lab.fails("schema", "migrate", "--db", copy, what=what)
        for left in ("copy.db", "copy.db-wal"):
            if os.path.exists(lab.path(left)):
                os.remove(lab.path(left))


# ---- orders, and the order of faults


def orders(lab):
    db = ["--db", lab.db]
    secret = lab.path("secret-7")
    lab.fails("taken", "account-add", *db, "--account", "7", "--secret", secret)
    lab.does("account 1 added", "account-add", *db, "--account", "1", "--secret", secret)
    lab.does("account 9998 added", "account-add", *db, "--account", "9998", "--secret", secret)
    lab.does("account 9999 added", "account-add", *db, "--account", "9999", "--secret", secret)
    accounts = "SELECT account, hex(secret), enabled, last_step FROM account ORDER BY account"
    kept = lab.secret(7).hex().upper()
    expect("the accounts in the file alone", stored(lab, accounts), [(number, kept, 1, None) for number in (1, 7, 9998, 9999)])
    lab.does("account 9998 disabled", "account-disable", *db, "--account", "9998")
    lab.does("account 9998 disabled", "account-disable", *db, "--account", "9998")
    expect("the accounts when one is disabled", stored(lab, accounts),
           [(number, kept, int(number != 9998), None) for number in (1, 7, 9998, 9999)])
    lab.does("account 9999 disabled", "account-disable", *db, "--account", "9999")
    lab.fails("taken", "account-add", *db, "--account", "9999", "--secret", secret)
    lab.fails("unknown", "account-disable", *db, "--account", "8")
    for request_number in ("1", "7000001", "9999999999"):
        lab.fails("unknown", "request-approve", *db, "--request", request_number)
        lab.fails("unknown", "request-reject", *db, "--request", request_number)


def faults_in_their_order(lab):
    db, absent = ["--db", lab.db], ["--db", lab.path("absent.db")]
    other = ["--db", lab.path("other.db")]
    for what, text in [("63 digits", "0" * 63 + "\n"), ("65 digits", "0" * 65 + "\n"), ("no line feed", "0" * 64),
                       ("two line feeds", "0" * 64 + "\n\n"), ("a carriage return", "0" * 64 + "\r\n"),
                       ("two lines", ("0" * 64 + "\n") * 2), ("a letter", "g" + "0" * 63 + "\n"), ("nothing", "")]:
        bad = lab.write(lab.path("bad-secret"), text)
        for where in (db, absent, other):
            lab.fails("secret", "account-add", *where, "--account", "7", "--secret", bad, what=what)
    lab.fails("secret", "account-add", *absent, "--account", "7", "--secret", lab.path("no-secret"))
    upper = lab.write(lab.path("upper"), "ABCDEF0123456789" * 4 + "\n")
    lab.does("account 2 added", "account-add", *db, "--account", "2", "--secret", upper)
    with socket.socket() as taken:
        taken.bind(("127.0.0.1", 0))
        taken.listen()
        port = ["--port", str(taken.getsockname()[1]), "--count", "1"]
        bad_keys = lab.write(lab.path("bad-keys"), "0" * 64 + "\n")
        for where in (db, absent, other):
            lab.fails("keys", "serve", *where, "--keys", bad_keys, *port)
            lab.fails("keys", "serve", *where, "--keys", lab.path("no-keys"), *port)
        lab.fails("unavailable", "serve", *absent, "--keys", lab.keys, *port)
        lab.fails("schema", "serve", *other, "--keys", lab.keys, *port)
        lab.fails("bind", "serve", *db, "--keys", lab.keys, *port)
    with open("/dev/full", "w") as full:
        for command in (["init", "--db", lab.path("full.db")],
                        ["serve", *db, "--keys", lab.keys, "--port", str(free_port()), "--count", "1"]):
            done = subprocess.run([lab.program, *command], stdout=full, stderr=subprocess.PIPE)
            expect("output that can't be written", (done.returncode, done.stderr), (1, b"fault: write\n"))


def no_connection_can_be_taken(lab):
    """With as many open files as serving needs before its first connection, none can be taken; the system says so at
    once."""
    for most in range(4, 32):
        port = free_port()
        process = subprocess.Popen([lab.program, "serve", "--db", lab.db, "--keys", lab.keys, "--port", str(port),
                                    "--count", "1"], stdout=subprocess.PIPE, stderr=subprocess.PIPE,
                                   preexec_fn=lambda: resource.setrlimit(resource.RLIMIT_NOFILE, (most, most)))
        if process.stdout.readline():
            output, faults = process.communicate(timeout=600)
            expect("no connection can be taken", (process.returncode, output, faults), (1, b"", b"fault: accept\n"))
            return
        process.communicate()
    raise SystemExit("serving doesn't begin with 31 open files")


def serve_with(lab, before=(), **more):
    """Serves without an end, by a command that these words begin."""
    lab.port = free_port()
    lab.process = subprocess.Popen([*before, lab.program, "serve", "--db", lab.db, "--keys", lab.keys, "--port", str(lab.port)],
                                   stdin=subprocess.DEVNULL, stdout=subprocess.PIPE, stderr=subprocess.PIPE, **more)
    expect("the first line of serve", lab.process.stdout.readline(), b"listening 127.0.0.1:%d\n" % lab.port)


def ends_unavailable(lab):
    output, faults = lab.process.communicate(timeout=600)
    expect("serving ends where its store is shut", (lab.process.returncode, output, faults),
           (1, b"", b"fault: unavailable\n"))
    lab.process = None


def a_full_disk(lab):
    """Where the disk has no room for what is written, a change is unavailable, and reads are answered. Serving goes on,
    and with room the change is made."""
    lab.add(25)
    within_a_step(10)
    # as the unit in examples/ starts it: a limit is told as an error of the write where its signal is ignored
    serve_with(lab, before=["env", "--ignore-signal=XFSZ"])
    resource.prlimit(lab.process.pid, resource.RLIMIT_FSIZE, (0, resource.RLIM_INFINITY))
    expect("a login without room", lab.login(25), (503, {"error": "unavailable"}))
    now = int(time.time())
    token = signed({"exp": now + 1800, "iat": now, "sub": "25"})
    expect("a read without room", lab.must("GET", "/account", token)["sessions"], 0)
    lab.fails("unavailable", "account-disable", "--db", lab.db, "--account", "25")
    resource.prlimit(lab.process.pid, resource.RLIMIT_FSIZE, (resource.RLIM_INFINITY, resource.RLIM_INFINITY))
    lab.token(25)
    lab.kill()


def a_disk_that_fails(lab):
    """A write that the disk can't keep shuts the store. Whoever asked is told that the server is unavailable, client or
    operator, and serving ends, so that whoever watches it starts it anew."""
    mark = lab.path("fail")
    env = {**os.environ, "LD_PRELOAD": lab.failing, "FAIL": mark}
    lab.add(26)
    serve_with(lab, env=env)
    lab.write(mark, "")
    expect("a login over a disk that fails", lab.login(26), (503, {"error": "unavailable"}))
    ends_unavailable(lab)
    os.remove(mark)
    serve_with(lab, env=env)
    lab.write(mark, "")
    expect("a request that writes nothing", lab.call("GET", "/algorithms", "none")[0], 401)
    lab.fails("unavailable", "account-disable", "--db", lab.db, "--account", "26")
    ends_unavailable(lab)
    os.remove(mark)
    lab.serve(1)
    lab.call("GET", "/algorithms", "none")
    lab.served(1)


# ---- the life of a laboratory


def certified(lab):
    """A session passes and is certified by orders while nobody serves; each restart finds everything. A code is used
    once."""
    lab.serve()
    within_a_step(5)
    code = lab.code(7)
    status, thing = lab.login(7, code)
    expect("a login", status, 200)
    token = thing["accessToken"]
    lab.fails("unavailable", "migrate", "--db", lab.db, what="while it is served")
    session = lab.must("POST", "/testSessions", token, REGISTRATION)
    bound, path, (set_path,) = session["accessToken"], short(session["url"]), map(short, session["vectorSetUrls"])
    lab.kill()
    lab.serve()
    expect("a used code after a restart", lab.login(7, code), (403, {"error": "loginRefused"}))
    lab.must("POST", set_path + "/results", bound, answers(lab.must("GET", set_path, bound)))
    expect("the results", lab.must("GET", path + "/results", bound)["passed"], True)
    vendor = lab.must("POST", "/vendors", token, {"name": "V"})
    environment = lab.must("POST", "/oes", token, {"name": "E"})
    expect("the first request", short(vendor["url"]), "/requests/7000001")
    expect("the second request", short(environment["url"]), "/requests/7000002")
    lab.kill()
    number = ["--db", lab.db, "--request"]
    requests = "SELECT request, kind, status, approved FROM request ORDER BY request"
    lab.does("request 7000001 approved /acvp/v1/vendors/7000001", "request-approve", *number, "7000001")
    expect("the requests in the file alone", stored(lab, requests), [(7000001, 1, 1, 7000001), (7000002, 3, 0, None)])
    lab.does("request 7000002 approved /acvp/v1/oes/7000001", "request-approve", *number, "7000002")
    for command in ("request-approve", "request-reject"):
        lab.fails("notInitial", command, *number, "7000001")
    lab.serve()
    lab.must("POST", "/modules", token, {"name": "M", "vendorUrl": "/acvp/v1/vendors/7000001"})
    lab.kill()
    lab.does("request 7000003 approved /acvp/v1/modules/7000001", "request-approve", *number, "7000003")
    parts = {"moduleUrl": "/acvp/v1/modules/7000001", "oeUrl": "/acvp/v1/oes/7000001"}
    lab.serve()
    lab.must("PUT", path, bound, parts)
    lab.kill()
    lab.does("request 7000004 rejected", "request-reject", *number, "7000004")
    lab.fails("notInitial", "request-approve", *number, "7000004")
    lab.serve()
    lab.must("PUT", path, bound, parts)
    lab.kill()
    lab.does("request 7000005 approved /acvp/v1/testSessions/7000001", "request-approve", *number, "7000005")
    lab.serve()
    expect("the session", lab.must("GET", path, bound)["status"], "approved")
    expect("its request", lab.must("GET", "/requests/7000005", token)["approvedUrl"], session["url"])
    lab.kill()
    lab.does("account 7 disabled", "account-disable", "--db", lab.db, "--account", "7")
    lab.serve()
    expect("a token of a disabled account", lab.call("GET", "/account", token), (403, {"error": "accountRefused"}))
    lab.kill()


def rows_of_each_kind(lab):
    """A reviewer, a cancelled set and a cancelled session are there when serving begins anew, and in the file alone when
    it has ended."""
    lab.add(20)
    lab.serve()
    token = lab.token(20)
    three = [lab.must("POST", "/testSessions", token, REGISTRATION) for _ in range(3)]
    (reviewed, bound), (open_still, of_set), (cancelled, of_session) = [(short(s["url"]), s["accessToken"]) for s in three]
    set_path = short(three[1]["vectorSetUrls"][0])
    expect("a reviewer", lab.must("POST", reviewed + "/reviewers", bound, {"account": 9}), {"reviewers": [9]})
    lab.must("DELETE", set_path, of_set)
    lab.must("DELETE", cancelled, of_session)
    lab.kill()
    lab.serve(5)
    expect("the reviewers after a restart", lab.must("GET", reviewed + "/reviewers", bound), {"reviewers": [9]})
    expect("the sets without the cancelled one", lab.must("GET", open_still + "/vectorSets", of_set), {"vectorSetUrls": []})
    expect("the cancelled set", lab.call("GET", set_path, of_set), (409, {"error": "setCancelled"}))
    expect("the cancelled session", lab.must("GET", cancelled, of_session)["status"], "cancelled")
    expect("the session whose set is cancelled", lab.must("GET", open_still, of_set)["status"], "open")
    lab.served(5)
    lab.serve(3)
    for _ in range(3):
        lab.must("POST", "/vendors", token, {"name": "V"})
    lab.served(3)
    lab.does("request 20000002 rejected", "request-reject", "--db", lab.db, "--request", "20000002")
    expect("the requests in the file alone",
           stored(lab, "SELECT request, status, approved FROM request WHERE account = 20 ORDER BY request"),
           [(20000001, 0, None), (20000002, 2, None), (20000003, 0, None)])
    expect("the reviewers in the file alone", stored(lab, "SELECT session, account FROM reviewer"), [(20000001, 9)])
    expect("the sessions in the file alone",
           stored(lab, "SELECT session, cancelled, live, passed FROM session WHERE account = 20 ORDER BY session"),
           [(20000001, 0, 1, 0), (20000002, 0, 0, 0), (20000003, 1, 1, 0)])
    expect("the sets in the file alone",
           stored(lab, "SELECT vs, cancelled FROM vset2 WHERE vs BETWEEN 2000000100 AND 2000000399 ORDER BY vs"),
           [(2000000101, 0), (2000000201, 1), (2000000301, 0)])


def rows_that_stand_for_nothing(lab):
    """What meets such a row is unavailable, at an order, at a request and before serving; a request of another account
    doesn't meet it."""
    lab.does("account 21 added", "account-add", "--db", lab.db, "--account", "21", "--secret", lab.path("secret-20"))
    whole = lab.db

    def spoilt(name, *statements):
        lab.db = lab.path(name)
        shutil.copy(whole, lab.db)
        connection = page_sums.connect(lab.db)
        for statement in statements:
            connection.execute(statement)
        connection.commit()
        connection.close()
        return ["--db", lab.db]

    db = spoilt("no-account.db", "UPDATE account SET enabled = 2 WHERE account = 20")
    lab.fails("unavailable", "account-disable", *db, "--account", "20")
    lab.does("account 21 disabled", "account-disable", *db, "--account", "21")
    lab.serve()
    for account, what, wanted in [("20", "a caller whose row stands for nothing", (503, {"error": "unavailable"})),
                                  ("22", "a caller without a row", (403, {"error": "accountRefused"}))]:
        token = signed({"exp": 4102444800, "iat": 0, "sub": account})
        expect(what, lab.call("GET", "/account", token), wanted)
    lab.kill()
    spoilt("no-texts.db", "UPDATE vset2 SET capability = 'none'", "UPDATE request SET status = 9",
           "UPDATE object SET body = 'none'")
    lab.serve()
    token, own = (signed({"exp": 4102444800, "iat": 0, "sub": account}) for account in ("21", "20"))
    session = lab.must("POST", "/testSessions", token, REGISTRATION)
    bound, of_another = session["accessToken"], short(session["url"]) + "/vectorSets/2000000101"
    given = {"vsId": 2000000101, "testGroups": []}
    for method, path, by, thing in [("GET", of_another, bound, None), ("GET", of_another + "/results", bound, None),
                                    ("GET", of_another + "/expected", bound, None), ("DELETE", of_another, bound, None),
                                    ("POST", of_another + "/results", bound, given),
                                    ("PUT", of_another + "/results", bound, given), ("GET", "/vendors/7000001", token, None),
                                    ("GET", "/modules/7000001", token, None), ("GET", "/oes/7000001", token, None),
                                    ("GET", "/requests/20000001", token, None)]:
        expect(f"another account's row that stands for nothing: {method} {path}", lab.call(method, path, by, thing),
               (404, {"error": "noResource"}))
    expect("a module of another account's vendor that stands for nothing",
           lab.call("POST", "/modules", token, {"name": "M", "vendorUrl": "/acvp/v1/vendors/7000001"}),
           (400, {"error": "noReference"}))
    expect("the request whose row stands for nothing", lab.call("GET", "/requests/20000001", own),
           (503, {"error": "unavailable"}))
    lab.kill()
    db = spoilt("no-epoch.db", "UPDATE vset2 SET epoch = -1")
    lab.fails("unavailable", "serve", *db, "--keys", lab.keys, "--port", str(free_port()), "--count", "1")
    lab.db = whole


def keys_that_change(lab):
    """A key behind the old one signs, and the old one's tokens are good until it is retired; a seed is never taken
    away."""
    def keys(name, *lines):
        return lab.write(lab.path(name), "".join(line + "\n" for line in lines))

    lab.add(30)
    first, second, seed, more = "token " + "0" * 64, "token " + "2" * 64, "seed " + "1" * 64, "seed " + "3" * 64
    lab.serve()
    token = lab.token(30)
    lab.must("POST", "/testSessions", token, REGISTRATION)
    lab.kill()
    lab.serve(keys=keys("two-keys", first, second, seed, more))
    session = lab.must("POST", "/testSessions", token, REGISTRATION)
    lab.must("GET", short(session["url"]), session["accessToken"])
    lab.kill()
    lab.serve(keys=keys("retired", "token -", second, seed, more))
    expect("a token of the retired key", lab.call("GET", "/account", token), (401, {"error": "tokenMalformed"}))
    lab.must("GET", short(session["url"]), session["accessToken"])
    lab.kill()
    with socket.socket() as taken:
        taken.bind(("127.0.0.1", 0))
        taken.listen()
        lab.fails("keys", "serve", "--db", lab.db, "--keys", keys("seed-gone", first, second, seed), "--port",
                  str(taken.getsockname()[1]), "--count", "1", what="without the seed of a vector set, and without a port")
    lab.keys = lab.path("two-keys")


# ---- clients that do as they like


def reset(connection):
    """Ends a connection at once, and drops what is still under way."""
    connection.setsockopt(socket.SOL_SOCKET, socket.SO_LINGER, struct.pack("ii", 1, 0))
    connection.close()


def sends_without_end(connection, text):
    """Sends a request, and then bytes until the server drops the connection, 1 GB at most."""
    with connection:
        try:
            connection.sendall(text)
            for _ in range(1000):
                connection.sendall(b" " * 1000000)
        except OSError:
            return
    raise SystemExit("1 GB was taken behind a request")


def clients_that_break_off(lab):
    whole = request("GET", "/account")
    lab.serve(12)
    lab.connect().close()
    reset(lab.connect())
    with lab.connect() as connection:
        connection.sendall(whole[:20])
    with lab.connect() as connection:
        connection.sendall(whole[:20])
        connection.shutdown(socket.SHUT_WR)
        expect("half a head", shown(read_all(connection)), (400, {"error": "truncated"}))
    connection = lab.connect()
    connection.sendall(whole)
    reset(connection)
    connection = lab.connect()
    connection.sendall(request("POST", "/login", body=b"x" * 100000)[:5000])
    reset(connection)
    with lab.connect() as connection:
        connection.setsockopt(socket.IPPROTO_TCP, socket.TCP_NODELAY, 1)
        for byte in whole:
            connection.send(bytes([byte]))
        expect("a byte at a time", shown(read_all(connection)), (401, {"error": "tokenMissing"}))
    # the client keeps its side open, and the next one is served all the same
    waiting = lab.connect()
    waiting.sendall(whole)
    expect("a client that stays", shown(read_all(waiting)), (401, {"error": "tokenMissing"}))
    began = time.monotonic()
    expect("the next client", lab.call("GET", "/account"), (401, {"error": "tokenMissing"}))
    expect("the next client within ten seconds", time.monotonic() - began < 10, True)
    waiting.close()
    # a client that sends on and on behind its body is dropped, and one that stops half way is waited for
    endless = lab.connect()
    sender = threading.Thread(target=sends_without_end, args=(endless, whole))
    sender.start()
    began = time.monotonic()
    expect("the client behind an endless one", lab.call("GET", "/account"), (401, {"error": "tokenMissing"}))
    expect("that client within twenty seconds", time.monotonic() - began < 20, True)
    sender.join()
    with lab.connect() as connection:
        connection.sendall(whole[:30])
        time.sleep(6)
        connection.sendall(whole[30:])
        expect("a client that stops half way", shown(read_all(connection)), (401, {"error": "tokenMissing"}))
    lab.served(12)


def moment_of(reply):
    """The moment that the Date of a reply says."""
    date = re.search(rb"\r\nDate: ([^\r]*)\r\n", reply).group(1).decode()
    return calendar.timegm(email.utils.parsedate(date))


def at_its_address_and_moment(lab):
    """Only the machine's own address is listened on, and the moment of a request is that at which it is whole."""
    lab.serve(3)
    with socket.socket() as other:
        expect("another address", other.connect_ex(("127.0.0.2", lab.port)), errno.ECONNREFUSED)
    for _ in range(2):
        time.sleep(2.5)
        before = int(time.time())
        moment = moment_of(lab.ask(request("GET", "/algorithms")))
        expect("the moment of a connection", before <= moment <= time.time(), True)
    with lab.connect() as connection:
        time.sleep(2.5)
        sent = time.time()
        connection.sendall(request("GET", "/algorithms"))
        expect("the moment of one that sends later", int(sent) <= moment_of(read_all(connection)) <= time.time(), True)
    lab.served(3)


def large_bodies(lab):
    refusal = (403, {"error": "loginRefused"})
    text = b'[{"acvVersion":"1.0"},{"password":"00000000","user":"1"}]'
    lab.serve(6)
    expect("a body of 2 MiB", lab.call("POST", "/login", body=text + b" " * (WHOLE_BODY - len(text))), refusal)
    for size in (WHOLE_BODY + 1, 3000000):
        expect("a body too large", lab.call("POST", "/login", body=text + b" " * (size - len(text))),
               (413, {"error": "bodyTooLarge"}))
    with lab.connect() as connection:
        connection.sendall(request("POST", "/login", body=b" " * 3000000))
        time.sleep(0.3)
        expect("a reply that is read late", shown(read_all(connection)), (413, {"error": "bodyTooLarge"}))
    for more in (b"x", b"y" * 1000000):
        expect("bytes behind the body", shown(lab.ask(request("POST", "/login", body=text) + more)), refusal)
    lab.served(6)


def backlog(lab):
    lab.serve(51)
    held = lab.connect()
    waiting = [lab.connect() for _ in range(50)]
    for connection in waiting:
        connection.sendall(request("GET", "/algorithms"))
    held.sendall(request("GET", "/algorithms"))
    for connection in [held, *waiting]:
        with connection:
            expect("one of fifty that wait", shown(read_all(connection)), (401, {"error": "tokenMissing"}))
    lab.served(51)


# ---- other programs


def commands_in(document, section=None):
    """The commands that a document shows, or a section of it."""
    with open(os.path.join(TOP, document)) as file:
        text = file.read()
    if section is not None:
        text = text.split(f"\n## {section}\n")[1].split("\n## ")[0]
    return [line[4:] for line in text.split("\n") if line.startswith("    ")]


def shell(lab, lines, folder):
    """What the shell's commands print, with the program on PATH; all must succeed and print no fault."""
    path = os.path.dirname(lab.program) + os.pathsep + os.environ["PATH"]
    done = subprocess.run(["bash", "-eu", "-o", "pipefail", "-c", "\n".join(lines)], capture_output=True, text=True,
                          cwd=folder, env={**os.environ, "PATH": path}, timeout=600)
    expect(f"the commands {lines}", (done.returncode, done.stderr), (0, ""))
    return done.stdout


def by_curl(lab):
    """The commands of curl that the protocol's text shows, copied."""
    if not shutil.which("curl"):
        print("skipped: the commands of curl (apt-get install curl)")
        return
    lines = commands_in("docs/PROTOCOL.md", "With curl")
    lab.add(31)
    lab.serve()
    within_a_step(5)
    code = lab.code(31)
    if shutil.which("oathtool"):
        other = subprocess.run(["oathtool", "--totp=sha256", "-d", "8", lab.secret(31).hex()], capture_output=True, check=True,
                               text=True).stdout.strip()
        expect("oathtool's code", other, code)
    else:
        print("skipped: a code of oathtool for curl (apt-get install oathtool)")
    replaced = {"server": f"server=http://127.0.0.1:{lab.port}/acvp/v1", "account": "account=31", "code": f"code={code}"}
    lines = [replaced.get(line.split("=")[0], line) for line in lines]
    expect("what the protocol's text has in its commands", all(line in lines for line in replaced.values()), True)
    output = shell(lab, lines, lab.folder)
    lab.kill()
    for part in ('"account":31,', '"url":"/acvp/v1/testSessions/31000001"', '"vsId":3100000101}', '"passed":false'):
        expect(f"{part} in what curl shows", part in output, True)


def six_commands(lab, folder):
    """The commands of the README as they stand, from the top of what looks like a checkout, up to a login."""
    out = os.path.join(folder, "crates", "acvp_server", "out")
    os.makedirs(out)
    os.symlink(lab.program, os.path.join(out, "acvp_server"))
    os.remove(lab.keys)
    lines = commands_in("README.md", "A laboratory in six commands")
    expect("the number of the commands", len(lines), 6)
    lab.port = 8080
    with socket.socket() as there:
        there.setsockopt(socket.SOL_SOCKET, socket.SO_REUSEADDR, 1)
        if there.connect_ex(("127.0.0.1", lab.port)) == 0:
            lab.port = free_port()
            lines[-1] = lines[-1].replace("8080", str(lab.port))
            print("the port 8080 is in use: another one stands in for it")
    lines[-1] = "exec " + lines[-1]
    path = {"PATH": "/usr/local/bin:/usr/bin:/bin"}
    lab.process = subprocess.Popen(["bash", "-eu", "-o", "pipefail", "-c", "\n".join(lines)], cwd=folder, env=path,
                                   stdin=subprocess.DEVNULL, stdout=subprocess.PIPE, stderr=subprocess.PIPE)
    for line in ("made keys.txt", "made secret.txt", "ready", "account 7 added", f"listening 127.0.0.1:{lab.port}"):
        expect("what the README's commands print", lab.process.stdout.readline(), line.encode() + b"\n")
    lab.token(7)
    lab.kill()
    for name in ("keys.txt", "secret.txt"):
        expect(f"who may read {name}", os.stat(os.path.join(folder, name)).st_mode & 0o777, 0o600)


def documents(lab):
    """The commands of the README and of the operator's text, copied, in a folder of their own."""
    folder = lab.path("documents")
    os.mkdir(folder)
    other = Laboratory(lab.program, folder)
    other.secret = lambda account: bytes.fromhex(open(os.path.join(folder, "secret.txt")).read().strip())
    six_commands(other, folder)
    shutil.rmtree(folder)
    os.mkdir(folder)
    lines = [line for line in commands_in("docs/OPERATING.md") if not re.match("PATH=|mkdir|cd |acvp_server (serve|certificate)", line)]
    place = next(number for number, line in enumerate(lines) if "account-add" in line) + 1
    expect("what setting up prints", shell(other, lines[:place], folder), "ready\nmade keys.txt\nmade secret-7.txt\naccount 7 added\n")
    other.secret = lambda account: bytes.fromhex(open(os.path.join(folder, "secret-7.txt")).read().strip())
    other.serve()
    token = other.token(7)
    for name in ("Vendor one", "Vendor two"):
        other.must("POST", "/vendors", token, {"name": name})
    other.kill()
    rest = [line for line in lines[place:] if "account-disable" not in line]
    output = shell(other, rest, folder)
    wanted = ["7 enabled sessions 0 requests 2 ", '7000002 account 7 vendor initial\n    "Vendor two"\n',
              '7000001 account 7 vendor initial\n    "Vendor one"\n{"name":"Vendor one"}\n', "request 7000001 approved /acvp/v1/vendors/7000001\n", "request 7000002 rejected\n", f"backed up: {rows_of(os.path.join(folder, 'backup.db'))} rows\n", "restored\n", "whole: accounts 1 sessions 0 sets 0 requests 2\n", "schema 3\n"]
    for part in wanted:
        expect(f"{part!r} in what the operator's commands print: {output}", part in output, True)
    with contextlib.closing(sqlite3.connect(f"file:{os.path.join(folder, 'backup.db')}?mode=ro&immutable=1", uri=True)) as backup:
        for question, answer in (("integrity_check", [("ok",)]), ("foreign_key_check", [])):
            expect(f"{question} of the backup", backup.execute(f"PRAGMA {question}").fetchall(), answer)
    for keys in ("keys.txt", "keys-2.txt"):
        other.serve(keys=os.path.join(folder, keys))
        expect(f"a token under {keys}", other.must("GET", "/account", token)["requests"], 2)
        other.kill()
    other.serve(keys=os.path.join(folder, "keys-4.txt"))
    expect("a token of the key that is retired", other.call("GET", "/account", token)[0], 401)
    other.kill()
    other.db = os.path.join(folder, "backup.db")
    other.serve(keys=os.path.join(folder, "keys.txt"))
    expect("a token over the backup", other.must("GET", "/account", token)["requests"], 2)
    other.kill()
    other.db = os.path.join(folder, "laboratory.db")
    disable = [line for line in lines if "account-disable" in line]
    expect("what disabling prints", shell(other, disable, folder), "account 7 disabled\n")


def whole_validation(lab):
    """The client of examples/ over sockets, as over pipes."""
    done = subprocess.run([sys.executable, os.path.join(TOP, "examples", "validation.py"), "--port", str(free_port()),
                           lab.program, lab.db, lab.keys], capture_output=True, text=True)
    expect("the validation over sockets", (done.returncode, done.stderr), (0, ""))
    expect("its last line", "approved: /acvp/v1/testSessions/" in done.stdout.split("\n")[-2], True)


class OtherReader:
    """The program sqlite3, over a copy of the file and of its log."""

    def __init__(self, lab):
        self.lab, self.command = lab, shutil.which("sqlite3")
        if not self.command:
            print("skipped: what sqlite3 says of the file (apt-get install sqlite3)")

    def looks(self):
        if not self.command:
            return
        for end in ("", "-wal"):
            if os.path.exists(self.lab.db + end):
                shutil.copy(self.lab.db + end, self.lab.path("seen.db") + end)
        for question, wanted in [("PRAGMA integrity_check", "ok\n"), ("PRAGMA foreign_key_check", "")]:
            done = subprocess.run([self.command, self.lab.path("seen.db"), question], capture_output=True, text=True)
            expect(question, (done.returncode, done.stdout, done.stderr), (0, wanted, ""))
        for end in ("", "-wal", "-shm"):
            if os.path.exists(self.lab.path("seen.db") + end):
                os.remove(self.lab.path("seen.db") + end)


# ---- stops


class Writer(threading.Thread):
    """A client that writes until the server is gone, and keeps what was acknowledged."""

    def __init__(self, lab, token):
        super().__init__()
        self.lab, self.token, self.wrong = lab, token, None
        self.requests, self.sessions, self.cancelled = [], [], []
        self.asked = {"requests": 0, "sessions": 0}

    def run(self):
        try:
            while True:
                self.asked["requests"] += 1
                self.requests.append(self.lab.must("POST", "/vendors", self.token, {"name": f"V {len(self.requests)}"})["url"])
                self.asked["sessions"] += 1
                made = self.lab.must("POST", "/testSessions", self.token, REGISTRATION)
                self.sessions.append((made["url"], made["accessToken"]))
                self.lab.must("DELETE", short(made["vectorSetUrls"][0]), made["accessToken"])
                self.cancelled.append(made["url"])
        except (OSError, BrokenOff):
            pass
        except SystemExit as wrong:
            self.wrong = wrong


def everything_is_there(lab, token, before, writer):
    """What was acknowledged is there, and of what was asked for and not acknowledged at most one thing more."""
    now = lab.must("GET", "/account", token)
    for kind, kept in [("requests", len(writer.requests)), ("sessions", len(writer.sessions))]:
        low, high = before[kind] + kept, before[kind] + writer.asked[kind]
        if not low <= now[kind] <= high:
            raise SystemExit(f"{now[kind]} {kind} after a stop, and not {low} to {high}")
    for url in writer.requests[-20:]:
        expect(f"{url} after a stop", lab.must("GET", short(url), token), {"status": "initial", "url": url})
    for url, bound in writer.sessions[-20:]:
        expect(f"{url} after a stop", lab.must("GET", short(url), bound)["url"], url)
    return now


def kills(lab, count):
    """Serving is killed at random moments while it writes."""
    seed = random.randrange(10**6)
    choice = random.Random(seed)
    reader = OtherReader(lab)
    account = 40
    lab.add(account)
    lab.serve()
    within_a_step(5)
    code = lab.code(account)
    status, thing = lab.login(account, code)
    expect("a login before the stops", status, 200)
    token = thing["accessToken"]
    now = lab.must("GET", "/account", token)
    acknowledged, longest = {"requests": [], "sessions": [], "cancelled": []}, 0.4
    try:
        for done in range(count):
            writer = Writer(lab, token)
            writer.start()
            if 2 * len(acknowledged["cancelled"]) < done:
                # a slow disk
                longest *= 1.5
            time.sleep(choice.uniform(0, longest))
            lab.kill()
            writer.join()
            if writer.wrong:
                raise writer.wrong
            reader.looks()
            lab.serve()
            now = everything_is_there(lab, token, now, writer)
            acknowledged["requests"] += writer.requests
            acknowledged["sessions"] += [url for url, _ in writer.sessions]
            acknowledged["cancelled"] += writer.cancelled
    except (SystemExit, Exception):
        print(f"the moments were those of seed {seed}")
        raise
    finally:
        lab.kill()
    reader.looks()
    for kind, question in [("requests", "SELECT request FROM request WHERE status = 0"),
                           ("sessions", "SELECT session FROM session"),
                           ("cancelled", "SELECT session FROM vset2 WHERE cancelled = 1")]:
        there = {number for number, in stored(lab, question, with_log=True)}
        missing = [url for url in acknowledged[kind] if int(url.split("/")[-1]) not in there]
        expect(f"acknowledged {kind} that the file lacks", missing, [])
        expect(f"{len(acknowledged[kind])} {kind} are as many as half the stops", len(acknowledged[kind]) * 2 >= count, True)
    return now["requests"] + now["sessions"]


def made(program, folder):
    """A laboratory in a folder of its own, with the tables that init makes."""
    os.mkdir(folder)
    lab = Laboratory(program, folder)
    lab.does("ready", "init", "--db", lab.db)
    return lab


PARTS = [refused_lines, files_that_are_none, made_once, orders, faults_in_their_order, no_connection_can_be_taken,
         a_full_disk, a_disk_that_fails, certified, rows_of_each_kind, rows_that_stand_for_nothing, keys_that_change,
         clients_that_break_off, at_its_address_and_moment, large_bodies, backlog, by_curl, documents, whole_validation]


def main():
    program, failing = map(os.path.abspath, sys.argv[1:3])
    count = int(sys.argv[3]) if len(sys.argv) > 3 else 100
    began = time.time()
    with tempfile.TemporaryDirectory() as folder:
        lab = Laboratory(program, folder)
        lab.failing = failing
        try:
            for part in PARTS:
                part(lab)
                print(f"{part.__name__.replace('_', ' ')}: done after {time.time() - began:.0f} s", flush=True)
            for done in range(0, count, KILLS_OF_A_FILE):
                lab = made(program, os.path.join(folder, f"stops-{done}")) if done else lab
                more = min(KILLS_OF_A_FILE, count - done)
                changes = kills(lab, more)
                print(f"{done + more} stops by SIGKILL: done after {time.time() - began:.0f} s, the last {more} of them with "
                      f"{changes} changes in the file", flush=True)
        finally:
            lab.kill()
    print(f"{laboratory.checked} comparisons")


main()

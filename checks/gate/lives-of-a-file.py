#!/usr/bin/env python3
"""A life of one file in three runs of the built program, which is killed behind each event; and the same life without a
kill.

    lives-of-a-file.py PROGRAM SHIM

SHIM is the library of set_clock.c, which shows the program the moment of each event.

SQLite makes a file of schema 1, with an account and a test session, and `migrate` moves it. The first run is under one
token key and one seed, and a backup is made behind it. The second is under a token key more, and all it has told is
lost: the backup is put in the file's place, with the log beside it that the last kill has left. The third is under a
seed more, as docs/OPERATING.md wants it then. Each event is one request or one order: the file is served from what the
kill before has left, SIGKILL comes once the reply is read, and the rows must be those before with what the event
changes, when it is told and behind the kill.

The life without a kill has no second run, and no restore. What is asked in it is the same, byte for byte, and so must
be what is told, and the rows at the end."""
import contextlib
import hmac
import importlib
import json
import os
import shutil
import sqlite3
import sys
import tempfile

import laboratory
from chacha20 import Words
from laboratory import KEY, SEED, STEP, Laboratory, compact, decoded, encoded, expect, fingerprint, request, shown, signed
from validation import answers, one_time_code

earlier = importlib.import_module("files-of-earlier-schemas")

# The runs begin at these moments: the first in a step of one-time codes, the others in the next one.
BEGINS = {1: 1790000000, 2: 1790000010, 3: 1790000021}
SECOND_KEY, SECOND_SEED = bytes([34] * 32), bytes([51] * 32)
# The token keys and the seeds of the later runs. The first is under the one key and the one seed of the laboratory.
RINGS = {2: ([KEY, SECOND_KEY], [SEED]), 3: ([KEY, SECOND_KEY], [SEED, SECOND_SEED])}
LENGTH, TESTS = 256, 17
CAPABILITY = {"algorithm": "SHA2-256", "messageLength": [LENGTH], "revision": "1.0"}
STORED, REGISTRATION = compact(CAPABILITY).decode(), {"algorithms": [CAPABILITY]}
EMPTY_LOG = 41
# Account 7 and its test session were there before the first run, and account 9 is added in it.
OLD, NEW = 7, 9
OLD_SESSION, OLD_SET, ANSWERED_SET = 7000001, 700000101, 700000102
FIRST_SESSION, FIRST_SET, NEXT_SESSION, NEXT_SET = 9000001, 900000101, 9000002, 900000201
# Account 9's first vendor and first request have this number, whichever run makes them.
FIRST = 9000001
NOT_THERE = (404, {"error": "noResource"})


def path_of(session, vector_set=None):
    return f"/testSessions/{session}" + (f"/vectorSets/{vector_set}" if vector_set else "")


def prompts(seed, number):
    """The prompts of a vector set, by its seed and its number. All lengths are drawn before the first message."""
    words = Words(seed, number)
    for _ in range(TESTS - 1):
        words.draw([LENGTH])
    tests = [{"len": LENGTH, "msg": words.take(LENGTH // 8).hex(), "tcId": place} for place in range(1, TESTS + 1)]
    return {"algorithm": "SHA2-256", "isSample": False, "revision": "1.0",
            "testGroups": [{"testType": "AFT", "tests": tests, "tgId": 1}], "vsId": number}


def right_answers(seed, number):
    """The right answers to a vector set, as a client sends them, and as they are kept with their verdicts."""
    given = answers(prompts(seed, number))
    texts = [[test["tcId"], [test["md"]]] for test in given["testGroups"][0]["tests"]]
    return given, (compact(texts).decode(), "p" * TESTS, 2)


# ---- rows


def all_rows(path):
    """All rows of each table, as SQLite reads them from a copy of the file and its log. The table of the sets of schema 1,
    which is empty after a migration, a restore takes away, since it copies a file without sums row by row."""
    with tempfile.TemporaryDirectory() as folder:
        copy = os.path.join(folder, "copy.db")
        for end in ("", "-wal"):
            if os.path.exists(path + end):
                shutil.copy(path + end, copy + end)
        with contextlib.closing(sqlite3.connect(copy)) as connection:
            for question, whole in (("integrity_check", [("ok",)]), ("foreign_key_check", [])):
                expect(f"{question} of {path}", connection.execute(f"PRAGMA {question}").fetchall(), whole)
            tables = [name for name, in connection.execute("SELECT name FROM sqlite_master WHERE type = 'table'")]
            rows = {table: sorted(connection.execute(f"SELECT * FROM {table}"), key=repr) for table in tables}
    return {table: there for table, there in rows.items() if table != "vset" or there}


def with_changes(rows, gone, added):
    """The rows without some and with others, each of which stands behind the name of its table."""
    after = {table: list(there) for table, there in rows.items()}
    for table, *row in gone:
        after[table].remove(tuple(row))
    for table, *row in added:
        after[table].append(tuple(row))
    return {table: sorted(there, key=repr) for table, there in after.items()}


def with_seeds(rows, seeds):
    """The rows once it is served with these seeds: each that wasn't known has a row of `meta`."""
    known = [("meta", f"seed {place}", fingerprint(seed)) for place, seed in enumerate(seeds, 1)]
    return with_changes(rows, [], [row for row in known if row[1:] not in rows["meta"]])


def account_row(lab, account, step):
    return "account", account, lab.secret(account), 1, step


def session_row(session, created, live=1, passed=0):
    return "session", session, session // 1000000, 0, created, 0, None, live, passed


def set_row(number, epoch, kept=(None, None, None)):
    return "vset2", number, number // 100, STORED, 0, *kept, epoch


def moved_rows(lab):
    """The rows that `migrate` leaves."""
    rows = [("meta", "schema", 3), account_row(lab, OLD, None), session_row(OLD_SESSION, BEGINS[1] - 60, 2, 1),
            set_row(OLD_SET, 0), set_row(ANSWERED_SET, 0, right_answers(SEED, ANSWERED_SET)[1])]
    tables = ("account", "meta", "object", "request", "reviewer", "session", "vset2")
    return with_changes({table: [] for table in tables}, [], rows)


def of_the_first_schema(lab):
    """A file of schema 1 with these rows."""
    version, tables = earlier.FORMS["schema 1"]
    connection = earlier.opened(lab.db)
    for table in tables:
        connection.execute(table)
    for table, there in moved_rows(lab).items():
        for row in there:
            # the sets were in a table of another name then, and had no epoch
            into, row = {"meta": ("meta", ("schema", version)), "vset2": ("vset", row[:-1])}.get(table, (table, row))
            connection.execute(f"INSERT INTO {into} VALUES ({','.join('?' * len(row))})", row)
    connection.close()


# ---- a life


def login(lab, account, moment):
    return {"password": one_time_code(lab.secret(account), moment), "user": str(account)}


def done(lab, event):
    """What is told of an event: of a request the bytes of its reply, of an order what its command comes to."""
    return lab.ask(event) if isinstance(event, bytes) else lab.run(event[0], "--db", lab.db, *event[1:])


class Life:
    """A file that was moved from schema 1, which is served in runs, and all that was told of it."""

    def __init__(self, program, folder, clock):
        os.mkdir(folder)
        self.lab, self.clock = Laboratory(program, folder), clock
        self.told = {1: [], 2: [], 3: []}
        of_the_first_schema(self.lab)
        self.lab.does("schema 3", "migrate", "--db", self.lab.db)
        self.rows = moved_rows(self.lab)
        self.has("that are moved", self.rows)

    def at(self, moment):
        self.moment = moment
        self.lab.write(self.clock, f"{moment}\n")

    def begins(self, run):
        """A run begins under its keys. Those of the first are in a file of two lines, and more in one of words."""
        self.run, self.seeds = run, RINGS.get(run, ([KEY], [SEED]))[1]
        self.at(BEGINS[run])
        if run in RINGS:
            keys, seeds = RINGS[run]
            lines = [f"token {key.hex()}\n" for key in keys] + [f"seed {seed.hex()}\n" for seed in seeds]
            self.lab.keys = self.lab.write(self.lab.path(f"keys-{run}.txt"), "".join(lines))

    def has(self, when, rows):
        """The file has these rows. Of tables that differ all rows are told."""
        there = all_rows(self.lab.db)
        differ = [table for table in {**there, **rows} if there.get(table) != rows.get(table)]
        expect(f"the rows {when}", *({table: found.get(table) for table in differ} for found in (there, rows)))

    def happens(self, what, event, gone, added):
        """One event, with a kill behind it. It changes these rows, and nothing else."""
        what = f"{what} in run {self.run}"
        self.at(self.moment + 1)
        self.lab.serve()
        self.rows = with_seeds(self.rows, self.seeds)
        after = with_changes(self.rows, gone, added)
        self.has(f"before {what}", self.rows)
        reply = done(self.lab, event)
        self.has(f"once {what} is told", after)
        self.lab.kill()
        self.has(f"behind the kill after {what}", after)
        self.rows = after
        self.told[self.run].append((self.moment, what, event, reply))
        return reply

    def asks(self, what, method, path, token=None, thing=None, gone=(), added=(), wanted=200):
        """A request, and the bytes of its reply's body. What it is to be told is a status, or that and an object."""
        reply = self.happens(what, request(method, path, token, thing), gone, added)
        status, told = shown(reply)
        if isinstance(wanted, int):
            expect(f"the status of {what} in run {self.run}, {told}", status, wanted)
        else:
            expect(f"what {what} is told in run {self.run}", (status, told), wanted)
        return reply.partition(b"\r\n\r\n")[2]

    def orders(self, what, output, *order, gone=(), added=()):
        expect(f"the order of {what}", self.happens(what, order, gone, added), (0, output + "\n", ""))

    def is_whole(self, line):
        self.lab.does(line, "check", "--db", self.lab.db, "--keys", self.lab.keys)

    def steps(self, account, before):
        """The change of an account's row by a login at the next event."""
        return {"gone": [account_row(self.lab, account, before)],
                "added": [account_row(self.lab, account, (self.moment + 1) // STEP)]}


def told_in(body, name):
    return json.loads(body)[1][name]


def is_signed(token, key, header):
    """A token has this header, and is signed by this key."""
    text, _, mac = token.rpartition(".")
    expect("the header of a token", json.loads(decoded(text.split(".")[0])), header)
    expect("the signature of a token", mac.encode(), encoded(hmac.digest(key, text.encode(), "sha256")))
    return token


# ---- the runs

BY_FIRST_KEY = {"alg": "HS256", "typ": "JWT"}
BY_SECOND_KEY = {**BY_FIRST_KEY, "kid": "1"}


def token_of_old(session=None):
    """A token of account 7 by the first key, good in each run."""
    claims = {"exp": BEGINS[1] + 1800, "iat": BEGINS[1], "sub": str(OLD)}
    return signed(claims if session is None else {**claims, "sid": session})


def first_run(life):
    """Account 9 is added, logs in, registers a test session and reads its prompts, and account 7 those of its old one.
    Gives account 9's token, that of its session, and the bytes of both prompts."""
    life.begins(1)
    lab = life.lab
    secret = lab.write(lab.path(f"secret-{NEW}"), lab.secret(NEW).hex() + "\n")
    life.orders("an account", f"account {NEW} added", "account-add", "--account", str(NEW), "--secret", secret,
                added=[account_row(lab, NEW, None)])
    body = life.asks("a login", "POST", "/login", thing=login(lab, NEW, life.moment), **life.steps(NEW, None))
    token = is_signed(told_in(body, "accessToken"), KEY, BY_FIRST_KEY)
    body = life.asks("a test session", "POST", "/testSessions", token, REGISTRATION,
                     added=[session_row(FIRST_SESSION, life.moment + 1), set_row(FIRST_SET, 0)])
    expect("the first session", told_in(body, "url"), f"/acvp/v1{path_of(FIRST_SESSION)}")
    bound = is_signed(told_in(body, "accessToken"), KEY, BY_FIRST_KEY)
    read = life.asks("the prompts", "GET", path_of(FIRST_SESSION, FIRST_SET), bound,
                     wanted=(200, prompts(SEED, FIRST_SET)))
    old = life.asks("the prompts of schema 1", "GET", path_of(OLD_SESSION, OLD_SET), token_of_old(OLD_SESSION),
                    wanted=(200, prompts(SEED, OLD_SET)))
    return token, bound, read, old


def second_run(life, token, bound):
    """What is lost later: a vendor, its approval, a login, a reviewer and a test session. Gives a token of the second
    key, the login that has given it, and the token of the session."""
    life.begins(2)
    asked = ("request", FIRST, NEW, 1, '{"name":"Lost"}')
    url = f"/acvp/v1/requests/{FIRST}"
    life.asks("a vendor by the old token", "POST", "/vendors", token, {"name": "Lost"}, added=[(*asked, 0, None)],
              wanted=(200, {"status": "initial", "url": url}))
    life.orders("an approval", f"request {FIRST} approved /acvp/v1/vendors/{FIRST}", "request-approve", "--request",
                str(FIRST), gone=[(*asked, 0, None)],
                added=[(*asked, 1, FIRST), ("object", 1, FIRST, NEW, '{"name":"Lost"}')])
    code = login(life.lab, NEW, life.moment)
    body = life.asks("a login", "POST", "/login", thing=code, **life.steps(NEW, BEGINS[1] // STEP))
    other = is_signed(told_in(body, "accessToken"), SECOND_KEY, BY_SECOND_KEY)
    life.asks("its code again", "POST", "/login", thing=code, wanted=(403, {"error": "loginRefused"}))
    life.asks("a reviewer by the old token", "POST", path_of(FIRST_SESSION) + "/reviewers", bound, {"account": OLD},
              added=[("reviewer", FIRST_SESSION, OLD)], wanted=(200, {"reviewers": [OLD]}))
    life.asks("what the reviewer reads", "GET", path_of(FIRST_SESSION) + "/results", token_of_old())
    life.asks("the vendor", "GET", f"/vendors/{FIRST}", other,
              wanted=(200, {"name": "Lost", "url": f"/acvp/v1/vendors/{FIRST}"}))
    body = life.asks("a test session", "POST", "/testSessions", other, REGISTRATION,
                     added=[session_row(NEXT_SESSION, life.moment + 1), set_row(NEXT_SET, 0)])
    expect("the next session", told_in(body, "url"), f"/acvp/v1{path_of(NEXT_SESSION)}")
    lost = is_signed(told_in(body, "accessToken"), SECOND_KEY, BY_SECOND_KEY)
    life.asks("its prompts", "GET", path_of(NEXT_SESSION, NEXT_SET), lost, wanted=(200, prompts(SEED, NEXT_SET)))
    return other, code, lost


def is_restored(life, rows):
    """The backup is put over what the second run has left, and nothing of that is left beside it."""
    lab = life.lab
    expect("the log that is left holds something", os.path.getsize(lab.db + "-wal") > EMPTY_LOG, True)
    expect("the rows before are others", life.rows != rows, True)
    names = sorted(set(os.listdir(lab.folder)) - {"laboratory.db-wal"})
    lab.puts_back()
    # the socket of the killed server is no file of records, and the next start takes it away
    expect("the files behind the restore", sorted(os.listdir(lab.folder)), names)
    expect("what is beside the file", [name for name in names if name.startswith("laboratory.db")],
           ["laboratory.db", "laboratory.db-orders"])
    life.rows = rows
    life.has("that are restored", rows)
    life.has("of the backup", all_rows(lab.path("backup.db")))
    life.is_whole("whole: accounts 2 sessions 2 sets 3 requests 0")
    life.has("behind the check", rows)


def third_run(life, token, bound, read, old, other, code, lost):
    """Old test sessions keep their seed, a new one has the second, and of what was lost the numbers are given again."""
    life.begins(3)
    kept = life.asks("the prompts", "GET", path_of(FIRST_SESSION, FIRST_SET), bound)
    expect("the prompts of the first run in the third", kept, read)
    kept = life.asks("the prompts of schema 1", "GET", path_of(OLD_SESSION, OLD_SET), token_of_old(OLD_SESSION))
    expect("the prompts of schema 1 in the third run", kept, old)
    # the used code is good again
    body = life.asks("the login of run 2", "POST", "/login", thing=code, **life.steps(NEW, BEGINS[1] // STEP))
    is_signed(told_in(body, "accessToken"), SECOND_KEY, BY_SECOND_KEY)
    for what, path, by in (("vendor", f"/vendors/{FIRST}", other), ("request", f"/requests/{FIRST}", other),
                           ("session", path_of(NEXT_SESSION), lost)):
        life.asks(f"the lost {what}", "GET", path, by, wanted=NOT_THERE)
    life.asks("the lost reviewer", "GET", path_of(FIRST_SESSION) + "/reviewers", bound, wanted=(200, {"reviewers": []}))
    life.asks("who was a reviewer", "GET", path_of(FIRST_SESSION) + "/results", token_of_old(),
              wanted=(403, {"error": "sessionTokenNeeded"}))
    body = life.asks("a test session", "POST", "/testSessions", token, REGISTRATION,
                     added=[session_row(NEXT_SESSION, life.moment + 1), set_row(NEXT_SET, 1)])
    expect("the session's number again", told_in(body, "url"), f"/acvp/v1{path_of(NEXT_SESSION)}")
    # the token of the lost session is good for the one that has its number now
    for what, by in (("its prompts", told_in(body, "accessToken")), ("its prompts by the lost session's token", lost)):
        life.asks(what, "GET", path_of(NEXT_SESSION, NEXT_SET), by, wanted=(200, prompts(SECOND_SEED, NEXT_SET)))
    asked = ("request", FIRST, NEW, 1, '{"name":"Kept"}')
    life.asks("another vendor", "POST", "/vendors", other, {"name": "Kept"}, added=[(*asked, 0, None)],
              wanted=(200, {"status": "initial", "url": f"/acvp/v1/requests/{FIRST}"}))
    life.orders("its approval", f"request {FIRST} approved /acvp/v1/vendors/{FIRST}", "request-approve", "--request",
                str(FIRST), gone=[(*asked, 0, None)],
                added=[(*asked, 1, FIRST), ("object", 1, FIRST, NEW, '{"name":"Kept"}')])
    life.asks("that vendor", "GET", f"/vendors/{FIRST}", token,
              wanted=(200, {"name": "Kept", "url": f"/acvp/v1/vendors/{FIRST}"}))
    given, graded = right_answers(SEED, FIRST_SET)
    created = next(row[3] for row in life.rows["session"] if row[0] == FIRST_SESSION)
    results = path_of(FIRST_SESSION, FIRST_SET) + "/results"
    life.asks("answers", "POST", results, bound, given,
              gone=[session_row(FIRST_SESSION, created), set_row(FIRST_SET, 0)],
              added=[session_row(FIRST_SESSION, created, passed=1), set_row(FIRST_SET, 0, graded)],
              wanted=(200, {"status": "received", "url": f"/acvp/v1{results}"}))
    body = life.asks("the results", "GET", results, bound)
    expect("the disposition", told_in(body, "disposition"), "passed")
    life.is_whole("whole: accounts 2 sessions 3 sets 4 requests 1")


def without_kills(life, told):
    """The first and the third run over another file, each served by one process to its end: the same is told."""
    for run in (1, 3):
        life.begins(run)
        count = sum(isinstance(event, bytes) for _, _, event, _ in told[run])
        life.lab.serve(count)
        for moment, what, event, reply in told[run]:
            life.at(moment)
            expect(f"{what} without kills", done(life.lab, event), reply)
        life.lab.served(count)


def main():
    program, shim = map(os.path.abspath, sys.argv[1:])
    # what is made is for its owner alone, as the program would warn otherwise
    os.umask(0o077)
    with tempfile.TemporaryDirectory() as folder:
        clock = Laboratory.write(os.path.join(folder, "clock"), f"{BEGINS[1]}\n")
        # for the program that is started, not for this one
        os.environ.update({"LD_PRELOAD": shim, "CLOCK": clock})
        life = Life(program, os.path.join(folder, "with-kills"), clock)
        other = Life(program, os.path.join(folder, "without-kills"), clock)
        lab = life.lab
        try:
            first = first_run(life)
            lab.backs_up()
            backed_up = life.rows
            life.has("behind the backup", backed_up)
            second = second_run(life, *first[:2])
            is_restored(life, backed_up)
            third_run(life, *first, *second)
            without_kills(other, life.told)
            other.has("of the life without kills", life.rows)
        finally:
            lab.kill()
            other.lab.kill()
    print(f"{sum(map(len, life.told.values()))} kills; {laboratory.checked} comparisons")


if __name__ == "__main__":
    main()

#!/usr/bin/env python3
"""Moves files of schemas 1 and 2, which SQLite has made, to schema 3 by the built program, and compares the rows with
those that were there; also after the program was killed on the way, and over what is no such file.

    files-of-earlier-schemas.py PROGRAM"""
import os
import random
import shutil
import sqlite3
import subprocess
import sys
import tempfile
import time

import laboratory
from laboratory import SEED, Laboratory, compact, expect, fingerprint, free_port, how_far, signed
from validation import answers

META = "CREATE TABLE meta (name TEXT PRIMARY KEY NOT NULL, value INTEGER NOT NULL) STRICT"
ACCOUNT = ("CREATE TABLE account (account INTEGER PRIMARY KEY, secret BLOB NOT NULL, enabled INTEGER NOT NULL, "
           "last_step INTEGER) STRICT")
SESSION = ("CREATE TABLE session (session INTEGER PRIMARY KEY, account INTEGER NOT NULL REFERENCES account, "
           "sample INTEGER NOT NULL, created INTEGER NOT NULL, cancelled INTEGER NOT NULL, "
           "certify INTEGER REFERENCES request, live INTEGER NOT NULL, passed INTEGER NOT NULL) STRICT")
OLD_SET = ("CREATE TABLE vset (vs INTEGER PRIMARY KEY, session INTEGER NOT NULL REFERENCES session, "
           "capability TEXT NOT NULL, cancelled INTEGER NOT NULL, answers TEXT, verdicts TEXT, disposition INTEGER) STRICT")
SET = ("CREATE TABLE vset2 (vs INTEGER PRIMARY KEY, session INTEGER NOT NULL REFERENCES session, "
       "capability TEXT NOT NULL, cancelled INTEGER NOT NULL, answers TEXT, verdicts TEXT, disposition INTEGER, "
       "epoch INTEGER NOT NULL) STRICT")
OBJECT = ("CREATE TABLE object (kind INTEGER NOT NULL, number INTEGER NOT NULL, "
          "account INTEGER NOT NULL REFERENCES account, body TEXT NOT NULL, PRIMARY KEY (kind, number)) STRICT")
REQUEST = ("CREATE TABLE request (request INTEGER PRIMARY KEY, account INTEGER NOT NULL REFERENCES account, "
           "kind INTEGER NOT NULL, body TEXT NOT NULL, status INTEGER NOT NULL, approved INTEGER) STRICT")
FORMS = {"schema 1": (1, [META, ACCOUNT, SESSION, OLD_SET, OBJECT, REQUEST]),
         "schema 2": (2, [META, ACCOUNT, SESSION, SET, OBJECT, REQUEST]),
         "schema 2 beside the sets of schema 1": (2, [META, ACCOUNT, SESSION, OLD_SET, OBJECT, REQUEST, SET])}
OTHERS = ["account", "session", "object", "request"]
CAPABILITY = compact({"algorithm": "SHA2-256", "messageLength": [8], "revision": "1.0"}).decode()
# The same algorithm in a text that the program wouldn't write.
SPACED = '{ "revision": "1.0",\n  "messageLength": [ {"min": 8, "max": 17, "increment": 8} ], "algorithm": "SHA2-256" }'
SESSIONS, STOPS = 300, 30


def opened(path):
    connection = sqlite3.connect(path)
    connection.isolation_level = None
    return connection


def older_file(path, form):
    """A file of an earlier schema, with sessions of account 7 that have two vector sets each, one of them answered."""
    version, tables = FORMS[form]
    connection = opened(path)
    for table in tables:
        connection.execute(table)
    connection.execute("BEGIN")
    connection.execute("INSERT INTO meta VALUES ('schema', ?)", (version,))
    connection.execute("INSERT INTO account VALUES (7, ?, 1, 5)", (b"1" * 32,))
    connection.execute("INSERT INTO object VALUES (1, 7000001, 7, '{\"name\":\"V\"}')")
    connection.execute("INSERT INTO request VALUES (7000001, 7, 1, '{\"name\":\"V\"}', 1, 7000001)")
    created = int(time.time()) - 60
    name, width = ("vset", 7) if version == 1 else ("vset2", 8)
    for session in range(7000001, 7000001 + SESSIONS):
        connection.execute("INSERT INTO session VALUES (?, 7, 0, ?, 0, NULL, 2, 0)", (session, created))
        for place, kept in [(1, (None, None, None)), (2, ('[[1,["ab"]]]', "f", 0))]:
            row = (session * 100 + place, session, CAPABILITY, 0, *kept, 0)[:width]
            connection.execute(f"INSERT INTO {name} VALUES ({','.join('?' * width)})", row)
    connection.execute("COMMIT")
    connection.close()
    return path


def rows_of(path, table):
    connection = opened(path)
    rows = connection.execute(f"SELECT * FROM {table} ORDER BY 1, 2").fetchall()
    connection.close()
    return rows


def seen(path, form):
    """The rows that there are, whichever schema they are of now, with the epoch of each vector set."""
    version = [row for row in rows_of(path, "meta") if row[0] == "schema"]
    if version == [("schema", 3)]:
        sets = rows_of(path, "vset2")
        expect(f"the reviewers of {form}", rows_of(path, "reviewer"), [])
        if form != "schema 2":
            expect(f"the earlier sets of {form}", rows_of(path, "vset"), [])
    else:
        expect(f"the version of {form}", version, [("schema", FORMS[form][0])])
        sets = [(*row, 0) for row in rows_of(path, "vset")] if form == "schema 1" else rows_of(path, "vset2")
    connection = opened(path)
    expect(f"the integrity of {form}", connection.execute("PRAGMA integrity_check").fetchall(), [("ok",)])
    expect(f"the references of {form}", connection.execute("PRAGMA foreign_key_check").fetchall(), [])
    connection.close()
    others = [row for row in rows_of(path, "meta") if row[0] != "schema"]
    return {"version": version, "meta": others, "sets": sets, **{table: rows_of(path, table) for table in OTHERS}}


def is_moved(lab, path, form, before):
    """The file is of schema 3, with the rows that were there."""
    wanted = {**before, "version": [("schema", 3)]}
    lab.does("schema 3", "migrate", "--db", path)
    expect(f"the rows of {form} after a migration", seen(path, form), wanted)
    lab.does("schema 3", "migrate", "--db", path)
    expect(f"the rows of {form} after another", seen(path, form), wanted)


def refused_before(lab, path):
    """No other command takes a file of an earlier schema."""
    db = ["--db", path]
    lab.fails("unavailable", "init", *db)
    lab.fails("schema", "account-add", *db, "--account", "8", "--secret", lab.write(lab.path("secret"), "0" * 64 + "\n"))
    lab.fails("schema", "account-disable", *db, "--account", "7")
    version = dict(rows_of(path, "meta"))["schema"]
    expect("why it is refused", lab.run("account-disable", *db, "--account", "7", "--verbose"),
           (1, "", f"fault: schema\nbecause: --db: it names schema {version}: run migrate\n"))
    for command in ("request-approve", "request-reject"):
        lab.fails("schema", command, *db, "--request", "7000001")
    lab.fails("schema", "serve", *db, "--keys", lab.keys, "--port", str(free_port()), "--count", "1")


def moved(lab):
    """All rows go over with their very texts, those that stand for nothing too, and no other row of `meta` changes."""
    for form in FORMS:
        path = older_file(lab.path("older.db"), form)
        connection = opened(path)
        sets = "vset" if form == "schema 1" else "vset2"
        connection.execute(f"UPDATE {sets} SET verdicts = 'x', disposition = 9, capability = 'none' WHERE vs = 700000302")
        connection.execute(f"UPDATE {sets} SET capability = ? WHERE vs = 700000201", (SPACED,))
        connection.execute("UPDATE session SET cancelled = 5, passed = -1 WHERE session = 7000004")
        connection.execute("INSERT INTO meta VALUES ('laboratory', 5)")
        connection.close()
        before = seen(path, form)
        expect(f"the vector sets of {form}", len(before["sets"]), 2 * SESSIONS)
        refused_before(lab, path)
        expect(f"the rows of {form} after the other commands", seen(path, form), before)
        is_moved(lab, path, form, before)
        lab.does("account 7 disabled", "account-disable", "--db", path, "--account", "7")
        remove(path)


def asked(lab):
    """On a terminal a migration says of which schema the tables are, and asks; --yes asks nothing. What isn't wanted changes
    nothing, and of tables that aren't to be moved nothing is asked."""
    question = "Move all records to schema 3, which an earlier version can't read? [y/N] "
    for form, (version, _) in FORMS.items():
        path = older_file(lab.path("older.db"), form)
        about = f"{path}: tables of schema {version}, of an earlier version\n{question}"
        before = seen(path, form)
        for answer, echo in ((b"n\n", "n\n"), (b"\x04", "")):
            expect(f"what {answer} changes", lab.typed(answer, "migrate", "--db", path), (1, f"{about}{echo}nothing is changed\n"))
            expect(f"the rows of {form} that isn't to be moved", seen(path, form), before)
        wanted = {**before, "version": [("schema", 3)]}
        if form == "schema 1":
            expect("with --yes", lab.typed(b"", "migrate", "--db", path, "--yes"), (0, "schema 3\n"))
        else:
            expect("yes", lab.typed(b"y\n", "migrate", "--db", path), (0, f"{about}y\nschema 3\n"))
        expect(f"the rows of {form} after it", seen(path, form), wanted)
        expect("another time", lab.typed(b"", "migrate", "--db", path), (0, "schema 3\n"))
        remove(path)
    absent = lab.path("absent.db")
    expect("of no file", lab.typed(b"y\n", "migrate", "--db", absent), (1, "fault: unavailable\nbecause: --db: there is no such file\n"))


def remove(path):
    for end in ("", "-wal", "-shm", "-journal"):
        if os.path.exists(path + end):
            os.remove(path + end)


def served(lab):
    """A vector set of schema 1 is made from the first seed, whichever more there are."""
    older_file(lab.db, "schema 1")
    lab.does("schema 3", "migrate", "--db", lab.db)
    now = int(time.time())
    token = signed({"exp": now + 1800, "iat": now, "sid": 7000001, "sub": "7"})
    shown = []
    for seeds in ([laboratory.SEED], [laboratory.SEED, bytes(32)]):
        keys = "".join([f"token {laboratory.KEY.hex()}\n", *[f"seed {seed.hex()}\n" for seed in seeds]])
        lab.serve(count=2, keys=lab.write(lab.path("ring.txt"), keys))
        shown.append(lab.must("GET", "/testSessions/7000001/vectorSets/700000101", token))
        results = lab.must("GET", "/testSessions/7000001/vectorSets/700000102/results", token)
        expect("the kept disposition", results["disposition"], "fail")
        lab.served(2)
    expect("the prompts under one seed and under two", shown[0], shown[1])
    expect("the vector set", shown[0]["vsId"], 700000101)
    remove(lab.db)


def kept(lab):
    """Answers change no other column of their vector set, so its capability keeps its very text, also one that the
    program wouldn't write; and other rows of `meta` and rows under negative numbers are rows like any others."""
    older_file(lab.db, "schema 1")
    lab.does("schema 3", "migrate", "--db", lab.db)
    connection = opened(lab.db)
    connection.execute("UPDATE vset2 SET capability = ? WHERE vs = 700000101", (SPACED,))
    connection.execute("INSERT INTO meta VALUES ('laboratory', 5)")
    connection.execute("INSERT INTO reviewer (rowid, session, account) VALUES (-5, 7000001, 9)")
    connection.close()
    meta, (before, *others) = rows_of(lab.db, "meta"), rows_of(lab.db, "vset2")
    now = int(time.time())
    token = signed({"exp": now + 1800, "iat": now, "sid": 7000001, "sub": "7"})
    lab.serve(count=4)
    vector_set = lab.must("GET", "/testSessions/7000001/vectorSets/700000101", token)
    lab.must("POST", "/testSessions/7000001/vectorSets/700000101/results", token, answers(vector_set))
    lab.must("POST", "/testSessions/7000001/reviewers", token, {"account": 10})
    reviewers = lab.must("GET", "/testSessions/7000001/reviewers", token)
    lab.served(4)
    expect("the reviewers", reviewers["reviewers"], [9, 10])
    (after, *same) = rows_of(lab.db, "vset2")
    expect("the other columns", (*after[:4], after[7]), (*before[:4], before[7]))
    expect("the disposition", after[6], 2)
    expect("the other vector sets", same, others)
    expect("the rows of meta", rows_of(lab.db, "meta"), meta + [("seed 1", fingerprint(SEED))])
    remove(lab.db)


def refused(lab):
    """What is of no earlier schema stays as it is."""
    for form, statement in [("schema 1", "UPDATE meta SET value = 2"), ("schema 1", "DELETE FROM meta"),
                            ("schema 2", "UPDATE meta SET value = 1"), ("schema 2", "CREATE TABLE more (a INTEGER)"),
                            ("schema 2", "CREATE INDEX more ON account (enabled)"), ("schema 1", "DROP TABLE request"),
                            ("schema 2 beside the sets of schema 1",
                             "INSERT INTO vset VALUES (1, 7000001, '', 0, NULL, NULL, NULL)")]:
        path = older_file(lab.path("older.db"), form)
        connection = opened(path)
        connection.execute(statement)
        before = list(connection.iterdump())
        connection.close()
        lab.fails("schema", "migrate", "--db", path, what=statement)
        expect("whether it says to do that again", "run migrate" in lab.run("migrate", "--db", path, "--verbose")[2], False)
        connection = opened(path)
        expect(f"the file after {statement}", list(connection.iterdump()), before)
        connection.close()
        remove(path)
    lab.fails("unavailable", "migrate", "--db", lab.path("absent.db"))
    expect("a file that a migration made", os.path.exists(lab.path("absent.db")), False)


def told(lab):
    """On a terminal a migration of a large file says how far its open has come, and the move of all records."""
    path = older_file(lab.path("older.db"), "schema 1")
    connection = opened(path)
    connection.execute("WITH RECURSIVE n (i) AS (SELECT 1 UNION ALL SELECT i + 1 FROM n WHERE i < 3000) INSERT INTO vset "
                       "SELECT 700100000 + i, session, capability, 0, hex(zeroblob(18000)), NULL, NULL FROM n, vset WHERE vs = 700000101")
    connection.close()
    before, length = seen(path, "schema 1"), os.stat(path).st_size
    status, said = lab.typed(b"", "migrate", "--db", path, "--yes")
    rest = how_far("the open", said, "read", 3 * length // 1000000)
    expect("the migration", (status, how_far("the move", rest, "moved", 6 * length // 1000000)), (0, "schema 3\n"))
    expect("the rows after it", seen(path, "schema 1"), {**before, "version": [("schema", 3)]})
    # tables of today's schema aren't moved, however long the log that is copied into the file
    again, connection = lab.path("again.db"), opened(path)
    expect("its journal", connection.execute("PRAGMA journal_mode = WAL").fetchone(), ("wal",))
    connection.execute("PRAGMA wal_autocheckpoint = 0")
    connection.execute("UPDATE vset2 SET answers = hex(randomblob(18000)) WHERE vs > 700100000")
    for end in ("", "-wal"):
        shutil.copy(path + end, again + end)
    connection.close()
    expect("whether its log is long", os.stat(again + "-wal").st_size > 100000000, True)
    status, said = lab.typed(b"", "migrate", "--db", again, "--yes")
    expect("a migration of what is migrated", (status, said.split("\n")[-2], "moved" in said), (0, "schema 3", False))
    expect("what is left of its log", os.stat(again + "-wal").st_size < 1000, True)
    remove(path)
    remove(again)


def killed(lab):
    """Wherever the program is killed, the rows are those of the earlier schema or of schema 3, and nothing between."""
    whole = older_file(lab.path("whole.db"), "schema 1")
    before = seen(whole, "schema 1")
    path = lab.path("older.db")
    began = time.time()
    shutil.copy(whole, path)
    lab.does("schema 3", "migrate", "--db", path)
    longest = time.time() - began
    remove(path)
    random.seed(seed := random.randrange(1000000))
    finished = 0
    for _ in range(STOPS):
        shutil.copy(whole, path)
        process = subprocess.Popen([lab.program, "migrate", "--db", path], stdout=subprocess.PIPE, stderr=subprocess.PIPE)
        time.sleep(random.uniform(0, 1.2 * longest))
        process.kill()
        output, _ = process.communicate()
        lab.does("schema 3", "migrate", "--db", path)
        expect(f"the rows after a stop, by seed {seed}", seen(path, "schema 1"), {**before, "version": [("schema", 3)]})
        finished += output == b"schema 3\n"
        remove(path)
    print(f"{STOPS} stops by SIGKILL, {finished} of them after the end")


def main():
    with tempfile.TemporaryDirectory() as folder:
        lab = Laboratory(os.path.abspath(sys.argv[1]), folder)
        try:
            for part in (moved, asked, refused, told, killed, served, kept):
                part(lab)
        finally:
            lab.kill()
    print(f"{laboratory.checked} comparisons")


if __name__ == "__main__":
    main()

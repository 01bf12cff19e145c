"""The files of a laboratory in its operator's hands: whole backups while it is served, the way back from one, who may
read what is made, and why a command failed.

    files-of-the-operator.py PROGRAM [KILLS]

KILLS is how often a restore is killed at some moment: 40 without it."""
import contextlib
import fcntl
import hashlib
import os
import pty
import random
import re
import resource
import shutil
import socket
import sqlite3
import stat
import struct
import subprocess
import sys
import tempfile
import threading
import time

from laboratory import Laboratory, expect, free_port, how_far, rows_of, within_a_step
import laboratory
import page_sums

EMPTY_LOG = 41


def mode(path):
    return stat.S_IMODE(os.stat(path).st_mode)


def content(path):
    """All rows of a database, as SQLite reads them from a copy."""
    with tempfile.TemporaryDirectory() as folder:
        copy = os.path.join(folder, "copy.db")
        shutil.copy(path, copy)
        if os.path.exists(path + "-wal"):
            shutil.copy(path + "-wal", copy + "-wal")
        with contextlib.closing(sqlite3.connect(copy)) as connection:
            expect(f"the pages of {path}", connection.execute("PRAGMA integrity_check").fetchall(), [("ok",)])
            tables = [name for name, in connection.execute("SELECT name FROM sqlite_master WHERE type = 'table' ORDER BY name")]
            return {table: sorted(connection.execute(f"SELECT * FROM {table}"), key=repr) for table in tables}


def accounts(path):
    return sorted(row[0] for row in content(path)["account"])


def bytes_of(path):
    with open(path, "rb") as file:
        return file.read()


def files(lab):
    """The sums of all files in the folder."""
    return {name: hashlib.sha256(bytes_of(lab.path(name))).hexdigest()
            for name in sorted(os.listdir(lab.folder)) if os.path.isfile(lab.path(name))}


def backup(lab, name="backup.db", db=None):
    return ["backup", "--db", db or lab.db, "--to", lab.path(name)]


def restore(lab, name="backup.db", db=None):
    return ["restore", "--from", lab.path(name), "--db", db or lab.db]


# ---- backups


def backups_while_nobody_serves(lab):
    """A backup is one file for its owner, with the same rows; what is there already isn't written over."""
    lab.add(1)
    lab.backs_up()
    expect("the backup's mode", mode(lab.path("backup.db")), 0o600)
    expect("the files beside the backup", sorted(os.listdir(lab.folder)),
           ["backup.db", "keys.txt", "laboratory.db", "laboratory.db-wal", "secret-1"])
    expect("the backup's rows", content(lab.path("backup.db")), content(lab.db))
    lab.write(lab.path("empty"), "")
    os.symlink(lab.path("nowhere"), lab.path("link"))
    before = files(lab)
    for name in ("backup.db", "empty", "link", "laboratory.db", "keys.txt"):
        lab.fails("taken", *backup(lab, name))
    for what, command in [("of no file", backup(lab, "b.db", lab.path("nothing.db"))), ("of a text", backup(lab, "b.db", lab.keys)),
                          ("of an empty file", backup(lab, "b.db", lab.path("empty"))), ("into no folder", backup(lab, "no/b.db"))]:
        lab.fails("unavailable", *command, what=what)
    expect("the files after backups that are refused", files(lab), before)
    # also of tables of an earlier schema
    with contextlib.closing(sqlite3.connect(lab.path("early.db"))) as connection, connection:
        connection.execute("PRAGMA journal_mode=WAL")
        connection.execute("CREATE TABLE early (number INTEGER PRIMARY KEY)")
        connection.execute("INSERT INTO early VALUES (7)")
    lab.backs_up("early-backup.db", lab.path("early.db"))
    expect("the rows of another schema", content(lab.path("early-backup.db")), {"early": [(7,)]})


def backups_while_serving(lab):
    """Each backup has what was acknowledged before it began, and nothing but what was given before its end."""
    lab.serve(count=None)
    given, acknowledged, ended = [0], [0], threading.Event()

    def adds():
        for number in range(1, 2000):
            if ended.is_set():
                return
            given[0] = number
            lab.add(number)
            acknowledged[0] = number

    adding = threading.Thread(target=adds)
    adding.start()
    for number in range(20):
        before = acknowledged[0]
        lab.backs_up(f"b{number}.db")
        least, most = before, given[0]
        there = accounts(lab.path(f"b{number}.db"))
        expect(f"backup {number}: the accounts are the first ones", there, list(range(1, len(there) + 1)))
        expect(f"backup {number}: {len(there)} accounts, {least} to {most}", least <= len(there) <= most, True)
    ended.set()
    adding.join()
    lab.fails("unavailable", *restore(lab, "b0.db"), what="while it is served")
    expect("the first backups are behind the last", len(accounts(lab.path("b0.db"))) < len(accounts(lab.path("b19.db"))), True)
    lab.kill()
    expect("what was acknowledged", len(accounts(lab.db)), acknowledged[0])
    lab.does("ready", "init", "--db", lab.path("other.db"))
    lab.db = lab.path("b19.db")
    lab.serve(count=1)
    lab.ask(b"GET / HTTP/1.1\r\n\r\n")
    lab.served(1)


def parts(lab):
    """The copies that are being made, or that a killed command has left."""
    return sorted(name for name in os.listdir(lab.folder) if re.search("-part-[0-9]", name))


def replaced(lab):
    """What restores have kept of what they replaced."""
    return sorted(name for name in os.listdir(lab.folder) if "-replaced-" in name)


def copies_apart(lab):
    """A copy touches no file of another name, and of several backups to one target at once one is made, whole."""
    lab.add(1)
    others = ["backup.db-part", "backup.db-part-wal", "laboratory.db-part", "laboratory.db-part-wal"]
    for name in others:
        lab.write(lab.path(name), f"what somebody keeps in {name}")
    for number in range(10):
        running = [subprocess.Popen([lab.program, *backup(lab)], stdin=subprocess.DEVNULL, stdout=subprocess.PIPE, stderr=subprocess.PIPE)
                   for _ in range(4)]
        ends = sorted((run.communicate(timeout=600), run.returncode) for run in running)
        taken, made = ((b"", b"fault: taken\n"), 1), b"backed up: %d rows\n" % rows_of(lab.path("backup.db"))
        expect(f"four backups at once, {number}", ends, [taken] * 3 + [((made, b""), 0)])
        expect("the rows of the one", content(lab.path("backup.db")), content(lab.db))
        if number < 9:
            os.remove(lab.path("backup.db"))
    lab.puts_back()
    expect("the copies that are left", parts(lab), [])
    expect("the other files", [bytes_of(lab.path(name)).decode() for name in others], [f"what somebody keeps in {name}" for name in others])


# ---- the way back


def restores(lab):
    """A restored file is the backup, whatever log a killed run has left; what is refused changes nothing."""
    lab.add(1)
    lab.backs_up()
    backed_up = content(lab.path("backup.db"))
    lab.serve(count=None)
    lab.add(2)
    lab.kill()
    expect("a log that holds something", os.path.getsize(lab.db + "-wal") > EMPTY_LOG, True)
    lab.puts_back()
    expect("what is restored", content(lab.db), backed_up)
    expect("its mode", mode(lab.db), 0o600)
    lab.add(2)
    lab.backs_up("later.db")
    lab.puts_back()
    lab.puts_back("later.db")
    expect("the accounts of the later backup", accounts(lab.db), [1, 2])
    # the options swapped: the newer records are replaced by the older ones, and what was there is the way back
    lab.serve(count=None)
    lab.add(3)
    lab.kill()
    newest = content(lab.db)
    kept = lab.restores()
    expect("the older records", content(lab.db), backed_up)
    expect("what was there, with what its log held", (content(kept), mode(kept), os.path.exists(kept + "-wal")), (newest, 0o600, False))
    lab.puts_back(os.path.basename(kept))
    expect("the records after the way back", content(lab.db), newest)
    os.remove(kept)
    lab.puts_back("later.db")
    # a file that isn't there is made; one whose log is still there isn't
    lab.puts_back(db=lab.path("new.db"))
    expect("a new file", content(lab.path("new.db")), backed_up)
    lab.serve(count=None)
    lab.add(3)
    lab.kill()
    os.rename(lab.db, lab.path("moved.db"))
    log = bytes_of(lab.db + "-wal")
    lab.fails("unavailable", *restore(lab), what="where the log is left alone")
    expect("the log that is left alone", bytes_of(lab.db + "-wal"), log)
    os.rename(lab.path("moved.db"), lab.db)
    expect("the accounts with the log again", accounts(lab.db), [1, 2, 3])
    # what is no backup
    with contextlib.closing(sqlite3.connect(lab.path("foreign.db"))) as connection, connection:
        connection.execute("CREATE TABLE foreign_table (a)")
    with open(lab.path("cut.db"), "wb") as file:
        file.write(bytes_of(lab.path("backup.db"))[:20000])
    before = files(lab)
    for word, what, name in [("unavailable", "no file", "nothing.db"), ("unavailable", "a text", "keys.txt"),
                             ("schema", "another database", "foreign.db"), ("unavailable", "a cut backup", "cut.db")]:
        lab.fails(word, *restore(lab, name), what=f"from {what}")
    lab.fails("unavailable", *restore(lab, db=lab.keys), what="over a text")
    expect("the files after restores that are refused", files(lab), before)
    holder = subprocess.Popen([lab.program, "serve", "--db", lab.db, "--keys", lab.keys, "--port", str(free_port()), "--count", "1"],
                              stdout=subprocess.PIPE, stdin=subprocess.DEVNULL)
    holder.stdout.readline()
    lab.fails("unavailable", *restore(lab), what="while it is served")
    holder.kill()
    holder.communicate()
    expect("the accounts of who was served", accounts(lab.db), [1, 2, 3])


def numbered_rows(path):
    """All rows of a database with the numbers under which they are, as SQLite reads them: texts as bytes."""
    with contextlib.closing(sqlite3.connect(path)) as connection:
        connection.text_factory = bytes
        tables = [name.decode() for name, in connection.execute("SELECT name FROM sqlite_master WHERE type = 'table' ORDER BY name")]
        return {table: connection.execute(f"SELECT rowid, * FROM {table} ORDER BY rowid").fetchall() for table in tables}


def has_sums(path):
    """Whether each page of a file has a sum, and each sum is right."""
    pages = page_sums.pages_of(path)
    expect(f"the pages of {path} whose sums are wrong", page_sums.wrong_sums(pages), [])
    return pages != []


# Rows that no request makes, also some that stand for nothing: they are copied as they are.
ODD_ROWS = ["INSERT INTO meta (rowid, name, value) VALUES (-9, 'laboratory', 5)",
            "UPDATE meta SET rowid = 4 WHERE name = 'schema'",
            "INSERT INTO account VALUES (-1, x'', -5, NULL), (9223372036854775807, zeroblob(70000), 2, -1)",
            "INSERT INTO request VALUES (1000001, 1, 1, 'a' || char(0) || 'b', 1, -9223372036854775808)",
            "INSERT INTO request VALUES (7, 3, 99, CAST(x'7bff7d' AS TEXT), 3, NULL)",
            "INSERT INTO object (rowid, kind, number, account, body) VALUES (-5, 2, 7, 1, ''), (90, -1, 6, 2, 'ö')",
            "INSERT INTO session VALUES (1000001, 1, 0, 5, 0, 1000001, 1, 0), (-3, 2, 9, 9, 9, NULL, 9, 9)",
            "INSERT INTO reviewer (rowid, session, account) VALUES (77, 1000001, 9), (-77, -3, 9)",
            "WITH RECURSIVE number(n) AS (SELECT 1 UNION ALL SELECT n + 1 FROM number WHERE n < 60) INSERT INTO vset2 "
            "SELECT n * n, -3, hex(zeroblob(n * 100)), 0, hex(zeroblob(n * 3000)), hex(zeroblob(n)), NULL, n FROM number"]


def sums_by_a_restore(lab):
    """A new file has sums, and so has its backup. A restore gives them to a file that has none, with each row as it was."""
    for number in range(1, 4):
        lab.add(number)
    expect("whether a new file has sums", has_sums(lab.db), True)
    lab.backs_up("summed.db")
    expect("whether its backup has sums", has_sums(lab.path("summed.db")), True)
    with contextlib.closing(page_sums.connect(lab.path("summed.db"))) as connection, connection:
        for statement in ODD_ROWS:
            connection.execute(statement)
    wanted = numbered_rows(lab.path("summed.db"))
    plain = page_sums.copy_without(lab.path("summed.db"), lab.path("plain.db"))
    for name in ("summed.db", "plain.db"):
        expect(f"whether {name} has sums", has_sums(lab.path(name)), name == "summed.db")
        lab.puts_back(name)
        expect(f"whether the file has sums after a restore of {name}", has_sums(lab.db), True)
        expect(f"the rows after a restore of {name}", numbered_rows(lab.db), wanted)
        expect(f"what a restore of {name} leaves beside it", parts(lab), [])
    expect("whether a file without sums has some after an order", (lab.run(*disable(plain))[0], has_sums(plain)), (0, False))
    lab.backs_up("plain-backup.db", plain)
    expect("whether its backup has", has_sums(lab.path("plain-backup.db")), False)
    lab.puts_back("plain-backup.db")
    expect("the rows after a restore of that", numbered_rows(lab.db), numbered_rows(plain))


def wrong_sums(lab):
    """What writes without sums spoils them: each command refuses the file, until its sums are made anew. `check` warns
    of a file without sums."""
    lab.add(1)
    lab.backs_up()
    with contextlib.closing(sqlite3.connect(lab.path("backup.db"))) as connection, connection:
        connection.execute("UPDATE account SET enabled = 0")
    before = files(lab)
    lab.fails("unavailable", *restore(lab), what="of a backup with wrong sums")
    lab.fails("unavailable", "accounts", "--db", lab.path("backup.db"))
    expect("the files after what is refused", files(lab), before)
    done = subprocess.run([sys.executable, page_sums.__file__, lab.path("backup.db")], capture_output=True, text=True)
    expect("what makes the sums anew", (done.returncode, "0 sums" in done.stdout, done.stderr), (0, False, ""))
    lab.puts_back()
    expect("what was written", content(lab.db)["account"][0][2], 0)
    plain = page_sums.copy_without(lab.db, lab.path("plain.db"))
    warning = f"warning: pages of {plain} have no sums: a restore of a backup gives them some\n"
    for path, told in ((lab.db, ""), (plain, warning)):
        for more in ([], ["--verbose"]):
            expect(f"check {path} {more}", lab.run("check", "--db", path, "--keys", lab.keys, *more),
                   (0, "whole: accounts 1 sessions 0 sets 0 requests 0\n", told if more else ""))


def killed_restores(lab, kills):
    """A restore that is killed leaves the one or the other, whole; also of a backup without sums."""
    for number in range(1, 4):
        lab.add(number)
    lab.backs_up("summed.db")
    backed_up = content(lab.path("summed.db"))
    page_sums.copy_without(lab.path("summed.db"), lab.path("backup.db"))
    kept, put = 0, 0
    began = time.time()
    lab.puts_back()
    took = time.time() - began
    for number in range(kills):
        account = 100 + number
        lab.serve(count=None)
        lab.add(account)
        lab.kill()
        there = content(lab.db)
        restoring = subprocess.Popen([lab.program, *restore(lab)], stdout=subprocess.PIPE, stderr=subprocess.PIPE, stdin=subprocess.DEVNULL)
        try:
            restoring.wait(random.random() * took * 1.2)
        except subprocess.TimeoutExpired:
            restoring.kill()
        output, faults = restoring.communicate()
        expect("what a killed restore prints", (output == b"" or output.startswith(b"restored\n"), faults), (True, b""))
        now = content(lab.db)
        expect("a killed restore leaves one of the two", now in (there, backed_up), True)
        expect("a restore that was told is there", output == b"" or now == backed_up, True)
        kept, put = kept + (now == there), put + (now == backed_up)
        lab.puts_back("summed.db")
        expect("the restore behind it", content(lab.db), backed_up)
        for name in replaced(lab):
            expect("what a killed restore keeps", content(lab.path(name)), there)
            os.remove(lab.path(name))
        expect("what killed restores leave beside it, behind one that isn't", parts(lab), [])
    print(f"of {kills} restores that were killed {kept} left the file as it was, and {put} had put the backup there")


# ---- who may read


def warned(lab, told, output, *args):
    """With --verbose a command warns of the files that others may read. Without, standard error has nothing."""
    status, printed, faults = lab.run(*args, "--verbose")
    expect(f"the command {args} with --verbose", (status, printed, faults), (0, output, "".join(f"warning: others than its owner may {what}\n" for what in told)))


def what_others_may_read(lab):
    """A database and its log are made for their owner alone, whatever the umask is. Of a file that others may read a
    command warns if it is verbose, and does what it does without."""
    open_mask = os.umask(0o022)
    try:
        lab.db = lab.path("made.db")
        lab.does("ready", "init", "--db", lab.db)
        expect("the modes of the file and its log", (mode(lab.db), mode(lab.db + "-wal")), (0o600, 0o600))
        lab.backs_up()
        expect("the backup's mode", mode(lab.path("backup.db")), 0o600)
        os.remove(lab.db + "-wal")
        lab.fails("unknown", "account-disable", "--db", lab.db, "--account", "1")
        expect("no new log beside it", os.path.exists(lab.db + "-wal"), False)
        secret = lab.write(lab.path("open-secret"), "ab" * 32 + "\n")
        warned(lab, [f"read {secret}"], "account 1 added\n", "account-add", "--db", lab.db, "--account", "1", "--secret", secret)
        lab.does("account 2 added", "account-add", "--db", lab.db, "--account", "2", "--secret", secret)
        os.chmod(lab.db, 0o640)
        warned(lab, [f"read {lab.db}"], "account 1 disabled\n", "account-disable", "--db", lab.db, "--account", "1")
        lab.does("account 2 disabled", "account-disable", "--db", lab.db, "--account", "2")
        os.chmod(lab.db + "-wal", 0o640)
        warned(lab, [f"read {lab.db}", f"read {lab.db}-wal"], "schema 3\n", "migrate", "--db", lab.db)
        os.chmod(lab.folder, 0o733)
        of_folder = f"make files in {lab.folder}"
        warned(lab, [f"read {lab.db}", f"read {lab.db}-wal", of_folder], "schema 3\n", "migrate", "--db", lab.db)
        os.chmod(lab.folder, 0o700)
        warned(lab, [f"read {lab.db}", f"read {lab.db}-wal"], f"backed up: {rows_of(lab.db)} rows\n", *backup(lab, "more.db"))
        os.chmod(lab.path("more.db"), 0o604)
        status, printed, faults = lab.run(*restore(lab, "more.db"), "--verbose")
        told = "".join(f"warning: others than its owner may read {path}\n" for path in (lab.path("more.db"), lab.db, lab.db + "-wal"))
        expect("a restore with --verbose", (status, printed.splitlines()[0], faults), (0, "restored", told))
        for name in replaced(lab):
            os.remove(lab.path(name))
        expect("what is restored has the mode of what was there", mode(lab.db), 0o640)
        os.chmod(lab.keys, 0o604)
        warned(lab, [f"read {lab.keys}"], "", "script", "--keys", lab.keys)
        lab.serve(count=1, more=["--log"], faults=open(lab.path("told"), "wb"))
        lab.ask(b"GET / HTTP/1.1\r\n\r\n")
        lab.process.wait(60)
        lab.kill()
        told = bytes_of(lab.path("told")).decode().splitlines()
        expect("a log begins with what others may read", told[:2],
               [f"warning: others than its owner may read {path}" for path in (lab.db, lab.keys)])
        os.chmod(lab.keys, 0o600)
    finally:
        os.umask(open_mask)


def foreign_files(lab):
    """A refused command leaves no log beside a file that isn't the server's, and the file as it was."""
    text = lab.write(lab.path("text"), "this is no database\n")
    other = lab.path("other.db")
    with contextlib.closing(sqlite3.connect(other)) as connection, connection:
        connection.execute("CREATE TABLE other (a)")
    before = files(lab)
    for path, word in ((text, "unavailable"), (other, "schema")):
        for command in (["account-disable", "--account", "1"], ["migrate"], ["request-reject", "--request", "1000001"],
                        ["serve", "--keys", lab.keys, "--port", str(free_port()), "--count", "1"]):
            lab.fails(word, command[0], "--db", path, *command[1:], what="over a foreign file")
        lab.fails("unavailable", "init", "--db", path, what="over a foreign file")
    expect("the foreign files, and what is beside them", files(lab), before)


# ---- why a command failed


SERVED = "a server has it, and answers at its socket (-orders)"
STORE = "the store refused a statement (a full disk, a folder that can't be written to), or met a damaged page or a malformed row"
BROKEN = ("nothing of it can be read: another program made or changed it, a row breaks its table's rules (a type, a reference), "
          "or a page is damaged; restore the last backup that check calls whole")
KEY = "ab" * 32


def held(lab):
    """The sums of all files in the folder, but of no log that holds nothing: each command begins that anew."""
    return {name: total for name, total in files(lab).items() if not name.endswith("-wal") or len(bytes_of(lab.path(name))) > EMPTY_LOG}


def because(lab, word, cause, *args, what="", stays=True, **more):
    """With --verbose a command fails as without, and says why on a second line. It leaves the files as without."""
    lab.fails(word, *args, what=what, **more)
    before, names = held(lab), sorted(os.listdir(lab.folder))
    expect(f"the command {args} {what} with --verbose", lab.run(*args, "--verbose", **more),
           (1, "", f"fault: {word}\n" + (f"because: {cause}\n" if cause else "")))
    if stays:
        expect(f"the files behind {args} {what}", (held(lab), sorted(os.listdir(lab.folder))), (before, names))


def changed(lab, name, *statements):
    """A copy of the database in which SQLite has carried statements out."""
    path = lab.path(name)
    shutil.copy(lab.db, path)
    with contextlib.closing(page_sums.connect(path)) as connection, connection:
        for statement in statements:
            connection.execute(statement)
    return path


def loosened(lab, name, table, statement):
    """A copy of the database in which SQLite has carried a statement out on a table whose types it didn't enforce."""
    path = lab.path(name)
    shutil.copy(lab.db, path)
    for before, after in ((") STRICT", ")"), (None, None), (")", ") STRICT")):
        with contextlib.closing(page_sums.connect(path)) as connection, connection:
            if before is None:
                connection.execute(statement)
                continue
            connection.execute("PRAGMA writable_schema = ON")
            (text,), = connection.execute("SELECT sql FROM sqlite_schema WHERE name = ?", (table,)).fetchall()
            text = text.removesuffix(before) + after
            connection.execute("UPDATE sqlite_schema SET sql = ? WHERE name = ?", (text, table))
    return path


def unsummed(lab, name, statement):
    """A copy of the database in which SQLite has carried a statement out, and left the checksums as they were."""
    path = lab.path(name)
    shutil.copy(lab.path("backup.db"), path)
    with contextlib.closing(sqlite3.connect(path)) as connection, connection:
        connection.execute(statement)
    return path


def encoded(lab, name):
    """The rows of the database in a file of SQLite whose texts are in UTF-16."""
    path = lab.path(name)
    with contextlib.closing(sqlite3.connect(path)) as connection, connection:
        connection.execute("PRAGMA encoding = 'UTF-16le'")
        connection.execute("CREATE TABLE account (account INTEGER PRIMARY KEY)")
    return path


def disable(path, account=1):
    return ["account-disable", "--db", path, "--account", str(account)]


def serving(lab, path, keys=None):
    return ["serve", "--db", path, "--keys", keys or lab.keys, "--port", str(free_port()), "--count", "1"]


def why_a_database_is_unavailable(lab):
    """Each cause by itself, made here: what has the path, who has the file, what is beside it, and what it holds."""
    lab.add(1)
    lab.backs_up()
    gone = lab.path("gone.db")
    for command in (disable(gone), ["migrate", "--db", gone], serving(lab, gone), backup(lab, "b.db", gone),
                    ["account-add", "--db", gone, "--account", "2", "--secret", lab.path("secret-1")]):
        because(lab, "unavailable", "--db: there is no such file", *command)
    because(lab, "unavailable", "--from: there is no such file", *restore(lab, "gone.db"))
    missing = "it can't be opened: No such file or directory (os error 2)"
    because(lab, "unavailable", f"--db: {missing}", "init", "--db", lab.path("nowhere/a.db"))
    because(lab, "unavailable", f"--to: {missing}", *backup(lab, "nowhere/b.db"))
    os.mkdir(lab.path("folder"))
    os.mkfifo(lab.path("pipe"))
    for name in ("folder", "pipe"):
        for command in (disable(lab.path(name)), restore(lab, db=lab.path(name)), backup(lab, "b.db", lab.path(name))):
            because(lab, "unavailable", "--db: it is no regular file", *command)
        because(lab, "unavailable", "--from: it is no regular file", *restore(lab, name))
    # what its path is
    os.symlink(lab.path("nothing.db"), lab.path("astray"))
    os.symlink(lab.path("loop"), lab.path("loop"))
    for name, cause in (("astray", "it is a link that leads to no file"), ("loop", "it can't be opened: Too many levels of symbolic links (os error 40)")):
        for command in (["init", "--db", lab.path(name)], disable(lab.path(name)), restore(lab, db=lab.path(name))):
            because(lab, "unavailable", f"--db: {cause}", *command)
    because(lab, "unavailable", "--db: its path ends without a file's name", "init", "--db", "")
    because(lab, "unavailable", "--to: its path ends without a file's name", *backup(lab, "new/")[:-1], "")
    because(lab, "unavailable", "--new: its path ends without a file's name", "secret", "--new", "")
    long = lab.path("n" * 223)
    told = "its name has 223 bytes, and may have 222: the names of its copies are longer"
    for option, command in (("--new", ["secret", "--new", long]), ("--db", ["init", "--db", long]), ("--to", backup(lab, long))):
        because(lab, "unavailable", f"{option}: {told}", *command)
    shutil.copy(lab.path("backup.db"), long)
    because(lab, "unavailable", f"--db: {told}", *backup(lab, "b.db", long))
    because(lab, "unavailable", f"--db: {told}", *restore(lab, db=long))
    os.remove(long)
    shutil.copy(lab.path("backup.db"), long[:-1])
    lab.does("account 1 disabled", *disable(long[:-1]))
    lab.does("1 enabled sessions 0 requests 0 vendors 0 modules 0 environments 0", "accounts", "--db", lab.path("backup.db"))
    status, output, faults = lab.run("accounts", "--db", long[:-1])
    expect("a database of the longest name that is copied", (status, output.split(" sessions")[0], faults), (0, "1 disabled", ""))
    lab.backs_up("longest.db", long[:-1])
    lab.backs_up("m" * 222)
    lab.restores("m" * 222, long[:-1])
    os.remove(long[:-1])
    # who has it
    with open(lab.db, "r+b") as file:
        # a lock of this open of the file, which the close of another leaves
        fcntl.fcntl(file, fcntl.F_OFD_SETLK, struct.pack("@hhqqi4x", fcntl.F_WRLCK, os.SEEK_SET, 1 << 30, 512, 0))
        for command in (disable(lab.db), ["init", "--db", lab.db], restore(lab)):
            because(lab, "unavailable", "--db: another process has it", *command, what="of a locked file")
    lab.serve(count=None)
    for command in (["init", "--db", lab.db], ["migrate", "--db", lab.db], serving(lab, lab.db), restore(lab)):
        because(lab, "unavailable", f"--db: {SERVED}", *command, what="of a file that is served")
    lab.kill()
    lab.fails("unknown", *disable(lab.db, 2))
    # who may open it
    if os.geteuid() == 0:
        os.chmod(lab.folder, 0o755)
        other = {"user": 65534, "group": 65534}
        denied = "it can't be opened: Permission denied (os error 13)"
        because(lab, "unavailable", f"--db: {denied}", *disable(lab.db), what="by another user", **other)
        because(lab, "unavailable", "--to: it can't be made in its folder (its rights, or a full disk)", *backup(lab, "b.db"), what="by another user", **other)
        with tempfile.TemporaryDirectory() as theirs:
            os.chown(theirs, 65534, 65534)
            because(lab, "unavailable", f"--db: {denied}", *backup(lab, os.path.join(theirs, "b.db")), what="by another user", **other)
        because(lab, "keys", f"--keys: {denied}", "script", "--keys", lab.keys, what="by another user", **other)
        because(lab, "secret", f"--secret: {denied}", "account-add", "--db", lab.db, "--account", "2", "--secret",
                lab.path("secret-1"), what="by another user", **other)
        because(lab, "unavailable", "--db: it can't be made in its folder (its rights, or a full disk)", "init", "--db", gone, what="by another user", **other)
        os.chmod(lab.folder, 0o700)
    else:
        print("skipped: what another user may not open (only root may become one)")
    # what is beside it
    os.link(lab.db, lab.path("name"))
    because(lab, "unavailable", "--db: it has 2 names (hard links), and may have one", *disable(lab.db))
    os.remove(lab.path("name"))
    lab.write(lab.db + "-journal", "x")
    because(lab, "unavailable", "--db: a journal is beside it (-journal): another program was stopped while it wrote to it", *disable(lab.db))
    os.remove(lab.db + "-journal")
    os.link(lab.db + "-wal", lab.path("name"))
    because(lab, "unavailable", "--db, its log (-wal): it has 2 names (hard links), and may have one", *disable(lab.db))
    os.remove(lab.path("name"))
    # what it holds
    because(lab, "unavailable", "--db: it has tables already", "init", "--db", lab.db)
    text = lab.write(lab.path("text"), "this is no database\n")
    lab.write(lab.path("empty"), "")
    for command in (disable(text), ["init", "--db", text], backup(lab, "b.db", text), backup(lab, "b.db", lab.path("empty")),
                    restore(lab, db=text)):
        because(lab, "unavailable", "--db: it is no database", *command)
    because(lab, "unavailable", "--from: it is no database", *restore(lab, "text"))
    whole = bytes_of(lab.path("backup.db"))
    lab.write(lab.path("cut.db"), whole[:20000])
    cut = f"it is cut: it has 20000 bytes of {len(whole)}"
    because(lab, "unavailable", f"--db: {cut}", *disable(lab.path("cut.db")), stays=False)
    lab.write(lab.path("cut.db"), whole[:20000])
    because(lab, "unavailable", f"--from: {cut}", *restore(lab, "cut.db"))
    lab.write(lab.path("spoilt.db"), whole[:4096] + bytes(len(whole) - 4096))
    because(lab, "unavailable", f"--db: {BROKEN}", *disable(lab.path("spoilt.db")), stays=False)
    stray = changed(lab, "stray.db", "UPDATE account SET secret = X'00'")
    because(lab, "unavailable", f"--db: {STORE} of account", *disable(stray), stays=False)
    # nothing of it is read: a type that a column doesn't have, and a reference to a row that isn't there
    for name, path in (("type", loosened(lab, "type.db", "account", "UPDATE account SET enabled = 'x'")),
                       ("reference", changed(lab, "reference.db", "INSERT INTO session VALUES (5000001, 5, 0, 0, 0, NULL, 1, 0)"))):
        for command in (disable(path), ["accounts", "--db", path], ["requests", "--db", path], serving(lab, path),
                        ["check", "--db", path, "--keys", lab.keys], backup(lab, "b.db", path)):
            because(lab, "unavailable", f"--db: {BROKEN}", *command, what=f"of a file with a wrong {name}", stays=False)
        because(lab, "unavailable", f"--from: {BROKEN}", *restore(lab, f"{name}.db"), stays=False)
    # a bit of a page that has a checksum; a write without checksums; an encoding that isn't read
    bytes_there = bytearray(bytes_of(lab.path("backup.db")))
    bytes_there[4096 + 2000] ^= 1
    for name, path in (("bit", lab.write(lab.path("bit.db"), bytes(bytes_there))),
                       ("write", unsummed(lab, "unsummed.db", "UPDATE account SET enabled = 0")),
                       ("encoding", encoded(lab, "encoded.db"))):
        because(lab, "unavailable", f"--db: {BROKEN}", *disable(path), what=f"of a file with a wrong {name}", stays=False)
    # a statement that the system refuses
    full = {"preexec_fn": lambda: resource.setrlimit(resource.RLIMIT_FSIZE, (1000, 1000)), "restore_signals": False}
    because(lab, "unavailable", f"--db: {STORE} of account", *disable(lab.db), what="on a full disk",
            stays=False, **full)
    lab.does("account 1 disabled", *disable(lab.db))
    # a server's own fault, of an order that it was given
    lab.db = stray
    lab.serve(count=None)
    told = STORE.replace("the store", "its server's store").replace(" (a full disk, a folder that can't be written to)", "")
    because(lab, "unavailable", f"--db: {told}", *disable(stray), what="by a server")
    lab.kill()
    # a log without its file
    os.rename(lab.path("backup.db"), lab.path("kept.db"))
    lab.db = lab.path("kept.db")
    lab.serve(count=None)
    lab.add(3)
    lab.kill()
    lab.backs_up()
    os.remove(lab.db)
    because(lab, "unavailable", "--db: there is no such file, but its log (-wal) holds records, or a process has it", *restore(lab))


def why_a_text_is_refused(lab):
    """Each fault of keys and of a secret by itself. Of the text nothing is told but numbers."""
    zeros = "it has zero bytes, as a database or a text in UTF-16 has"
    line, token, seed = KEY + "\n", f"token {KEY}\n", f"seed {KEY}\n"
    plain = [("it has carriage returns (CR LF), where a line ends with a line feed alone", "\r\n"),
             ("its last line ends without a line feed", "")]
    texts = [(cause, line + KEY + end) for cause, end in plain]
    texts += [(f"it has {count} lines, and is to have 2", line * count) for count in (0, 1, 3)]
    texts += [("line 1 has 63 digits, and is to have 64", KEY[1:] + "\n" + line), ("line 2 has 65 digits, and is to have 64", line + "a" + line),
              ("line 2 has 0 digits, and is to have 64", line + "\n"), ("line 2 has something else than hex digits", line + "g" + KEY[1:] + "\n"),
              ("its last line ends without a line feed", token + seed[:-1]), (plain[0][0], token + seed.replace("\n", "\r\n")),
              ("line 2 is a key behind a seed", seed + token), ("line 2 begins with neither token nor seed", token + line + seed),
              ("line 1 has 62 digits, and is to have 64", f"token {KEY[2:]}\n" + seed), ("its last key is retired", token + "token -\n" + seed)]
    texts += [(f"it has {keys} lines of keys and {seeds} of seeds, and is to have 1 to 16 of each", token * keys + seed * seeds)
              for keys, seeds in ((1, 0), (0, 1), (17, 1), (1, 17))]
    for cause, text in texts:
        lab.write(lab.path("some-keys"), text)
        because(lab, "keys", f"--keys: {cause}", "script", "--keys", lab.path("some-keys"), what=f"with the text {text!r}")
    because(lab, "keys", f"--keys: {texts[-1][0]}", *serving(lab, lab.db, lab.path("some-keys")))
    because(lab, "keys", "--keys: there is no such file", "script", "--keys", lab.path("no-keys"))
    because(lab, "keys", "--keys: it can't be opened: Is a directory (os error 21)", "script", "--keys", lab.folder)
    of_secret = ["account-add", "--db", lab.db, "--account", "1", "--secret", lab.path("some-secret")]
    because(lab, "secret", "--secret: there is no such file", *of_secret)
    # what never ends
    lab.fails("secret", *of_secret[:-1], "/dev/zero")
    lab.fails("keys", "script", "--keys", "/dev/zero")
    # a file larger than any memory, of which a part alone is read, also for the cause
    with tempfile.TemporaryDirectory() as folder:
        large = lab.write(os.path.join(folder, "large"), "")
        os.truncate(large, 1 << 36)
        because(lab, "keys", f"--keys: {zeros}", "script", "--keys", large)
        because(lab, "secret", f"--secret: {zeros}", *of_secret[:-1], large)
    texts = [(cause, KEY + end) for cause, end in plain] + [(f"it has {count} lines, and is to have 1", line * count) for count in (0, 2)]
    texts += [("line 1 has 63 digits, and is to have 64", KEY[1:] + "\n"), ("line 1 has something else than hex digits", "-" + KEY[1:] + "\n")]
    for text in (KEY.encode("utf-16-le"), bytes_of(lab.db)):
        lab.write(lab.path("some-keys"), text)
        because(lab, "keys", f"--keys: {zeros}", "script", "--keys", lab.path("some-keys"), what="with zero bytes")
    texts += [("it has more than 4096 bytes", line * 64), (zeros, KEY.encode("utf-16-le"))]
    for cause, text in texts:
        lab.write(lab.path("some-secret"), text)
        because(lab, "secret", f"--secret: {cause}", *of_secret, what=f"with the text {text!r}")
    # a vector set's seed
    lab.add(1)
    lab.write(lab.path("two-seeds"), token + seed + seed)
    lab.write(lab.path("one-seed"), token + seed)
    lab.serve(count=None, keys=lab.path("two-seeds"))
    within_a_step(5)
    lab.must("POST", "/testSessions", lab.token(1), {"algorithms": [{"algorithm": "SHA2-256", "revision": "1.0", "messageLength": [8]}]})
    lab.kill()
    because(lab, "keys", "--keys: it lacks seed 2, which the database was served with", *serving(lab, lab.db, lab.path("one-seed")))
    lab.backs_up("forgets.db")
    with contextlib.closing(page_sums.connect(lab.path("forgets.db"))) as connection, connection:
        connection.execute("DELETE FROM meta WHERE name LIKE 'seed %'")
    because(lab, "keys", "--keys: a vector set names a seed that isn't in it", *serving(lab, lab.path("forgets.db"), lab.path("one-seed")), stays=False)


def what_verbose_leaves(lab):
    """A word that says all has no second line, a command that succeeds prints what it prints, and --log is for serve alone."""
    lab.add(1)
    for word, command in [("unknown", disable(lab.db, 2)), ("unknown", ["request-reject", "--db", lab.db, "--request", "7"]),
                          ("syntax", ["script", "--keys", lab.keys])]:
        more = {"input": "nothing\n"} if word == "syntax" else {}
        if more:
            done = subprocess.run([lab.program, *command, "--verbose"], capture_output=True, text=True, **more)
            expect("a script with --verbose", (done.returncode, done.stdout, done.stderr), (1, "", "fault: syntax\n"))
        else:
            because(lab, word, None, *command)
    for told, command in [("ready", ["init", "--db", lab.path("a.db")]), ("schema 3", ["migrate", "--db", lab.db]),
                          ("account 1 disabled", disable(lab.db))]:
        lab.does(told, *command, "--verbose")
    lab.backs_up(more=["--verbose"])
    lab.puts_back(more=["--verbose"])
    lab.serve(count=1, more=["--verbose"])
    lab.ask(b"GET / HTTP/1.1\r\n\r\n")
    lab.served(1)
    for command in ("init", "migrate", "account-add", "account-disable", "request-approve", "request-reject", "serve", "backup",
                    "restore", "script"):
        status, output, faults = lab.run(command, "--help")
        expect(f"the help of {command}", (status, "--verbose" in output, "--log" in output, faults), (0, True, command == "serve", ""))
        if command != "serve":
            expect(f"{command} with --log", lab.run(command, "--log")[:2], (2, ""))


def what_is_in_the_way(lab):
    """With --verbose a refusal says what is there instead: the schema, the account, the decision or the file; also if a
    server refuses."""
    lab.add(1)
    lab.serve(count=None)
    token = lab.token(1)
    for name in ("one", "two"):
        lab.must("POST", "/vendors", token, {"name": name})
    lab.does("request 1000001 rejected", "request-reject", "--db", lab.db, "--request", "1000001")
    lab.does("request 1000002 approved /acvp/v1/vendors/1000001", "request-approve", "--db", lab.db, "--request", "1000002")
    taken = ["account-add", "--db", lab.db, "--account", "1", "--secret", lab.path("secret-1")]
    for is_served in (True, False):
        because(lab, "notInitial", "--request: it was rejected", "request-approve", "--db", lab.db, "--request", "1000001")
        because(lab, "notInitial", "--request: it was approved, as 1000001", "request-reject", "--db", lab.db, "--request", "1000002")
        because(lab, "taken", "--account: account 1 is there, and enabled", *taken)
        if is_served:
            lab.kill()
    lab.does("account 1 disabled", *disable(lab.db))
    because(lab, "taken", "--account: account 1 is there, and disabled", *taken)
    because(lab, "taken", "--to: it is there, or a -wal file or a journal of its name", *backup(lab, "laboratory.db"))
    other = changed(lab, "other.db", "CREATE TABLE other (a)")
    later = changed(lab, "later.db", "UPDATE meta SET value = 4 WHERE name = 'schema'")
    empty = lab.write(lab.path("empty.db"), "")
    os.chmod(empty, 0o600)
    for path, cause in ((other, "it names schema 3, but its tables and indexes aren't exactly those"),
                        (later, "it names schema 4, which this program doesn't know"), (empty, "it is empty: init fills it")):
        because(lab, "schema", f"--db: {cause}", *disable(path))
    because(lab, "schema", "--from: it names schema 4, which this program doesn't know", *restore(lab, "later.db"))


def told_both_ways(lab, word, *args, **more):
    """A command that fails says its word and nothing else. With --verbose it says as much behind its warnings, and then
    at most one cause."""
    expect(f"what {args} says", lab.run(*args, **more)[::2], (1, f"fault: {word}\n"))
    status, _, faults = lab.run(*args, "--verbose", **more)
    lines = faults.splitlines()
    warnings = [line for line in lines if line.startswith("warning: ")]
    behind = [line for line in lines[len(warnings) + 1:] if not line.startswith("because: --")]
    expect(f"what {args} says with --verbose", (status, lines[:len(warnings)], lines[len(warnings)], behind, len(lines) - len(warnings) <= 2),
           (1, warnings, f"fault: {word}", [], True))


def each_fault_both_ways(lab):
    """Each command with each of its faults that can be made here, over files that others may read."""
    lab.add(1)
    lab.add(2)
    lab.serve(count=None)
    within_a_step(5)
    token = lab.token(1)
    for name in ("one", "two"):
        lab.must("POST", "/vendors", token, {"name": name})
    lab.kill()
    lab.does("request 1000002 rejected", "request-reject", "--db", lab.db, "--request", "1000002")
    lab.backs_up()
    secret, bad = lab.path("secret-1"), lab.write(lab.path("text"), "no key\n")
    other = changed(lab, "other.db", "CREATE TABLE other (a)")
    stray = changed(lab, "stray.db", "UPDATE account SET secret = X'00' WHERE account = 2")
    gone, keys = lab.path("gone.db"), ["--keys", lab.keys]
    for name in os.listdir(lab.folder):
        os.chmod(lab.path(name), 0o644)
    one = ["--request", "1000001"]
    of_database = [["migrate"], ["account-add", "--account", "3", "--secret", secret], ["account-disable", "--account", "1"],
                   ["request-approve", *one], ["request-reject", *one], ["accounts"], ["requests"], ["request-show", *keys, *one],
                   ["certificate", *keys, *one], ["check", *keys], ["serve", *keys, "--port", str(free_port()), "--count", "1"]]
    for command in of_database:
        told_both_ways(lab, "unavailable", *command, "--db", gone)
        told_both_ways(lab, "schema", *command, "--db", other)
        if keys[0] in command:
            told_both_ways(lab, "keys", *[bad if word == lab.keys else word for word in command], "--db", lab.db)
    for command in (["request-approve"], ["request-reject"], ["request-show", *keys], ["certificate", *keys]):
        told_both_ways(lab, "unknown", *command, "--db", lab.db, "--request", "9")
    for word, command in [("unavailable", ["init", "--db", lab.db]), ("unavailable", ["backup", "--db", gone, "--to", lab.path("b.db")]),
                          ("taken", ["backup", "--db", lab.db, "--to", lab.path("text")]),
                          ("unavailable", ["restore", "--from", gone, "--db", lab.db]), ("schema", ["restore", "--from", other, "--db", lab.db]),
                          ("taken", ["account-add", "--db", lab.db, "--account", "1", "--secret", secret]),
                          ("secret", ["account-add", "--db", lab.db, "--account", "3", "--secret", bad]),
                          ("unavailable", ["account-disable", "--db", stray, "--account", "2"]),
                          ("unknown", ["account-disable", "--db", lab.db, "--account", "9"]),
                          ("notInitial", ["request-approve", "--db", lab.db, "--request", "1000002"]),
                          ("notInitial", ["request-reject", "--db", lab.db, "--request", "1000002"]),
                          ("unavailable", ["accounts", "--db", stray]), ("rows", ["check", *keys, "--db", stray]),
                          ("keys", ["script", "--keys", bad])]:
        told_both_ways(lab, word, *command)
    with socket.socket() as taken:
        taken.bind(("127.0.0.1", 0))
        taken.listen()
        told_both_ways(lab, "bind", "serve", "--db", lab.db, *keys, "--port", str(taken.getsockname()[1]), "--count", "1")
    full = open("/dev/full", "w")
    for command in (["accounts", "--db", lab.db], ["requests", "--db", lab.db], ["request-show", "--db", lab.db, *keys, *one],
                    ["check", "--db", lab.db, *keys], ["migrate", "--db", lab.db],
                    ["serve", "--db", lab.db, *keys, "--port", str(free_port()), "--count", "1"]):
        done = subprocess.run([lab.program, *command], stdin=subprocess.DEVNULL, stdout=full, stderr=subprocess.PIPE, timeout=600)
        expect(f"{command[0]} to a full output", (done.returncode, done.stderr), (1, b"fault: write\n"))


# ---- a machine that gives little


def on_a_terminal(lab, *args):
    """What a command says on standard error where that is a terminal."""
    ours, its = pty.openpty()
    done = subprocess.run([lab.program, *args], stdin=subprocess.DEVNULL, stdout=subprocess.DEVNULL, stderr=its, timeout=600)
    os.close(its)
    said = b""
    with contextlib.suppress(OSError):
        for part in iter(lambda: os.read(ours, 65536), b""):
            said += part
    os.close(ours)
    return done.returncode, said.decode().replace("\r\n", "\n")


def most_beside(folder, run):
    """How many bytes the files in a folder have more, at most, while something runs, and what that gives."""
    def bytes_there():
        total = 0
        for entry in os.scandir(folder):
            with contextlib.suppress(FileNotFoundError):
                total += entry.stat(follow_symlinks=False).st_size
        return total

    before, most, done = bytes_there(), 0, threading.Event()

    def watch():
        nonlocal most
        while not done.is_set():
            most = max(most, bytes_there() - before)

    watcher = threading.Thread(target=watch)
    watcher.start()
    try:
        outcome = run()
    finally:
        done.set()
        watcher.join()
    return outcome, max(most, bytes_there() - before)


def room_of_a_restore(lab):
    """On a terminal a restore says how much room it may take, and takes no more. Of a backup that isn't there, or
    over what is no file, it says nothing."""
    for number in range(1, 4):
        lab.add(number)
    numbers = "WITH RECURSIVE n (i) AS (SELECT 1 UNION ALL SELECT i + 1 FROM n WHERE i < 20000)"
    body = '{"name":"%s"}' % ("n" * 200)
    backup = changed(lab, "backup.db", f"INSERT INTO object {numbers} SELECT 1, i, 1, '{body}' FROM n")
    page_sums.copy_without(backup, lab.path("plain.db"))

    def length(path):
        return sum(os.path.getsize(name) for name in (path, path + "-wal") if os.path.exists(name))

    for name, copies in (("backup.db", 2), ("plain.db", 4)):
        size = length(lab.path(name))
        for db in (lab.path(f"new-{name}"), lab.db):
            room = copies * size + length(db)
            (status, said), most = most_beside(lab.folder, lambda: on_a_terminal(lab, *restore(lab, name, db)))
            expect(f"a restore of {name} to {db}", (status, said), (0, f"room: up to {room} bytes beside {db}\n"))
            expect(f"whether {room} bytes suffice for it, of which {most} were seen", size <= most <= room, True)
    for path in (lab.path("none.db"), lab.folder):
        expect(f"a restore of {path}", "room" in on_a_terminal(lab, "restore", "--from", path, "--db", lab.db)[1], False)
    for path in (lab.folder, ""):
        expect(f"a restore over the path {path}", "room" in on_a_terminal(lab, "restore", "--from", backup, "--db", path)[1], False)


def same_secrets(lab):
    """On a terminal account-add tells an account that has the same secret, also while the file is served. If a row can't be
    read, it says so. The account is added as before."""
    lab.add(1)
    lab.add(2)
    same, unread = "warning: account 1 has the same secret\n", "warning: the other accounts' secrets can't be read\n"

    def added(account, secret):
        order = ["account-add", "--db", lab.db, "--account", str(account), "--secret", lab.path(secret)]
        return on_a_terminal(lab, *order)

    lab.write(lab.path("secret-9"), lab.secret(9).hex() + "\n")
    for account, secret, said in ((3, "secret-9", ""), (4, "secret-1", same)):
        expect(f"account {account}", added(account, secret), (0, said))
    lab.add(9999)
    expect("the last account", added(8, "secret-9999"), (0, same.replace("account 1 ", "account 9999 ")))
    expect("an account that is there", added(2, "secret-2"), (1, "fault: taken\nbecause: --account: account 2 is there, and enabled\n"))
    lab.serve(count=None)
    expect("while it is served", added(5, "secret-1"), (0, same))
    lab.kill()
    with contextlib.closing(page_sums.connect(lab.db)) as connection, connection:
        connection.execute("UPDATE account SET secret = X'00' WHERE account = 2")
    expect("beside a malformed row", added(6, "secret-1"), (0, unread))
    expect("the accounts", [row[0] for row in content(lab.db)["account"]], [1, 2, 3, 4, 5, 6, 8, 9999])


def told_on_a_terminal(lab):
    """On a terminal a command says what it says with --verbose: its warnings, its fault and the cause."""
    lab.add(1)
    other = changed(lab, "other.db", "CREATE TABLE other (a)")
    bad = lab.write(lab.path("text"), "no key\n")
    os.chmod(lab.db, 0o644)
    for args in (disable(lab.path("none.db")), disable(lab.db, 2), disable(other), ["accounts", "--db", bad], ["accounts", "--db", lab.db],
                 ["account-add", "--db", lab.db, "--account", "2", "--secret", bad], restore(lab), ["script", "--keys", bad],
                 ["init", "--db", lab.db]):
        status, _, faults = lab.run(*args, "--verbose")
        expect(f"what {args} says on a terminal", on_a_terminal(lab, *args), (status, faults))
    expect("whether there was a warning and a cause", "warning: " in lab.run(*restore(lab), "--verbose")[2], True)


def how_far_a_check_is(lab):
    """On a terminal a check says how far it has come, and its result stands in a line of its own."""
    lab.add(1)
    order = ["check", "--db", lab.db, "--keys", lab.keys]
    far = "".join(f"\r{account} of 9999 accounts " for account in range(100, 10000, 100))
    expect("a check on a terminal", lab.typed(b"", *order), (0, f"{far}\nwhole: accounts 1 sessions 0 sets 0 requests 0\n"))
    stray = changed(lab, "stray.db", "UPDATE account SET secret = X'00'")
    status, said = lab.typed(b"", "check", "--db", stray, "--keys", lab.keys)
    expect("a check of a damaged row on a terminal", (status, said.split("\n")[1:3]), (1, ["account 1 stray", "fault: rows"]))


def rows_of_a_restore(lab):
    """On a terminal a restore that gives a file of many rows checksums says how many it has copied; elsewhere nothing."""
    lab.add(1)
    numbers = "WITH RECURSIVE n (i) AS (SELECT 1 UNION ALL SELECT i + 1 FROM n WHERE i < 100000)"
    many = changed(lab, "many.db", f"INSERT INTO object {numbers} SELECT 1, i, 1, '{{}}' FROM n")
    page_sums.copy_without(many, lab.path("plain.db"))
    order = restore(lab, "plain.db", lab.path("restored.db"))
    status, said = on_a_terminal(lab, *order)
    told = [list(map(int, pair)) for pair in re.findall(r"\rcopied (\d+) of (\d+) rows ", said)]
    room, rest = said.split("\n", 1)
    expect("a restore of many rows on a terminal", (status, room.startswith("room: up to "), rest),
           (0, True, "".join(f"\rcopied {copied} of {rows} rows " for copied, rows in told) + "\n"))
    copied, rows = zip(*told)
    expect("how many rows it has copied", (list(copied), set(rows), copied[-1]), (sorted(copied), {100002}, 100002))
    expect("whether it says so on the way", any(0 < count < 100000 for count in copied), True)
    expect("the same elsewhere", lab.run(*order)[::2], (0, ""))


def told_of_a_large_file(lab):
    """On a terminal a command says how much of a large file is copied, and how far its open has come; elsewhere nothing."""
    lab.add(1)
    connection = page_sums.connect(lab.db)
    with contextlib.closing(connection), connection:
        for number in range(1000001, 1000104):
            connection.execute("INSERT INTO object (kind, number, account, body) VALUES (1, ?, 1, ?)", (number, "a" * 1000000))
    length = os.stat(lab.db).st_size
    megabytes, thrice = length // 1000000, 3 * length // 1000000
    backup = ["backup", "--db", lab.db, "--to", lab.path("large.db")]
    copied = "".join(f"\rcopied {done} of {megabytes} MB " for done in (0, 67, megabytes)) + "\n"
    status, said = on_a_terminal(lab, *backup)
    expect("a backup of a large file on a terminal", (status, said[:len(copied)]), (0, copied))
    expect("what else it says", how_far("the open of its copy", said[len(copied):], "read", thrice), "")
    os.remove(lab.path("large.db"))
    expect("the same elsewhere", lab.run(*backup)[::2], (0, ""))
    status, said = on_a_terminal(lab, *disable(lab.db, 9), "--yes")
    expect("an order on a large file on a terminal", (status, how_far("its open", said, "read", thrice)), (1, "fault: unknown\n"))
    expect("the same elsewhere", lab.run(*disable(lab.db, 9)), (1, "", "fault: unknown\n"))


def asked_on_a_terminal(lab):
    """An order that can't be taken back is shown and asked for on a terminal; --yes asks nothing. What isn't wanted changes
    nothing. While it is served, the same."""
    for account in (1, 2, 3, 4):
        lab.add(account)
    lab.serve(count=None)
    token = lab.token(1)
    asked = [lab.must("POST", "/vendors", token, {"name": name})["url"].rsplit("/", 1)[1] for name in ("First", "Second")]

    def line_of(account):
        """The line that `accounts` has for it."""
        return next(line for line in lab.run("accounts", "--db", lab.db)[1].splitlines() if line.split()[0] == str(account))

    before = line_of(2)
    order = ["account-disable", "--db", lab.db, "--account", "2"]
    question, unchanged = "Disable account 2 for good? [y/N] ", "nothing is changed\n"
    for answer, echo in ((b"n\n", "n\n"), (b"\n", "\n"), (b"yess\n", "yess\n"), (b"\x04", "")):
        expect(f"what {answer} changes", lab.typed(answer, *order), (1, f"{before}\n{question}{echo}{unchanged}"))
        expect("the account", line_of(2), before)
    expect("yes", lab.typed(b"y\n", *order), (0, f"{before}\n{question}y\naccount 2 disabled\n"))
    expect("an order with --yes", lab.typed(b"", "account-disable", "--db", lab.db, "--account", "3", "--yes"), (0, "account 3 disabled\n"))
    lab.kill()
    orders = [("request-approve", "Approve", "approved /acvp/v1/vendors/1000001"), ("request-reject", "Reject", "rejected")]
    for number, (command, verb, done) in zip(asked, orders):
        shown = lab.run("request-show", "--db", lab.db, "--keys", lab.keys, "--request", number)[1]
        about = f"{shown}{line_of(1)}\n{verb} request {number}? [y/N] "
        order = [command, "--db", lab.db, "--request", number]
        expect(f"{command} that isn't wanted", lab.typed(b"no\n", *order), (1, f"{about}no\n{unchanged}"))
        expect(f"{command} that is wanted", lab.typed(b"yes\n", *order), (0, f"{about}yes\nrequest {number} {done}\n"))
    # what is so already, isn't there, or can't be shown, isn't asked for
    decided = "fault: notInitial\nbecause: --request: it was approved, as 1000001\n"
    for command in ("request-approve", "request-reject"):
        expect(f"{command} of what was decided", lab.typed(b"y\n", command, "--db", lab.db, "--request", asked[0]), (1, decided))
    expect("an order on a disabled account", lab.typed(b"n\n", *disable(lab.db, 2)), (0, "account 2 disabled\n"))
    none = lab.path("none.db")
    expect("an order on no database", lab.typed(b"y\n", *disable(none)), (1, "fault: unavailable\nbecause: --db: there is no such file\n"))
    expect("an order on no account", lab.typed(b"y\n", *disable(lab.db, 9)), (1, "fault: unknown\n"))
    stray = changed(lab, "stray.db", "UPDATE account SET secret = X'00' WHERE account = 4")
    unshown = "what is to be changed can't be shown: with --yes it is tried all the same\n"
    expect("an order on a malformed row", lab.typed(b"y\n", *disable(stray, 4)),
           (1, f"{unshown}fault: unavailable\nbecause: --db: {STORE} of account\n"))
    empty = lab.write(lab.path("empty.db"), "")
    expect("an order on an empty file", lab.typed(b"y\n", *disable(empty)), (1, "fault: schema\nbecause: --db: it is empty: init fills it\n"))
    expect("an order on a device", lab.typed(b"y\n", *disable("/dev/null")),
           (1, "warning: others than its owner may read /dev/null\nfault: unavailable\nbecause: --db: it is no regular file\n"))
    text = lab.write(lab.path("text"), "this is no database\n" * 10)
    expect("an order on a text", lab.typed(b"y\n", *disable(text)), (1, "fault: unavailable\nbecause: --db: it is no database\n"))
    # a question that nobody sees isn't asked
    order, before = ["account-disable", "--db", lab.db, "--account", "4"], held(lab)
    request = ["--db", lab.db, "--request", asked[0]]
    for args, status in ((order, 2), (["request-approve", *request], 2), (["request-reject", *request], 2), (["migrate", "--db", lab.db], 2),
                         ([*order, "--yes"], 0)):
        terminal, its = pty.openpty()
        seen = subprocess.run([lab.program, *args], stdin=its, stdout=its, stderr=subprocess.PIPE, text=True, timeout=600)
        os.close(its)
        os.close(terminal)
        expect(f"the command {args} whose faults go elsewhere", (seen.returncode, held(lab) != before), (status, status == 0))
        expect("whether it names the flag", "--yes" in seen.stderr, status == 2)
    # without a terminal nothing is asked
    lab.add(5)
    lab.does("account 5 disabled", "account-disable", "--db", lab.db, "--account", "5")


def little_stack(lab):
    """Where the stack is too small the program ends at its start, and never while it serves: what gets as far answers a
    body that nests as deep as one may."""
    deepest = b"[" * 127 + b"]" * 127
    bodies = [deepest, b'[{"acvVersion":"1.0"},' + b",".join([deepest[1:-1]] * 100) + b"]",
              b'[{"acvVersion":"1.0"},{"a":' + b'{"a":' * 120 + b"1" + b"}" * 122 + b"]"]
    served = []
    for size in range(100, 1000, 25):
        lab.port = free_port()
        serving = subprocess.Popen([lab.program, "serve", "--db", lab.db, "--keys", lab.keys, "--port", str(lab.port), "--count", "4"],
                                   stdin=subprocess.DEVNULL, stdout=subprocess.PIPE, stderr=subprocess.PIPE,
                                   preexec_fn=lambda: resource.setrlimit(resource.RLIMIT_STACK, (size * 1024, size * 1024)))
        if serving.stdout.readline():
            expect(f"a read with {size} kB of stack", lab.call("GET", "/account")[0], 401)
            for body in bodies:
                expect(f"a deep body with {size} kB of stack", lab.call("POST", "/login", body=body)[0], 400)
            served.append(size)
        output, faults = serving.communicate(timeout=600)
        expect(f"what is told with {size} kB of stack", (output, faults), (b"served 4\n" if size in served else b"", b""))
    expect(f"the sizes that suffice, {served}", served != [] and served == list(range(served[0], 1000, 25)), True)


def main():
    program, kills = os.path.abspath(sys.argv[1]), int((sys.argv[2:] or ["40"])[0])
    os.umask(0o077)
    began = time.time()

    def killed(lab):
        killed_restores(lab, kills)

    killed.__name__ = "killed_restores"
    for part in (backups_while_nobody_serves, backups_while_serving, copies_apart, restores, sums_by_a_restore, wrong_sums, killed,
                 what_others_may_read, foreign_files, why_a_database_is_unavailable, why_a_text_is_refused, what_verbose_leaves,
                 what_is_in_the_way, each_fault_both_ways, told_on_a_terminal, how_far_a_check_is, rows_of_a_restore, told_of_a_large_file, room_of_a_restore, same_secrets,
                 asked_on_a_terminal, little_stack):
        with tempfile.TemporaryDirectory() as folder:
            lab = Laboratory(program, folder)
            lab.does("ready", "init", "--db", lab.db)
            try:
                part(lab)
            finally:
                lab.kill()
        print(f"{part.__name__.replace('_', ' ')}: done after {time.time() - began:.0f} s", flush=True)
    print(f"{laboratory.checked} comparisons")


main()

"""What is said to be done is on the disk by then: changes before their replies, copies before they get a name, names
before a command prints that it is done. And a copy that is made while the log is emptied is whole all the same. If the
disk fails at a call, nothing is lost.

    what-reaches-the-disk.py PROGRAM TRACE FAIL

TRACE is the library of trace_files.c, which writes down what the program does with its files. FAIL is that of
fail_call.c, with which one of its calls fails."""
import contextlib
import itertools
import os
import shutil
import sqlite3
import subprocess
import sys
import tempfile
import time

from laboratory import Laboratory, expect
import laboratory

REGISTRATION = {"algorithms": [{"algorithm": "SHA2-256", "revision": "1.0", "messageLength": [8]}]}


class Traced:
    """A laboratory whose program writes down what it does with its files."""

    def __init__(self, program, folder, library):
        self.lab = Laboratory(program, os.path.realpath(folder))
        self.library, self.path = library, self.lab.path("trace")

    @contextlib.contextmanager
    def tracing(self, **more):
        """Runs of the program within this write down what they do."""
        with contextlib.suppress(FileNotFoundError):
            os.remove(self.path)
        names = {"LD_PRELOAD": self.library, "TRACE": self.path, **more}
        os.environ.update(names)
        try:
            yield
        finally:
            for name in names:
                os.environ.pop(name)

    def trace(self):
        """What was done: a list of words for each call."""
        with open(self.path) as file:
            return [line.split() for line in file]


def place(what, trace, *words, after=-1):
    """The place of the first such call behind a place."""
    for number, line in enumerate(trace):
        if number > after and line[:len(words)] == list(words):
            return number
    raise SystemExit(f"{what}: there is no {' '.join(words)} behind line {after} of {trace}")


def places(trace, *words):
    return [number for number, line in enumerate(trace) if line[:len(words)] == list(words)]


def is_synced(what, trace, path, until):
    """By then, what was written to a file is on the disk."""
    writes = [number for number in places(trace, "write", path) if number < until]
    syncs = [number for number in places(trace, "sync", path) if number < until]
    if not syncs or (writes and syncs[-1] < writes[-1]):
        raise SystemExit(f"{what}: {path} isn't on the disk by line {until} of {trace}")
    laboratory.checked += 1


def named(what, lab, trace, to):
    """A copy got this name: it was on the disk before, and the name was before the last line was printed."""
    names = [number for number, line in enumerate(trace) if line[0] in ("link", "rename") and line[2] == to]
    expect(f"how often {what} gives the name", len(names), 1)
    is_synced(what, trace, trace[names[0]][1], names[0])
    kept = place(what, trace, "sync", lab.folder, after=names[0])
    printed = [number for number in places(trace, "write") if trace[number][1].startswith(("pipe:", "/dev/pts"))]
    expect(f"the line that {what} prints comes last", printed and kept < printed[0], True)
    return names[0]


def untouched(what, lab, trace):
    """The database and its log were only read."""
    expect(f"what {what} does to the database", [line for line in trace if lab.db in line[1:] or lab.db + "-wal" in line[1:]], [])


def copies(it):
    """Backups and restores, of a database that is served and of one that isn't."""
    lab = it.lab
    with it.tracing():
        lab.does("ready", "init", "--db", lab.db)
    trace = it.trace()
    printed = [number for number in places(trace, "write") if trace[number][1].startswith("pipe:")]
    is_synced("init", trace, lab.db, printed[0])
    expect("the names of a new database are kept", bool([n for n in places(trace, "sync", lab.folder) if n < printed[0]]), True)
    lab.add(1)
    lab.serve()
    token = lab.token(1)
    lab.must("POST", "/testSessions", token, REGISTRATION)
    for number in (1, 2):
        with it.tracing():
            lab.backs_up(f"backup-{number}.db")
        trace = it.trace()
        named("a backup", lab, trace, lab.path(f"backup-{number}.db"))
        untouched("a backup", lab, trace)
        lab.kill()
    # over a database whose log holds something, over one that was put back, and where there is none
    for target in (lab.db, lab.db, lab.path("new.db")):
        is_there = os.path.exists(target)
        with it.tracing():
            kept = lab.restores("backup-1.db", target)
        trace = it.trace()
        at = named("a restore", lab, trace, target)
        if is_there:
            log = target + "-wal"
            removed = place("a restore", trace, "remove", log)
            named_at = named("what a restore keeps", lab, trace, kept)
            expect("what was there is kept before its log goes", place("a restore", trace, "sync", lab.folder, after=named_at) < removed, True)
            is_synced("a restore, the file before its log goes", trace, target, removed)
            for path in (target, log):
                locked = place("a restore", trace, "lock", path)
                expect(f"{path} is locked meanwhile", locked < removed < at, True)
                expect(f"{path} is locked until then", [n for n in places(trace, "unlock") if trace[n][1] == path and n < at], [])


def texts(it):
    """Files of keys and of secrets that are made."""
    lab = it.lab
    new, more, secret = lab.path("new.txt"), lab.path("more.txt"), lab.path("secret.txt")
    for to, args in ((new, ["keys", "--new", new]), (more, ["keys", "--add-seed", new, "--to", more]), (secret, ["secret", "--new", secret])):
        with it.tracing():
            lab.does(f"made {to}", *args)
        named(f"the command {args}", lab, it.trace(), to)


def replies(it):
    """Each reply to a change comes once the change is on the disk."""
    lab = it.lab
    lab.does("ready", "init", "--db", lab.db)
    lab.add(1)
    with it.tracing():
        lab.serve()
    token = lab.token(1)
    for _ in range(20):
        lab.must("POST", "/testSessions", token, REGISTRATION)
        lab.must("POST", "/vendors", token, {"name": "a"})
    for number in range(1000001, 1000011):
        lab.does(f"request {number} rejected", "request-reject", "--db", lab.db, "--request", str(number))
    lab.kill()
    trace, log = it.trace(), lab.db + "-wal"
    sent = [number for number in places(trace, "write") if trace[number][1].startswith("socket:")]
    expect("at least so many replies", len(sent) >= 51, True)
    changes = 0
    for before, after in zip([0] + sent, sent):
        if [number for number in places(trace, "write", log) if before < number < after]:
            changes += 1
            is_synced("a reply", trace, log, after)
    expect("at least so many changes", changes >= 51, True)


def emptied_meanwhile(it):
    """While a backup has copied the file and not yet the log, serving ends: what the log held is in the file, and the
    log is emptied. The backup has all the same what was acknowledged before it began."""
    lab = it.lab
    lab.does("ready", "init", "--db", lab.db)
    for is_served_again in (False, True):
        account = 2 if is_served_again else 1
        lab.add(account)
        lab.serve(count=3)
        token = lab.token(account)
        session = lab.must("POST", "/testSessions", token, REGISTRATION)["url"]
        gate, to = lab.path("gate"), lab.path(f"held-{account}.db")
        with it.tracing(COPY_GATE=gate):
            backup = subprocess.Popen([lab.program, "backup", "--db", lab.db, "--to", to], stdin=subprocess.DEVNULL,
                                      stdout=subprocess.PIPE, stderr=subprocess.PIPE, text=True)
            for _ in range(3000):
                if os.path.exists(gate):
                    break
                time.sleep(0.02)
            expect("the backup is held up", os.path.exists(gate), True)
        lab.call("GET", "/account", token)
        lab.served(3)
        expect("the log is emptied", os.path.getsize(lab.db + "-wal") < 4096, True)
        if is_served_again:
            lab.serve(count=2)
            lab.must("POST", "/vendors", token, {"name": "b"})
            lab.must("GET", "/account", token)
            lab.served(2)
        os.remove(gate)
        output, faults = backup.communicate(timeout=600)
        expect("the backup", (backup.returncode, output.partition(":")[0], faults), (0, "backed up", ""))
        expect("the backup is whole", lab.run("check", "--db", to, "--keys", lab.keys)[::2], (0, ""))
        with contextlib.closing(sqlite3.connect(f"file:{to}?mode=ro&immutable=1", uri=True)) as connection:
            there = connection.execute("SELECT count(*) FROM session WHERE session = ?", (int(session.rpartition("/")[2]),))
            expect("the session in the backup", there.fetchone(), (1,))


def records(path):
    """All rows of a database and the log beside it, as SQLite reads a copy of them."""
    with tempfile.TemporaryDirectory() as folder:
        copy = os.path.join(folder, "copy.db")
        for end in ("", "-wal"):
            if os.path.exists(path + end):
                shutil.copy(path + end, copy + end)
        with contextlib.closing(sqlite3.connect(copy)) as connection:
            expect(f"whether {path} is whole", connection.execute("PRAGMA integrity_check").fetchall(), [("ok",)])
            return "\n".join(connection.iterdump())


def failing(it, *args):
    """Runs a command again and again over the same files; each time another of its calls fails, whose name comes first.
    It ends at the first place where none does."""
    lab = it.lab
    mark, begun = lab.path("mark"), os.path.join(it.aside, "begun")
    shutil.copytree(lab.folder, begun)
    for number in itertools.count():
        names = {"LD_PRELOAD": it.failing, "FAIL_PLACE": str(number), "FAIL_MARK": mark}
        done = lab.run(*args, env={**os.environ, **names})
        if not os.path.exists(mark):
            expect(f"how {args[0]} ends where no call fails", (done[0], done[2]), (0, ""))
            expect(f"whether {args[0]} writes", number > 10, True)
            shutil.rmtree(begun)
            return
        with open(mark) as file:
            call = file.read()
        yield call, f"{args[0]}, whose call {number}, {call}, fails", done
        for name in os.listdir(lab.folder):
            os.remove(lab.path(name))
        for name in os.listdir(begun):
            shutil.copy2(os.path.join(begun, name), lab.path(name))


def each_call_fails(it):
    """Whatever call of a backup or a restore the disk fails, the records of before are still there, in the database or in
    a copy that is kept, and each file that has a name is whole. Only a file that can't be taken away may be left without
    a fault. The log holds records, since the server that wrote them was killed."""
    lab = it.lab
    lab.does("ready", "init", "--db", lab.db)
    lab.add(1)
    lab.backs_up()
    lab.serve()
    token = lab.token(1)
    for number in range(3):
        lab.must("POST", "/vendors", token, {"name": f"vendor {number}"})
    lab.kill()
    os.remove(lab.db + "-orders")
    expect("whether the log holds records", os.path.getsize(lab.db + "-wal") > 4096, True)
    before, earlier, to = records(lab.db), records(lab.path("backup.db")), lab.path("other.db")
    expect("records that the backup lacks", before != earlier, True)
    with tempfile.TemporaryDirectory() as it.aside:
        for call, what, (status, output, faults) in failing(it, "backup", "--db", lab.db, "--to", to):
            if status == 0:
                expect(f"the line of the {what}", (call, output.partition(":")[0], faults), ("unlink", "backed up", ""))
            else:
                expect(f"the fault of the {what}", (status, output, faults), (1, "", "fault: unavailable\n"))
            expect(f"whether the {what} is there", os.path.exists(to) or status == 1, True)
            if os.path.exists(to):
                expect(f"whether the records are in the {what}", records(to) == before, True)
            expect(f"whether the records are in the database after the {what}", records(lab.db) == before, True)
        os.remove(to)
        ends = set()
        for call, what, (status, output, faults) in failing(it, "restore", "--from", lab.path("backup.db"), "--db", lab.db):
            found = records(lab.db)
            kept = [records(lab.path(name)) for name in os.listdir(lab.folder) if "-replaced-" in name]
            ends.add((status, found == earlier, len(kept)))
            if status == 0:
                expect(f"the line of the {what}", (call, output.partition("\n")[0], faults), ("unlink", "restored", ""))
            else:
                expect(f"the fault of the {what}", (status, output, faults), (1, "", "fault: unavailable\n"))
            expect(f"whether the database after the {what} is one of the two", found in (before, earlier), True)
            expect(f"whether what the {what} keeps is whole", all(it == before for it in kept), True)
            expect(f"whether the records of before are there after the {what}", found == before or len(kept) == 1, True)
            expect(f"whether a {what} that is done replaced the database", found == earlier or status == 1, True)
            expect(f"whether the backup is as it was after the {what}", records(lab.path("backup.db")) == earlier, True)
        expect("whether a failing call left the database, and one behind the rename didn't", {(1, False, 0), (1, True, 1)} <= ends, True)
        expect("whether the last restore is done", records(lab.db) == earlier, True)


def main():
    program, library, failing_library = map(os.path.abspath, sys.argv[1:])
    for part in (copies, texts, replies, emptied_meanwhile, each_call_fails):
        with tempfile.TemporaryDirectory() as folder:
            it = Traced(program, folder, library)
            it.failing = failing_library
            try:
                part(it)
            finally:
                it.lab.kill()
        print(f"{part.__name__.replace('_', ' ')}: done", flush=True)
    print(f"{laboratory.checked} comparisons")


main()

"""The files of keys and of secrets that the program makes.

    keys-and-secrets.py PROGRAM"""
import contextlib
import hashlib
import os
import re
import resource
import shutil
import signal
import socket
import sqlite3
import stat
import subprocess
import sys
import tempfile
import time

from laboratory import KEY, Laboratory, expect, fingerprint, free_port, within_a_step
import laboratory
import page_sums

NOBODY = 65534
IS_ROOT = os.geteuid() == 0
DIGITS = "[0-9a-f]{64}"
THERE = "it is there, or a -wal file or a journal of its name"


def text_of(path):
    with open(path) as file:
        return file.read()


def lines_of(path):
    return text_of(path).splitlines()


def made(lab, name, *args):
    """A command makes a new file, for its owner alone, and says so. It gives the lines."""
    path = lab.path(name)
    before = os.umask(0)
    try:
        lab.does(f"made {path}", *args, path)
    finally:
        os.umask(before)
    expect(f"who may do what with {name}", stat.S_IMODE(os.stat(path).st_mode), 0o600)
    return lines_of(path)


def changes(lab, change, old, new):
    """A keys file is made of another's lines, which stay as they are. It gives the lines."""
    before = text_of(lab.path(old))
    lines = made(lab, new, "keys", change, lab.path(old), "--to")
    expect(f"{old} behind {change}", text_of(lab.path(old)), before)
    return lines


def refused(lab, word, cause, *args):
    """A command is refused, makes nothing and changes nothing, and says why with --verbose."""
    before = {name: text_of(lab.path(name)) for name in os.listdir(lab.folder) if os.path.isfile(lab.path(name)) and name.endswith(".txt")}
    names = sorted(os.listdir(lab.folder))
    lab.fails(word, *args)
    told = f"fault: {word}\n" + (f"because: {cause}\n" if cause else "")
    expect(f"why {args} is refused", lab.run(*args, "--verbose"), (1, "", told))
    expect(f"the files behind {args}", sorted(os.listdir(lab.folder)), names)
    for name, text in before.items():
        expect(f"{name} behind {args}", text_of(lab.path(name)), text)


def new_files(lab):
    """New keys and secrets are drawn anew each time, and no file is written over."""
    seen = set()
    for number in range(8):
        keys = made(lab, f"keys-{number}.txt", "keys", "--new")
        expect("the lines of new keys", [bool(re.fullmatch(form + DIGITS, line)) for form, line in zip(("token ", "seed "), keys)], [True, True])
        secret = made(lab, f"secret-{number}.txt", "secret", "--new")
        expect("the line of a secret", [bool(re.fullmatch(DIGITS, line)) for line in secret], [True])
        for digits in (keys[0][6:], keys[1][5:], secret[0]):
            seen |= {digits[:32], digits[32:]}
    expect("how many of the halves of what was drawn are others", len(seen), 48)
    for args in (["keys", "--new"], ["secret", "--new"], ["keys", "--add-token", lab.path("keys-0.txt"), "--to"]):
        refused(lab, "taken", f"{args[-1]}: {THERE}", *args, lab.path("keys-0.txt"))
    os.symlink(lab.path("nowhere.txt"), lab.path("link"))
    for name in ("link", "."):
        refused(lab, "taken", f"--new: {THERE}", "keys", "--new", lab.path(name))
    missing = "it can't be opened: No such file or directory (os error 2)"
    refused(lab, "unavailable", f"--new: {missing}", "secret", "--new", lab.path("no/secret.txt"))
    refused(lab, "unavailable", f"--to: {missing}", "keys", "--add-seed", lab.path("keys-0.txt"), "--to", lab.path("no/keys.txt"))
    # no name of a file that lies beside a database, or of a copy that the next command takes away
    for end in ("-wal", "-shm", "-journal", "-orders"):
        refused(lab, "unavailable", "--new: its name is that of a file beside a database (-wal, -shm, -journal, -orders)", "keys", "--new",
                lab.path("other.db" + end))
    for word in ("-part-", "-look-"):
        left = "--new: it is a copy that a killed command may have left: copy it to another name, if it is whole"
        refused(lab, "unavailable", left, "secret", "--new", lab.db + word + "1795862400123456789")


def changed_files(lab):
    """Each change of a keys file of either form: the lines of the old one, and the change."""
    old = lines_of(lab.keys)
    token, seed = "token " + old[0], "seed " + old[1]
    lines = changes(lab, "--add-token", "keys.txt", "a.txt")
    expect("a key more", (len(lines), lines[0], lines[2], lines[1] != token), (3, token, seed, True))
    more = changes(lab, "--add-seed", "a.txt", "b.txt")
    expect("a seed more", (more[:3], len(more), more[3] != seed), (lines, 4, True))
    less = changes(lab, "--retire", "b.txt", "c.txt")
    expect("a key less", less, ["token -"] + more[1:])
    refused(lab, "keys", "--retire: its last key can't be retired: add one first", "keys", "--retire", lab.path("c.txt"), "--to", lab.path("d.txt"))
    expect("the older form, with a change", changes(lab, "--add-seed", "keys.txt", "e.txt")[:2], [token, seed])
    # the second of three keys is the oldest that isn't retired
    lab.write(lab.path("f.txt"), f"token -\n{token}\n{token}\n{seed}\n")
    expect("the second key retired", changes(lab, "--retire", "f.txt", "g.txt"), ["token -", "token -", token, seed])


def most_lines(lab):
    """Up to 16 keys and 16 seeds are added, one at a time; the next is refused."""
    for change, kind in (("--add-token", "token "), ("--add-seed", "seed ")):
        old = "keys.txt"
        for number in range(2, 17):
            new = f"{kind.strip()}-{number}.txt"
            lines = changes(lab, change, old, new)
            expect("how many there are", sum(line.startswith(kind) for line in lines), number)
            old = new
        refused(lab, "keys", f"{change}: it has 16 lines of that kind, the most there may be", "keys", change, lab.path(old), "--to", lab.path("more.txt"))


def refused_keys(lab):
    """What is no keys file, isn't there or is another user's is refused, by the option that names it."""
    line = "0" * 64 + "\n"
    texts = [("it has 3 lines, and is to have 2", line * 3), ("line 2 is a key behind a seed", "seed " + line + "token " + line),
             ("its last line ends without a line feed", line + line[:-1])]
    for change in ("--add-token", "--retire", "--add-seed"):
        for cause, text in texts:
            bad = lab.write(lab.path("bad.txt"), text)
            refused(lab, "keys", f"{change}: {cause}", "keys", change, bad, "--to", lab.path("new.txt"))
        refused(lab, "keys", f"{change}: there is no such file", "keys", change, lab.path("none.txt"), "--to", lab.path("new.txt"))
        if IS_ROOT:
            other = lab.write(lab.path("other.txt"), line * 2)
            os.chown(other, NOBODY, NOBODY)
            refused(lab, "keys", f"{change}: it belongs to user {NOBODY}, not to root, the database's owner or the user of the command", "keys", change, other, "--to",
                    lab.path("new.txt"))


def texts_of_pipes(lab):
    """What a pipe gives is read once: a command that refuses it ends, and tells no cause."""
    pipe = lab.path("pipe")
    os.mkfifo(pipe)
    for word, args in (("keys", ["keys", "--add-seed", pipe, "--to", lab.path("new.txt")]), ("keys", ["script", "--keys", pipe]),
                       ("secret", ["account-add", "--db", lab.db, "--account", "1", "--secret", pipe])):
        running = subprocess.Popen([lab.program, *args, "--verbose"], stdin=subprocess.DEVNULL, stdout=subprocess.PIPE, stderr=subprocess.PIPE)
        with open(pipe, "w") as writing:
            writing.write("no key\n")
        output, faults = running.communicate(timeout=600)
        told = [line for line in faults.decode().splitlines() if not line.startswith("warning: ")]
        expect(f"the command {args} over a pipe", (running.returncode, output, told), (1, b"", [f"fault: {word}"]))


def killed_writes(lab):
    """What a limit on the size of files stops leaves nothing under the name, and the command is repeated."""
    lines = "".join(f"token {'0' * 64}\n" for _ in range(2)) + "".join(f"seed {'0' * 64}\n" for _ in range(15))
    old = lab.write(lab.path("old.txt"), "token -\n" * 14 + lines)
    for limit in (0, 1024):
        done = subprocess.run([lab.program, "keys", "--add-seed", old, "--to", lab.path("new.txt")], capture_output=True,
                              preexec_fn=lambda limit=limit: resource.setrlimit(resource.RLIMIT_FSIZE, (limit, limit)))
        expect(f"a limit of {limit} bytes", (done.returncode, done.stdout), (-signal.SIGXFSZ, b""))
        expect("the file that wasn't made", os.path.lexists(lab.path("new.txt")), False)
    expect("the same without a limit", len(changes(lab, "--add-seed", "old.txt", "new.txt")), 32)
    expect("what is left", sorted(name for name in os.listdir(lab.folder) if "-part-" in name), [])
    # one that was killed between the two names of its file: the command is repeated, and the file is there
    before, second = text_of(lab.path("new.txt")), lab.path("new.txt-part-1795862400123456789")
    os.link(lab.path("new.txt"), second)
    for command in (["keys", "--new"], ["secret", "--new"], ["keys", "--retire", old, "--to"]):
        lab.fails("taken", *command, lab.path("new.txt"))
        expect(f"the second name behind {command}", os.path.lexists(second), False)
        expect(f"the file behind {command}", (text_of(lab.path("new.txt")), os.stat(lab.path("new.txt")).st_nlink), (before, 1))
        os.link(lab.path("new.txt"), second)
    lab.fails("taken", "secret", "--new", lab.path("new.txt"))


def command_lines(lab):
    """A command line that asks for no one thing is refused with status 2, and makes nothing."""
    old, new = lab.keys, lab.path("new.txt")
    lines = [["keys"], ["keys", "--to", new], ["keys", "--new", new, "--to", new], ["keys", "--add-token", old], ["keys", "--retire", old],
             ["keys", "--add-seed", old], ["keys", "--new", new, "--add-token", old], ["secret"], ["secret", "--new", new, "--to", new],
             ["keys", "--add-token", old, "--add-seed", old, "--to", new], ["keys", "--retire", old, "--add-token", old, "--to", new],
             ["keys", "--new", new, "--retire", old, "--to", new], ["keys", "--add-token", old, "--add-token", old, "--to", new]]
    before = sorted(os.listdir(lab.folder))
    for args in lines:
        status, output, _ = lab.run(*args)
        expect(f"the command {args}", (status, output), (2, ""))
        expect(f"the files behind {args}", sorted(os.listdir(lab.folder)), before)


def served(lab):
    """A laboratory from nothing by these commands alone: tokens live on under a key more, and end once theirs is retired."""
    os.remove(lab.keys)
    made(lab, "keys.txt", "keys", "--new")
    secret = made(lab, "secret-7.txt", "secret", "--new")[0]
    lab.secret = lambda account: bytes.fromhex(secret)
    lab.does("account 7 added", "account-add", "--db", lab.db, "--account", "7", "--secret", lab.path("secret-7.txt"))
    lab.serve(count=None)
    within_a_step(5)
    token = lab.token(7)
    lab.must("POST", "/testSessions", token, {"algorithms": [{"algorithm": "SHA2-256", "revision": "1.0", "messageLength": [8]}]})
    lab.kill()
    changes(lab, "--add-token", "keys.txt", "keys-2.txt")
    changes(lab, "--add-seed", "keys-2.txt", "keys-3.txt")
    changes(lab, "--retire", "keys-3.txt", "keys-4.txt")
    for name, status in (("keys-2.txt", 200), ("keys-3.txt", 200), ("keys-4.txt", 401)):
        lab.serve(count=None, keys=lab.path(name))
        expect(f"a token of the first key under {name}", lab.call("GET", "/account", token)[0], status)
        lab.kill()
        expect(f"check under {name}", lab.run("check", "--db", lab.db, "--keys", lab.path(name)),
               (0, "whole: accounts 1 sessions 1 sets 1 requests 0\n", ""))


def known(lab, path=None):
    """What a database knows of seeds, as SQLite reads it from a copy of the file and its log."""
    path = path or lab.db
    with tempfile.TemporaryDirectory() as folder:
        copy = os.path.join(folder, "copy.db")
        for end in ("", "-wal"):
            if os.path.exists(path + end):
                shutil.copy(path + end, copy + end)
        with contextlib.closing(sqlite3.connect(copy)) as connection:
            return connection.execute("SELECT name, value FROM meta WHERE name <> 'schema' ORDER BY name").fetchall()


def content(lab):
    """The digest of a database, how long its log is, and what it knows of seeds. An open renews the header of a log."""
    with open(lab.db, "rb") as file:
        digest = hashlib.sha256(file.read()).hexdigest()
    return digest, os.path.exists(lab.db + "-wal") and os.path.getsize(lab.db + "-wal"), known(lab)


def keys_of(lab, name, *seeds):
    """A keys file with one token key and these seeds."""
    return lab.write(lab.path(name), f"token {KEY.hex()}\n" + "".join(f"seed {seed.hex()}\n" for seed in seeds))


def serves_once(lab, keys):
    lab.serve(count=1, keys=keys)
    with lab.connect():
        pass
    lab.served(1)


def older_is_refused(lab, keys, lacked):
    """A keys file that lacks a seed with which the database was served isn't served again, since new vector sets would come
    from an older seed. What is shown under it is shown."""
    before = content(lab)
    refused(lab, "keys", f"--keys: it lacks seed {lacked}, which the database was served with", "serve", "--db", lab.db, "--keys", keys,
            "--port", str(free_port()), "--count", "1")
    expect("the database behind it", content(lab), before)
    lab.does("whole: accounts 1 sessions 0 sets 0 requests 0", "check", "--db", lab.db, "--keys", keys)


def seeds_of_another(lab):
    """A database knows the seeds that it was served with, and refuses others at their places, with nothing changed."""
    first, second, third = (bytes([number] * 32) for number in (1, 2, 3))
    rows = [(f"seed {place}", fingerprint(seed)) for place, seed in ((1, first), (2, second))]
    one, two = keys_of(lab, "one.txt", first), keys_of(lab, "two.txt", first, second)
    wrong = [(keys_of(lab, "other.txt", second), 1), (keys_of(lab, "swapped.txt", second, first), 1)]
    lab.add(7)
    expect("what is known before it was served", known(lab), [])
    serves_once(lab, one)
    expect("what is known of one seed", known(lab), rows[:1])
    serves_once(lab, two)
    expect("what is known of two", known(lab), rows)
    older_is_refused(lab, one, 2)
    wrong += [(keys_of(lab, "later.txt", first, third), 2), (keys_of(lab, "more.txt", first, third, second), 2)]
    lab.backs_up()
    for restored in (False, True):
        if restored:
            lab.restores()
        before = content(lab)
        for keys, place in wrong:
            cause = f"--keys: its seed {place} is another than the one that the database was served with"
            for args in (["serve", "--port", str(free_port()), "--count", "1"], ["check"], ["request-show", "--request", "7000001"],
                         ["certificate", "--request", "7000001"]):
                refused(lab, "keys", cause, args[0], "--db", lab.db, "--keys", keys, *args[1:])
                expect(f"the database behind {args[0]}", content(lab), before)
        lab.does("whole: accounts 1 sessions 0 sets 0 requests 0", "check", "--db", lab.db, "--keys", two)
        older_is_refused(lab, one, 2)
        serves_once(lab, two)
    # a file that knows none is served, and knows them from then on
    with contextlib.closing(page_sums.connect(lab.db)) as connection:
        connection.execute("DELETE FROM meta WHERE name <> 'schema'")
        connection.commit()
    serves_once(lab, wrong[0][0])
    expect("what is known then", known(lab), [("seed 1", fingerprint(second))])
    # as OPERATING has it, it may forget them
    with contextlib.closing(sqlite3.connect(lab.db)) as connection:
        connection.execute("DELETE FROM meta WHERE name LIKE 'seed %'")
        connection.commit()
    page_sums.renew(lab.db)
    serves_once(lab, two)
    expect("what is known at last", known(lab), rows)
    # as many seeds as there may be
    seeds = [first, second, *(bytes([number] * 32) for number in range(3, 17))]
    serves_once(lab, keys_of(lab, "sixteen.txt", *seeds))
    for count in (15, 1):
        older_is_refused(lab, keys_of(lab, f"{count}.txt", *seeds[:count]), count + 1)
    # of one that it lacks further behind, and of none that no file can have
    with contextlib.closing(page_sums.connect(lab.db)) as connection, connection:
        connection.execute("DELETE FROM meta WHERE name IN ('seed 2', 'seed 3', 'seed 15', 'seed 16')")
        connection.execute("INSERT INTO meta VALUES ('seed 17', 5)")
    older_is_refused(lab, lab.path("1.txt"), 4)
    serves_once(lab, keys_of(lab, "14.txt", *seeds[:14]))
    serves_once(lab, lab.path("sixteen.txt"))


def seeds_of_no_start(lab):
    """A start that serves nothing, since its port is taken or a seed is missing, has a database know no seed."""
    first, second = (bytes([number] * 32) for number in (1, 2))
    one, two, other = keys_of(lab, "one.txt", first), keys_of(lab, "two.txt", first, second), keys_of(lab, "other.txt", second)
    with socket.socket() as taken:
        taken.bind(("127.0.0.1", 0))
        taken.listen()
        lab.fails("bind", "serve", "--db", lab.db, "--keys", other, "--port", str(taken.getsockname()[1]), "--count", "1")
    expect("what is known behind a port that is taken", known(lab), [])
    start = ["serve", "--db", lab.db, "--keys", other, "--port", str(free_port()), "--count", "1"]
    for what in ("full", "closed"):
        with open("/dev/full", "wb") as full:
            closed = {"preexec_fn": lambda: os.close(1)} if what == "closed" else {"stdout": full}
            done = subprocess.run([lab.program, *start], stdin=subprocess.DEVNULL, stderr=subprocess.PIPE, timeout=600, **closed)
        expect(f"a start whose output is {what}", (done.returncode, done.stderr), (1, b"fault: write\n"))
        expect(f"what is known behind an output that is {what}", known(lab), [])
    serves_once(lab, one)
    expect("what is known of one seed", known(lab), [("seed 1", fingerprint(first))])
    lab.add(7)
    lab.serve(count=None, keys=two)
    within_a_step(5)
    lab.must("POST", "/testSessions", lab.token(7), {"algorithms": [{"algorithm": "SHA2-256", "revision": "1.0", "messageLength": [8]}]})
    lab.kill()
    lab.backs_up("forgetful.db")
    lab.db = lab.path("forgetful.db")
    with contextlib.closing(page_sums.connect(lab.db)) as connection:
        connection.execute("DELETE FROM meta WHERE name <> 'schema'")
        connection.commit()
    start = ["serve", "--db", lab.db, "--keys", other, "--port", str(free_port()), "--count", "1"]
    lab.fails("keys", *start)
    expect("why it is refused", lab.run(*start, "--verbose"), (1, "", "fault: keys\nbecause: --keys: a vector set names a seed that isn't in it\n"))
    expect("what is known behind keys without its seed", known(lab), [])
    serves_once(lab, two)
    expect("what is known of both", known(lab), [("seed 1", fingerprint(first)), ("seed 2", fingerprint(second))])


def commits_of(log):
    """How many transactions a log holds: the frames that tell how many pages the database has then."""
    with open(log, "rb") as file:
        text = file.read()
    size = int.from_bytes(text[8:12], "big")
    frames = range(32, len(text), 24 + size) if len(text) > 32 else ()
    return sum(1 for frame in frames if text[frame + 4:frame + 8] != bytes(4))


def seeds_at_once(lab):
    """The seeds that are new to a database become known in one transaction, beside those that it knows. A start that serves
    nothing takes these away, and none that was known before."""
    seeds = [bytes([number] * 32) for number in (1, 2, 3)]
    keys, there = keys_of(lab, "three.txt", *seeds), ("seed 2", fingerprint(seeds[1]))
    with contextlib.closing(page_sums.connect(lab.db)) as connection, connection:
        connection.execute("INSERT INTO meta VALUES (?, ?)", there)
    with socket.socket() as taken:
        taken.bind(("127.0.0.1", 0))
        taken.listen()
        lab.fails("bind", "serve", "--db", lab.db, "--keys", keys, "--port", str(taken.getsockname()[1]), "--count", "1")
    expect("what is known behind a port that is taken", known(lab), [there])
    lab.serve(count=None, keys=keys)
    expect("how many transactions made them known", commits_of(lab.db + "-wal"), 1)
    lab.kill()
    wanted = [(f"seed {place}", fingerprint(seed)) for place, seed in enumerate(seeds, 1)]
    expect("what is known then", known(lab), wanted)


def full_disk(lab):
    """Where there is no room, nothing is left of the file, and the cause is a full disk; of a database, too, while it is
    served and while it isn't."""
    folder = lab.path("full")
    os.mkdir(folder)
    if not IS_ROOT or subprocess.run(["mount", "-t", "tmpfs", "-o", "size=1m,mode=700", "tmpfs", folder], capture_output=True).returncode:
        print("skipped: a full disk, for which this user can't mount a file system")
        return
    full = Laboratory(lab.program, folder)
    try:
        rest, secret = os.path.join(folder, "rest"), lab.path("secret-of-a-full-disk.txt")
        made(lab, os.path.basename(secret), "secret", "--new")
        lab.does("ready", "init", "--db", full.db)
        full.serve(count=None)
        with contextlib.suppress(OSError):
            with open(rest, "wb", buffering=0) as file:
                while True:
                    file.write(bytes(4096))
        orders = [["account-add", "--db", full.db, "--account", str(number), "--secret", secret] for number in range(1, 100)]
        # the log may have some room left
        order = next(order for order in orders if lab.run(*order)[0])
        new, other = os.path.join(folder, "new-keys.txt"), os.path.join(folder, "other.db")
        names = sorted(os.listdir(folder))
        for option, command in (("--db", order), ("--new", ["keys", "--new", new]), ("--to", ["backup", "--db", lab.db, "--to", other]),
                                ("--db", ["restore", "--from", lab.db, "--db", other])):
            lab.fails("unavailable", *command)
            expect(f"why {command[0]} is refused on a full disk", lab.run(*command, "--verbose"),
                   (1, "", f"fault: unavailable\nbecause: {option}: its disk is full\n"))
        full.kill()
        expect("an order that nobody serves", lab.run(*order, "--verbose"),
               (1, "", "fault: unavailable\nbecause: --db: its disk is full\n"))
        expect("what is left on a full disk", sorted(os.listdir(folder)), names)
        expect("a database for which there is no room", lab.run("init", "--db", other, "--verbose"),
               (1, "", "fault: unavailable\nbecause: --db: its disk is full\n"))
        os.remove(rest)
        lab.does(f"account {order[4]} added", *order)
        lab.does("ready", "init", "--db", other)
    finally:
        full.kill()
        subprocess.run(["umount", folder], check=True)


def foreign_folders(lab):
    """A folder that is reached by a link of another user isn't taken."""
    if not IS_ROOT:
        print("skipped: links of other users, which root alone can make")
        return
    shared, target = lab.path("shared"), lab.path("target")
    os.mkdir(shared)
    os.chmod(shared, 0o1777)
    os.mkdir(target)
    os.symlink(target, os.path.join(shared, "way"))
    os.lchown(os.path.join(shared, "way"), NOBODY, NOBODY)
    cause = f"--new: its path goes by a link of user {NOBODY}, not of root, the owner of the link's folder or the user of the command"
    refused(lab, "unavailable", cause, "keys", "--new", os.path.join(shared, "way", "keys.txt"))
    expect("what is made behind the link", os.listdir(target), [])


def main():
    program = os.path.abspath(sys.argv[1])
    os.umask(0o077)
    began = time.time()
    for part in (new_files, changed_files, most_lines, refused_keys, texts_of_pipes, killed_writes, command_lines,
                 served, seeds_of_another, seeds_of_no_start, seeds_at_once, full_disk, foreign_folders):
        with tempfile.TemporaryDirectory() as folder:
            lab = Laboratory(program, folder)
            lab.does("ready", "init", "--db", lab.db)
            try:
                part(lab)
            finally:
                lab.kill()
        print(f"{part.__name__.replace('_', ' ')}: done after {time.time() - began:.0f} s", flush=True)
    print(f"{laboratory.checked} comparisons")


main()

"""A database under other names, and its files in a folder that others can write.

    names-and-owners-of-files.py PROGRAM SLOW_LOCK NO_LINKS LOST_FILE

The last three are libraries that are preloaded into the program: the first holds it up before it locks a file, the second
lets it make no second name, and the third fails one of its opens of a file."""
import contextlib
import fcntl
import itertools
import os
import shutil
import signal
import socket
import sqlite3
import stat
import subprocess
import sys
import tempfile
import time

from laboratory import Laboratory, expect, free_port, rows_of, rows_with_log
import laboratory

NOBODY = 65534
OTHERS = 60
IS_ROOT = os.geteuid() == 0


def mode(path):
    return stat.S_IMODE(os.stat(path).st_mode)


def bytes_of(path):
    with open(path, "rb") as file:
        return file.read()


def account_lines(lab, path):
    status, output, faults = lab.run("accounts", "--db", path)
    expect(f"the command accounts over {path}", (status, faults), (0, ""))
    return [line.split()[0] for line in output.splitlines()]


def refused(lab, cause, *args, word="unavailable"):
    """A command is refused, changes nothing, and says why with --verbose."""
    lab.fails(word, *args)
    status, output, faults = lab.run(*args, "--verbose")
    told = [line for line in faults.splitlines() if not line.startswith("warning: ")]
    expect(f"why {args} is refused", (status, output, told), (1, "", [f"fault: {word}", f"because: {cause}"]))


def commands_over(lab, path):
    """Each command that takes a database that is there, beside serve."""
    return [["migrate", "--db", path], ["account-disable", "--db", path, "--account", "9"],
            ["account-add", "--db", path, "--account", "8", "--secret", lab.path("secret-1")],
            ["request-approve", "--db", path, "--request", "1000001"], ["request-reject", "--db", path, "--request", "1000001"],
            ["restore", "--from", lab.path("kept.db"), "--db", path]]


def looks_over(lab, path):
    """Each command that reads a database, whoever has it."""
    return [["accounts", "--db", path], ["requests", "--db", path, "--all"],
            ["request-show", "--db", path, "--keys", lab.keys, "--request", "1000001"],
            ["certificate", "--db", path, "--keys", lab.keys, "--request", "1000001"],
            ["check", "--db", path, "--keys", lab.keys], ["backup", "--db", path, "--to", lab.path("none.db")]]


def elsewhere(script, lab, *args):
    """Runs the program with mounts of its own, which a script has made before."""
    ran = subprocess.run(["unshare", "--mount", "sh", "-c", f'{script} && exec "$@"', "sh", lab.program, *args],
                         stdin=subprocess.DEVNULL, capture_output=True, text=True, timeout=600)
    return ran.returncode, ran.stdout, ran.stderr


def may_mount():
    return IS_ROOT and subprocess.run(["unshare", "--mount", "mount", "-t", "tmpfs", "none", "/mnt"], capture_output=True).returncode == 0


def serving(lab, path, keys=None):
    return ["serve", "--db", path, "--keys", keys or lab.keys, "--port", str(free_port()), "--count", "1"]


# ---- names


def links(lab):
    """A link to a database is that database to each command: what is acknowledged is there, and the link stays."""
    link, far = lab.path("link.db"), lab.path("far.db")
    os.symlink("laboratory.db", link)
    os.symlink(link, far)
    lab.add(1)
    lab.backs_up("kept.db")
    lab.serve(count=None)
    for number in range(2, 22):
        lab.add(number)
        for name in (link, far):
            lab.backs_up(f"by-link-{number}-{os.path.basename(name)}", name)
            expect(f"the accounts of a backup by {name}", account_lines(lab, lab.path(f"by-link-{number}-{os.path.basename(name)}"))[-1],
                   str(number))
    everyone = [str(number) for number in range(1, 22)]
    for name in (link, far):
        expect(f"the accounts by {name}", account_lines(lab, name), everyone)
        status, output, faults = lab.run("check", "--db", name, "--keys", lab.keys)
        expect(f"a check by {name}", (status, output.split(" sessions")[0], faults), (0, "whole: accounts 21", ""))
        lab.does("account 20 disabled", "account-disable", "--db", name, "--account", "20")
        lab.fails("unavailable", "restore", "--from", lab.path("kept.db"), "--db", name)
    lab.kill()
    expect("the accounts behind the kill, by a link", account_lines(lab, link), everyone)
    lab.puts_back("kept.db", far)
    expect("the links", [os.readlink(link), os.readlink(far)], ["laboratory.db", link])
    expect("what was restored by a link", (account_lines(lab, lab.db), account_lines(lab, far)), (["1"], ["1"]))
    # a backup that is named by a link, and a server that is
    os.symlink("kept.db", lab.path("kept-link.db"))
    lab.puts_back("kept-link.db")
    lab.db = link
    lab.serve(count=None)
    lab.add(2)
    lab.db = lab.path("laboratory.db")
    lab.add(3)
    expect("what beside the file is named by", sorted(name for name in os.listdir(lab.folder) if name.startswith(("link", "far"))),
           ["far.db", "link.db"])
    lab.kill()
    expect("the accounts of a file that was served by a link", account_lines(lab, lab.db), ["1", "2", "3"])
    # a link that leads nowhere
    nowhere = lab.path("nowhere.db")
    os.symlink("not-there.db", nowhere)
    for command in [*commands_over(lab, nowhere), *looks_over(lab, nowhere), serving(lab, nowhere), ["init", "--db", nowhere]]:
        refused(lab, "--db: it is a link that leads to no file", *command)
    expect("what a link that leads nowhere leads to", os.path.lexists(lab.path("not-there.db")), False)


def hard_links(lab):
    """A file of two names is refused by either, by each command."""
    lab.add(1)
    lab.backs_up("kept.db")
    other = lab.path("other.db")
    os.link(lab.db, other)
    before = bytes_of(lab.db)
    for path in (lab.db, other):
        for command in commands_over(lab, path) + looks_over(lab, path) + [["init", "--db", path], serving(lab, path)]:
            refused(lab, "--db: it has 2 names (hard links), and may have one", *command)
    refused(lab, "--from: it has 2 names (hard links), and may have one", "restore", "--from", other, "--db", lab.path("new.db"))
    expect("a file of two names", bytes_of(lab.db), before)
    os.remove(other)
    expect("the file of one name again", account_lines(lab, lab.db), ["1"])


def mounts(lab):
    """A file that is mounted by itself has no log beside it, and is refused."""
    lab.add(1)
    lab.backs_up("kept.db")
    mounted = lab.write(lab.path("a mounted.db"), "")
    if not IS_ROOT or subprocess.run(["mount", "--bind", lab.db, mounted], capture_output=True).returncode != 0:
        print("skipped: a file that is mounted by itself (the system lets nobody mount it here)")
        return
    try:
        lab.serve(count=None)
        lab.add(2)
        why = "it is mounted by itself: name it where its log (-wal) is beside it"
        for is_served in (True, False):
            for command in commands_over(lab, mounted) + looks_over(lab, mounted) + [["init", "--db", mounted], serving(lab, mounted)]:
                refused(lab, f"--db: {why}", *command)
            refused(lab, f"--from: {why}", "restore", "--from", mounted, "--db", lab.path("new.db"))
            expect("what is beside a mounted file", os.path.exists(mounted + "-wal"), False)
            if is_served:
                lab.kill()
    finally:
        subprocess.run(["umount", mounted], check=True)


def moved_while_serving(lab):
    """A file that was moved away from its log while it is served is copied by no command."""
    lab.add(1)
    lab.backs_up("kept.db")
    lab.serve(count=None)
    lab.add(2)
    moved = lab.path("moved.db")
    os.rename(lab.db, moved)
    for command in looks_over(lab, moved):
        refused(lab, "--db: another process has it or the log beside it (-wal), not both: it was moved, or is served by another name",
                *command)
    # nothing is put beside the log that a server has, and no other file is read with it
    lab.fails("unavailable", "restore", "--from", lab.path("kept.db"), "--db", lab.db)
    lab.fails("taken", "backup", "--db", lab.path("kept.db"), "--to", lab.db)
    expect("a name whose log is held", os.path.exists(lab.db), False)
    shutil.copy(lab.path("kept.db"), lab.db)
    for command in looks_over(lab, lab.db):
        lab.fails("unavailable", *command)
    os.remove(lab.db)
    os.rename(moved, lab.db)
    expect("the accounts with the log again", account_lines(lab, lab.db), ["1", "2"])
    lab.kill()


def without_proc(lab):
    """A command that can't read /proc refuses all the same what was moved from its log, and what another user made."""
    lab.add(1)
    lab.backs_up("kept.db")
    if not may_mount():
        print("skipped: a system without /proc (it lets nobody mount here)")
        return
    no_proc = "mount -t tmpfs none /proc"
    hidden = "mount --bind /dev/null /proc/locks"
    expect("an order without /proc", elsewhere(no_proc, lab, "account-disable", "--db", lab.db, "--account", "1"),
           (0, "account 1 disabled\n", ""))
    lab.serve(count=None)
    lab.add(2)
    expect("a backup without /proc", elsewhere(no_proc, lab, "backup", "--db", lab.db, "--to", lab.path("b.db"))[0], 0)
    expect("its accounts", account_lines(lab, lab.path("b.db")), ["1", "2"])
    moved = lab.path("moved.db")
    os.rename(lab.db, moved)
    for script in (no_proc, hidden):
        for command in looks_over(lab, moved):
            expect(f"the command {command[0]} over a moved file, behind {script}", elsewhere(script, lab, *command),
                   (1, "", "fault: unavailable\n"))
    os.rename(moved, lab.db)
    lab.kill()
    for path in (lab.db + "-wal", lab.keys):
        os.chown(path, NOBODY, NOBODY)
    expect("a log of another user, without /proc", elsewhere(no_proc, lab, "accounts", "--db", lab.db), (1, "", "fault: unavailable\n"))
    expect("keys of another user, without /proc", elsewhere(no_proc, lab, "script", "--keys", lab.keys), (1, "", "fault: keys\n"))
    for path in (lab.db + "-wal", lab.keys):
        os.chown(path, 0, 0)
    mounted = lab.write(lab.path("mounted.db"), "")
    for command in commands_over(lab, mounted) + looks_over(lab, mounted):
        expect(f"the command {command[0]} over a file that is mounted by itself, without /proc",
               elsewhere(f"mount --bind '{lab.db}' '{mounted}' && {no_proc}", lab, *command), (1, "", "fault: unavailable\n"))
    # also if the names are had that it tries for a second one
    for number in range(10):
        lab.write(lab.path(f"mounted.db-part-{10 ** 18 + number}"), "")
        expect(f"a file that is mounted by itself, without /proc, beside {number + 1} others",
               elsewhere(f"mount --bind '{lab.db}' '{mounted}' && {no_proc}", lab, "account-disable", "--db", mounted, "--account", "1"),
               (1, "", "fault: unavailable\n"))
    expect("the accounts where the log is", account_lines(lab, lab.db), ["1", "2"])


def same_numbers(lab):
    """Files of one number on two file systems in memory are told apart: while one is served, the other is backed up."""
    one, other = lab.path("one"), lab.path("other")
    os.mkdir(one)
    os.mkdir(other)
    if not IS_ROOT or any(subprocess.run(["mount", "-t", "tmpfs", "none", folder], capture_output=True).returncode for folder in (one, other)):
        print("skipped: two file systems in memory (the system lets nobody mount here)")
        return
    own = lab.db
    try:
        numbers = []
        for folder in (one, other):
            lab.db = os.path.join(folder, "laboratory.db")
            lab.does("ready", "init", "--db", lab.db)
            lab.add(1)
            numbers.append(os.stat(lab.db).st_ino)
        expect("the numbers of the files", numbers[0], numbers[1])
        lab.serve(count=None)
        idle = os.path.join(one, "laboratory.db")
        expect("the accounts of the idle file", account_lines(lab, idle), ["1"])
        lab.backs_up("of-idle.db", idle)
        lab.add(2)
        expect("the accounts of the served file", account_lines(lab, lab.db), ["1", "2"])
        lab.kill()
    finally:
        lab.kill()
        lab.db = own
        for folder in (one, other):
            subprocess.run(["umount", folder], check=True)


def names_of_neighbours(lab):
    """No command makes or takes a database by a name of what lies beside one."""
    lab.add(1)
    lab.backs_up("kept.db")
    why = "its name is that of a file beside a database (-wal, -shm, -journal, -orders)"
    for end in ("-wal", "-shm", "-journal", "-orders"):
        path = lab.path("other.db" + end)
        refused(lab, f"--db: {why}", "init", "--db", path)
        refused(lab, f"--to: {why}", "backup", "--db", lab.db, "--to", path)
        refused(lab, f"--db: {why}", "restore", "--from", lab.path("kept.db"), "--db", path)
        expect(f"a file of the name {path}", os.path.lexists(path), False)
        shutil.copy(lab.path("kept.db"), path)
        for command in commands_over(lab, path) + looks_over(lab, path) + [serving(lab, path)]:
            refused(lab, f"--db: {why}", *command)
        refused(lab, f"--from: {why}", "restore", "--from", path, "--db", lab.db)
        expect("what it holds", bytes_of(path), bytes_of(lab.path("kept.db")))
    copy = lab.path("other.db-part-1795862400123456789")
    left = "it is a copy that a killed command may have left: copy it to another name, if it is whole"
    refused(lab, f"--to: {left}", "backup", "--db", lab.db, "--to", copy)
    refused(lab, f"--db: {left}", "restore", "--from", lab.path("kept.db"), "--db", copy)
    lab.fails("unavailable", "init", "--db", copy)
    expect("a file of a copy's name", os.path.lexists(copy), False)
    expect("the accounts", account_lines(lab, lab.db), ["1"])


def second_names(lab):
    """The second name that a killed command has left of a file whose copy it made is taken away by the next command;
    while somebody makes the copy, it stays."""
    lab.add(1)
    lab.backs_up("kept.db")
    kept, part = lab.path("kept.db"), lab.path("laboratory.db-part-1795862400123456789")
    os.link(kept, part)
    lab.puts_back("kept.db")
    expect("the names of a backup that was restored", (os.path.lexists(part), os.stat(kept).st_nlink), (False, 1))
    for command in (["accounts", "--db", lab.db], ["backup", "--db", lab.db, "--to", lab.path("b.db")],
                    ["check", "--db", lab.db, "--keys", lab.keys], ["migrate", "--db", lab.db],
                    ["account-disable", "--db", lab.db, "--account", "1"]):
        os.link(lab.db, part)
        os.link(kept, part[:-1] + "8")
        expect(f"the command {command[0]} over a file of two names", lab.run(*command)[::2], (0, ""))
        expect(f"its names behind {command[0]}", os.stat(lab.db).st_nlink, 1)
        if command[0] in ("migrate", "account-disable"):
            expect("a second name of another file", os.path.lexists(part[:-1] + "8"), True)
        if os.path.exists(part[:-1] + "8"):
            os.remove(part[:-1] + "8")
    os.link(lab.db, part)
    lab.serve(count=None)
    expect("the names of a file that is served", os.stat(lab.db).st_nlink, 1)
    lab.kill()
    os.link(lab.db, part)
    with open(part, "rb") as making:
        fcntl.flock(making, fcntl.LOCK_EX)
        refused(lab, "--db: it has 2 names (hard links), and may have one", "account-disable", "--db", lab.db, "--account", "1")
        lab.fails("unavailable", "accounts", "--db", lab.db)
        expect("a copy that is being made", os.path.lexists(part), True)
    expect("the accounts behind it", account_lines(lab, lab.db), ["1"])
    lab.does("account 1 disabled", "account-disable", "--db", lab.db, "--account", "1")
    # so is a third name, and one of the log
    lab.does("ready", "init", "--db", lab.path("new.db"))
    for end in ("", "-wal"):
        for last in "89":
            os.link(lab.path("new.db") + end, lab.path("new.db") + end + part[-25:-1] + last)
    lab.does("schema 3", "migrate", "--db", lab.path("new.db"))
    expect("the names of a file and its log", sorted(name for name in os.listdir(lab.folder) if name.startswith("new.db")), ["new.db", "new.db-wal"])
    # the name that a restore has given to what it keeps is another's: who links it to the file is refused
    keeps = lab.db + "-replaced-1795862400123456789"
    os.link(lab.db, keeps)
    refused(lab, "--db: it has 2 names (hard links), and may have one", "migrate", "--db", lab.db)
    expect("the other name", os.path.lexists(keeps), True)
    os.remove(keeps)


def blamed(lab):
    """A cause names the option whose file it is of, also behind the first step of a copy."""
    lab.add(1)
    lab.backs_up("kept.db")
    damaged = lab.path("damaged.db")
    whole = bytes_of(lab.path("kept.db"))
    lab.write(damaged, whole[:-40] + bytes(byte ^ 255 for byte in whole[-40:]))
    page = ("nothing of it can be read: another program made or changed it, a row breaks its table's rules (a type, a reference), "
            "or a page is damaged; restore the last backup that check calls whole")
    refused(lab, f"--db: {page}", "backup", "--db", damaged, "--to", lab.path("b.db"))
    refused(lab, f"--from: {page}", "restore", "--from", damaged, "--db", lab.db)
    refused(lab, "--db: the copy is whole, and can't be put there", "restore", "--from", lab.path("kept.db"), "--db", damaged)
    missing = "it can't be opened: No such file or directory (os error 2)"
    refused(lab, f"--to: {missing}", "backup", "--db", lab.db, "--to", lab.path("no/b.db"))
    refused(lab, f"--db: {missing}", "restore", "--from", lab.path("kept.db"), "--db", lab.path("no/b.db"))
    left = lab.path("laboratory.db-part-1790000000000000000")
    shutil.copy(lab.path("kept.db"), left)
    refused(lab, "--from: it is a copy that a killed command may have left: copy it to another name, if it is whole",
            "restore", "--from", left, "--db", lab.db)
    expect("the accounts", account_lines(lab, lab.db), ["1"])


def empty_files(lab):
    """An empty file has no tables: but for init, no command writes into it."""
    lab.add(1)
    lab.backs_up("kept.db")
    empty = lab.write(lab.path("empty.db"), "")
    for command in commands_over(lab, empty)[:-1] + [serving(lab, empty)]:
        lab.fails("schema", *command)
        expect(f"an empty file behind {command[0]}", (bytes_of(empty), os.path.exists(empty + "-wal")), (b"", False))
    lab.does("ready", "init", "--db", empty)


def journals(lab):
    """Beside a journal that sqlite3 has to settle no command takes the file as it is."""
    lab.add(1)
    lab.backs_up("kept.db")
    lab.write(lab.db + "-journal", b"\xd9\xd5\x05\xf9 the rest of a journal")
    for command in commands_over(lab, lab.db) + looks_over(lab, lab.db) + [["init", "--db", lab.db], serving(lab, lab.db)]:
        refused(lab, "--db: a journal is beside it (-journal): another program was stopped while it wrote to it", *command)
    os.rename(lab.db + "-journal", lab.path("kept.db-journal"))
    refused(lab, "--from: a journal is beside it (-journal): another program was stopped while it wrote to it",
            "restore", "--from", lab.path("kept.db"), "--db", lab.db)
    expect("the accounts without the journal", account_lines(lab, lab.db), ["1"])


def left_beside(lab):
    """Beside a log that holds something or that a process has, or a journal, no other file gets the name. What a killed
    command has left of a copy isn't restored, and stays."""
    lab.add(1)
    lab.backs_up("kept.db")
    lab.serve(count=None)
    lab.add(2)
    lab.kill()
    away, log = lab.path("away.db"), lab.db + "-wal"
    os.rename(lab.db, away)
    before = bytes_of(log)
    lab.fails("unavailable", "init", "--db", lab.db)
    lab.fails("unavailable", *serving(lab, lab.db))
    lab.fails("unavailable", "restore", "--from", lab.path("kept.db"), "--db", lab.db)
    lab.fails("taken", "backup", "--db", lab.path("kept.db"), "--to", lab.db)
    expect("a log without its file", (bytes_of(log), os.path.exists(lab.db)), (before, False))
    os.rename(away, lab.db)
    expect("the accounts with their log", account_lines(lab, lab.db), ["1", "2"])
    new = lab.path("new.db")
    with open(new + "-wal", "w") as held:
        fcntl.lockf(held, fcntl.LOCK_EX, 512, 1 << 30)
        refused(lab, "--db: there is no such file, but its log (-wal) holds records, or a process has it", "init", "--db", new)
        lab.fails("unavailable", "restore", "--from", lab.path("kept.db"), "--db", new)
    expect("a name whose log a process had", (os.path.exists(new), bytes_of(new + "-wal")), (False, b""))
    os.remove(new + "-wal")
    journal = lab.write(new + "-journal", b"\xd9\xd5\x05\xf9 the rest of a journal")
    lab.fails("unavailable", "restore", "--from", lab.path("kept.db"), "--db", new)
    lab.fails("taken", "backup", "--db", lab.db, "--to", new)
    expect("a name beside a journal", (os.path.exists(new), os.path.exists(journal)), (False, True))
    left = lab.db + "-part-1790000000000000000"
    shutil.copy(lab.path("kept.db"), left)
    lab.fails("unavailable", "restore", "--from", left, "--db", lab.db)
    expect("what was left of a copy", bytes_of(left), bytes_of(lab.path("kept.db")))
    expect("the accounts behind it", account_lines(lab, lab.db), ["1", "2"])


def renamed_meanwhile(lab, slow_lock):
    """While a restore has its copy ready, another file gets the copy's name: it keeps its owner, its rights and its
    bytes, and the database stays."""
    lab.add(1)
    lab.backs_up("kept.db")
    lab.add(2)
    victim = lab.write(lab.path("victim"), "for root alone")
    os.chmod(victim, 0o600)
    if IS_ROOT:
        for path in (lab.db, lab.db + "-wal"):
            os.chown(path, NOBODY, NOBODY)
        os.chown(lab.folder, NOBODY, NOBODY)
    os.chmod(lab.db, 0o640)
    before, gate = os.stat(victim), lab.path("gate")
    slow = subprocess.Popen([lab.program, "restore", "--from", lab.path("kept.db"), "--db", lab.db],
                            env={**os.environ, "LD_PRELOAD": slow_lock, "LOCK_GATE": gate, "LOCK_TURN": "3"},
                            stdin=subprocess.DEVNULL, stdout=subprocess.PIPE, stderr=subprocess.PIPE, text=True)
    while not os.path.exists(gate):
        expect("a restore that waits for its lock runs", slow.poll(), None)
        time.sleep(0.01)
    copy, = (lab.path(name) for name in os.listdir(lab.folder) if "-part-" in name and not name.endswith("-wal"))
    os.rename(copy, lab.path("stolen"))
    os.symlink(victim, copy)
    os.remove(gate)
    expect("a restore whose copy was renamed", (*slow.communicate(timeout=600), slow.returncode), ("", "fault: unavailable\n", 1))
    after = os.stat(victim)
    expect("whose the other file is", (after.st_uid, after.st_gid, after.st_mode), (before.st_uid, before.st_gid, before.st_mode))
    expect("what it holds", bytes_of(victim), b"for root alone")
    expect("the database behind it", (os.path.islink(lab.db), account_lines(lab, lab.db)), (False, ["1", "2"]))


def restore_beside_a_start(lab, slow_lock):
    """Between a command's look at the name and its lock a restore puts another file there: the command gives up, and
    what is restored stays."""
    lab.add(1)
    lab.backs_up("kept.db")
    for number, command in enumerate([serving(lab, lab.db), ["account-add", "--db", lab.db, "--account", "7", "--secret", lab.path("secret-1")],
                                      ["account-disable", "--db", lab.db, "--account", "1"], ["migrate", "--db", lab.db]]):
        lab.add(2 + number)
        gate = lab.path("gate")
        slow = subprocess.Popen([lab.program, *command], env={**os.environ, "LD_PRELOAD": slow_lock, "LOCK_GATE": gate},
                                stdin=subprocess.DEVNULL, stdout=subprocess.PIPE, stderr=subprocess.PIPE, text=True)
        while not os.path.exists(gate):
            expect("a command that waits for its lock runs", slow.poll(), None)
            time.sleep(0.01)
        lab.puts_back("kept.db")
        os.remove(gate)
        expect(f"the command {command[0]} that has lost the race", (*slow.communicate(timeout=600), slow.returncode),
               ("", "fault: unavailable\n", 1))
        expect(f"the accounts behind {command[0]}", account_lines(lab, lab.db), ["1"])
        lab.does("schema 3", "migrate", "--db", lab.db)


# ---- owners


def of_another(user):
    """Why what belongs to a user isn't taken."""
    return f"it belongs to user {user}, not to root, the database's owner or the user of the command"


def foreign_neighbours(lab):
    """A log or a socket that another user has made beforehand isn't taken, nor one that gives others more than the
    database does. Nothing is written into it."""
    lab.add(1)
    lab.backs_up("kept.db")
    log, orders = lab.db + "-wal", lab.db + "-orders"
    everything = [["init", "--db", lab.db], serving(lab, lab.db)] + commands_over(lab, lab.db) + looks_over(lab, lab.db)
    for rights in (0o666, 0o640, 0o602):
        os.remove(log)
        lab.write(log, "")
        os.chmod(log, rights)
        for command in everything:
            refused(lab, "--db, its log (-wal): others may read or write it, who may not with the database", *command)
        expect("a log that others may use", (bytes_of(log), mode(log)), (b"", rights))
    os.remove(log)
    os.mkdir(log)
    for command in everything:
        refused(lab, "--db, its log (-wal): it is no regular file", *command)
    os.rmdir(log)
    if not IS_ROOT:
        print("skipped: files of another user (only root may make them)")
        return
    lab.write(log, "")
    os.chown(log, NOBODY, NOBODY)
    for command in everything:
        refused(lab, f"--db, its log (-wal): {of_another(NOBODY)}", *command)
    expect("a log of another user", (bytes_of(log), os.stat(log).st_uid), (b"", NOBODY))
    # beside a file that isn't there yet
    new = lab.path("new.db")
    shutil.move(log, new + "-wal")
    lab.fails("unavailable", "init", "--db", new)
    expect("a log of another user beside a new file", bytes_of(new + "-wal"), b"")
    os.remove(new + "-wal")
    with socket.socket(socket.AF_UNIX) as listener:
        listener.bind(orders)
        listener.listen()
        os.chown(orders, NOBODY, NOBODY)
        for command in everything:
            refused(lab, f"--db, its socket (-orders): {of_another(NOBODY)}", *command)
        listener.setblocking(False)
        with contextlib.suppress(BlockingIOError):
            listener.accept()
            raise SystemExit("a command has called a socket of another user")
    os.remove(orders)
    expect("the accounts without them", account_lines(lab, lab.db), ["1"])


def foreign_texts(lab):
    """Keys and secrets of another user aren't taken; those of the database's owner, of the command's user and of root
    are."""
    if not IS_ROOT:
        print("skipped: keys of another user (only root may make them)")
        return
    lab.add(1)
    keys = lab.write(lab.path("other-keys"), bytes_of(lab.keys))
    secret = lab.write(lab.path("other-secret"), bytes_of(lab.path("secret-1")))
    os.chmod(lab.folder, 0o777)
    for path in (keys, secret):
        os.chown(path, NOBODY, NOBODY)
    link = lab.path("link.db")
    os.symlink(lab.db, link)
    why = of_another(NOBODY)
    numbered = ["--db", lab.db, "--keys", keys, "--request", "1000001"]
    for command in (["script", "--keys", keys], serving(lab, lab.db, keys), serving(lab, link, keys),
                    ["check", "--db", lab.db, "--keys", keys], ["check", "--db", link, "--keys", keys],
                    ["request-show", *numbered], ["certificate", *numbered]):
        status, output, faults = lab.run(*command)
        expect(f"the command {command[0]} with keys of another user", (status, output, faults), (1, "", "fault: keys\n"))
        expect(f"why {command[0]} is refused", lab.run(*command, "--verbose")[2].splitlines()[-1], f"because: --keys: {why}")
    command = ["account-add", "--db", lab.db, "--account", "2", "--secret", secret]
    lab.fails("secret", *command)
    expect("why a secret is refused", lab.run(*command, "--verbose")[2].splitlines()[-1], f"because: --secret: {why}")
    # a pipe of another user isn't waited for
    pipe = lab.path("pipe")
    os.mkfifo(pipe)
    os.chown(pipe, NOBODY, NOBODY)
    lab.fails("keys", "script", "--keys", pipe)
    # that user's own are taken by itself, and root's by all
    own = {"user": NOBODY, "group": NOBODY}
    expect("a script with keys of one's own", lab.run("script", "--keys", keys, **own), (0, "", ""))
    os.chmod(lab.keys, 0o644)
    expect("a script with keys of root", lab.run("script", "--keys", lab.keys, **own), (0, "", ""))
    # those of the database's owner by root too, through a link as well; a script has no database
    for path in (lab.db, lab.db + "-wal", lab.folder):
        os.chown(path, NOBODY, NOBODY)
    for number, path in (("2", lab.db), ("3", link)):
        expect("a check with keys of the database's owner", lab.run("check", "--db", path, "--keys", keys)[::2], (0, ""))
        lab.does(f"account {number} added", "account-add", "--db", path, "--account", number, "--secret", secret)
        expect("a request that isn't there", lab.run("request-show", "--db", path, "--keys", keys, "--request", "1000001"),
               (1, "", "fault: unknown\n"))
    lab.serve(keys=keys)
    lab.kill()
    lab.fails("keys", "script", "--keys", keys)


def planted(lab):
    """A database that another user has made beforehand isn't opened, nor one by a link that another user has made. The
    owner of the folder isn't another."""
    if not IS_ROOT:
        print("skipped: a database of another user (only root may make one)")
        return
    lab.add(1)
    lab.backs_up("kept.db")
    new = lab.write(lab.path("new.db"), "")
    os.chown(new, NOBODY, NOBODY)
    why = (f"--db: it belongs to user {NOBODY}, not to root, its folder's owner or the user of the command, "
           "and others can make files there")
    os.chmod(lab.folder, 0o777)
    refused(lab, why, "init", "--db", new)
    expect("an empty file of another user", (bytes_of(new), os.path.exists(new + "-wal")), (b"", False))
    for path in (lab.db, lab.db + "-wal"):
        os.chown(path, NOBODY, NOBODY)
    before = bytes_of(lab.db)
    for command in commands_over(lab, lab.db) + [["init", "--db", lab.db], serving(lab, lab.db)]:
        refused(lab, why, *command)
    expect("a database of another user", (bytes_of(lab.db), os.stat(lab.db).st_uid), (before, NOBODY))
    # it may be read
    expect("the accounts of another user's database", account_lines(lab, lab.db), ["1"])
    lab.backs_up("of-another.db")
    # where nobody else makes files, and in that user's own folder, it is opened
    os.chmod(lab.folder, 0o755)
    lab.does("account 1 disabled", "account-disable", "--db", lab.db, "--account", "1")
    os.chmod(lab.folder, 0o777)
    os.chown(lab.folder, NOBODY, NOBODY)
    lab.does("account 1 disabled", "account-disable", "--db", lab.db, "--account", "1")
    for path in (lab.folder, lab.db, lab.db + "-wal"):
        os.chown(path, 0, 0)
    link = lab.path("link.db")
    os.symlink(lab.db, link)
    os.chown(link, NOBODY, NOBODY, follow_symlinks=False)
    why = f"its path goes by a link of user {NOBODY}, not of root, the owner of the link's folder or the user of the command"
    far = lab.path("far.db")
    os.symlink("link.db", far)
    for name in (link, far):
        for command in commands_over(lab, name) + looks_over(lab, name) + [["init", "--db", name], serving(lab, name)]:
            refused(lab, f"--db: {why}", *command)
        refused(lab, f"--from: {why}", "restore", "--from", name, "--db", lab.db)
    # so is one among the folders of a path, also behind a link of root
    folder, behind = lab.path("folder"), lab.path("behind.db")
    os.symlink(lab.folder, folder)
    os.symlink("folder/laboratory.db", behind)
    for name in (os.path.join(folder, "laboratory.db"), behind):
        expect("the accounts by a folder's link of root", account_lines(lab, name), ["1"])
    # a link of another user behind one of root on the same path is refused, and one in that user's own folder isn't
    refused(lab, f"--db: {why}", "migrate", "--db", os.path.join(folder, "link.db"))
    theirs = lab.path("theirs")
    os.mkdir(theirs)
    os.symlink(lab.db, os.path.join(theirs, "link.db"))
    os.chown(theirs, NOBODY, NOBODY)
    os.chown(os.path.join(theirs, "link.db"), NOBODY, NOBODY, follow_symlinks=False)
    expect("the accounts by a link of the owner of its folder", account_lines(lab, os.path.join(theirs, "link.db")), ["1"])
    os.chown(folder, NOBODY, NOBODY, follow_symlinks=False)
    for name in (os.path.join(folder, "laboratory.db"), behind):
        for command in commands_over(lab, name) + looks_over(lab, name) + [["init", "--db", name], serving(lab, name)]:
            refused(lab, f"--db: {why}", *command)
    refused(lab, f"--db: {why}", "init", "--db", os.path.join(folder, "fresh.db"))
    refused(lab, f"--to: {why}", "backup", "--db", lab.db, "--to", os.path.join(folder, "none.db"))
    lab.fails("keys", *serving(lab, lab.db, os.path.join(folder, os.path.basename(lab.keys))))
    expect("what is made by a folder's link", [os.path.lexists(lab.path(name)) for name in ("fresh.db", "none.db")], [False, False])
    # it is refused too if it leads to that user's own file
    own = lab.path("own")
    os.mkdir(own)
    os.chown(own, NOBODY, NOBODY)
    evil = os.path.join(own, "laboratory.db")
    shutil.copy(lab.path("kept.db"), evil)
    os.chown(evil, NOBODY, NOBODY)
    os.remove(link)
    os.symlink(evil, link)
    os.chown(link, NOBODY, NOBODY, follow_symlinks=False)
    for command in (["restore", "--from", lab.path("kept.db"), "--db", link], ["init", "--db", link], ["accounts", "--db", link]):
        refused(lab, f"--db: {why}", *command)
    expect("what another user's link leads to", (bytes_of(evil), os.stat(evil).st_uid), (bytes_of(lab.path("kept.db")), NOBODY))
    expect("the accounts behind the link", account_lines(lab, lab.db), ["1"])
    keys = lab.path("link-to-keys")
    os.symlink(lab.keys, keys)
    os.chown(keys, NOBODY, NOBODY, follow_symlinks=False)
    for command in (["script", "--keys", keys], serving(lab, lab.db, keys), ["check", "--db", lab.db, "--keys", keys]):
        lab.fails("keys", *command)
        expect(f"why {command[0]} is refused", lab.run(*command, "--verbose")[2].splitlines()[-1], f"because: --keys: {why}")


def kept_owner(lab):
    """A restore keeps the owner, the group and the mode of what it replaces."""
    lab.add(1)
    lab.backs_up("kept.db")
    owners = [(os.geteuid(), os.getegid(), 0o640), (os.geteuid(), os.getegid(), 0o600)]
    if IS_ROOT:
        owners += [(NOBODY, NOBODY, 0o640), (NOBODY, 0, 0o600), (0, NOBODY, 0o660)]
    else:
        print("skipped: a restore over another user's file (only root may make one)")
    for owner, group, rights in owners:
        os.chown(lab.folder, owner, group)
        for path in (lab.db, lab.db + "-wal"):
            if os.path.exists(path):
                os.chown(path, owner, group)
                os.chmod(path, rights)
        lab.puts_back("kept.db")
        there = os.stat(lab.db)
        expect("whose a restored file is", (there.st_uid, there.st_gid, stat.S_IMODE(there.st_mode)), (owner, group, rights))
        lab.does("schema 3", "migrate", "--db", lab.db)
        there = os.stat(lab.db + "-wal")
        expect("whose its new log is", (there.st_uid, there.st_gid, stat.S_IMODE(there.st_mode)), (owner, group, rights))


# ---- copies


def without_links(lab, no_links):
    """On a file system without second names a backup is whole all the same, and no file is written over."""
    lab.add(1)
    for number in (1, 95, 38):
        os.environ.update({"LD_PRELOAD": no_links, "NO_LINKS": str(number)})
        try:
            lab.backs_up(f"without-{number}.db")
            lab.fails("taken", "backup", "--db", lab.db, "--to", lab.path(f"without-{number}.db"))
            lab.puts_back(f"without-{number}.db", lab.path(f"new-{number}.db"))
        finally:
            del os.environ["LD_PRELOAD"], os.environ["NO_LINKS"]
        expect("its accounts", account_lines(lab, lab.path(f"without-{number}.db")), ["1"])
        expect("its mode", mode(lab.path(f"without-{number}.db")), 0o600)
        os.environ.update({"LD_PRELOAD": no_links, "NO_LINKS": str(number)})
        try:
            kept = lab.restores(f"without-{number}.db")
        finally:
            del os.environ["LD_PRELOAD"], os.environ["NO_LINKS"]
        expect("the accounts of what was replaced", account_lines(lab, kept), ["1"])
        os.remove(kept)
    expect("what is left of copies", copies(lab), [])


def lost_each_time(lab, lost_file, *args):
    """Runs a command again and again; each time the database isn't there at another of the moments at which the command opens it."""
    mark = lab.path("mark")
    for place in itertools.count():
        environment = {**os.environ, "LD_PRELOAD": lost_file, "LOST_FILE": lab.db, "LOST_PLACE": str(place), "LOST_MARK": mark}
        done = lab.run(*args, env=environment)
        if not os.path.exists(mark):
            expect(f"whether {args[0]} opens the database", place > 0, True)
            return
        os.remove(mark)
        yield done


def lost_meanwhile(lab, lost_file):
    """If the database isn't there at a moment, and is back at the next, its records are copied, or the command is unavailable."""
    lab.add(1)
    lab.backs_up()
    rows, to = rows_of(lab.path("backup.db")), lab.path("other.db")
    for status, output, faults in lost_each_time(lab, lost_file, "backup", "--db", lab.db, "--to", to):
        if status == 0:
            expect("a backup", (output, faults, rows_of(to)), (f"backed up: {rows} rows\n", "", rows))
            os.remove(to)
        else:
            expect("no backup", (status, output, faults, os.path.exists(to)), (1, "", "fault: unavailable\n", False))
    for status, output, faults in lost_each_time(lab, lost_file, "restore", "--from", lab.path("backup.db"), "--db", lab.db):
        if status == 0:
            kept = output.splitlines()[2].removeprefix("what was there is kept: ")
            expect("what a restore keeps", rows_with_log(kept), rows)
            os.remove(kept)
        else:
            expect("no restore", (status, output, faults), (1, "", "fault: unavailable\n"))
        expect("the rows of the database", rows_with_log(lab.db), rows)
        expect("what is kept", [name for name in os.listdir(lab.folder) if "-replaced-" in name], [])


def copies(lab):
    return sorted(name for name in os.listdir(lab.folder) if "-part-" in name or "-look-" in name)


def left_copies(lab, slow_lock):
    """What a killed command has left of its copy, the next one takes away; what somebody makes stays, and so does what
    no command has made."""
    lab.add(1)
    lab.backs_up("kept.db")
    others = ["laboratory.db-part-12", "laboratory.db-look-", "other.db-part-1795862400123456789",
              "laboratory.db-part-1795862400123456789-old", "laboratory.db-part-17958624001234567890"]
    for name in others:
        lab.write(lab.path(name), "what somebody keeps")
    left = ["laboratory.db-part-1795862400123456789", "laboratory.db-part-1795862400123456789-wal",
            "laboratory.db-look-1795862400123456788", "laboratory.db-look-1795862400123456787-wal"]
    commands = [["backup", "--db", lab.db, "--to", lab.path("a.db")], ["restore", "--from", lab.path("kept.db"), "--db", lab.db],
                ["accounts", "--db", lab.db], ["requests", "--db", lab.db], ["check", "--db", lab.db, "--keys", lab.keys]]
    for command in commands:
        for name in left:
            lab.write(lab.path(name), "what a killed command has left")
        os.mkfifo(lab.path("laboratory.db-look-1795862400123456786"))
        expect(f"the command {command[0]}", lab.run(*command)[0], 0)
        os.remove(lab.path("laboratory.db-look-1795862400123456786"))
        expect(f"the copies that {command[0]} leaves", [name for name in copies(lab) if name not in others], [])
    expect("the files of other names", [bytes_of(lab.path(name)) for name in others], [b"what somebody keeps"] * len(others))
    # one that is being made: its maker waits before it locks what it has copied
    gate = lab.path("gate")
    making = subprocess.Popen([lab.program, "backup", "--db", lab.db, "--to", lab.path("slow.db")], stdin=subprocess.DEVNULL,
                              stdout=subprocess.PIPE, stderr=subprocess.PIPE, env={**os.environ, "LD_PRELOAD": slow_lock, "LOCK_GATE": gate})
    while not os.path.exists(gate):
        expect("a command that waits at its gate runs", making.poll(), None)
        time.sleep(0.01)
    made = [name for name in copies(lab) if name not in others]
    expect("a copy that is being made", len(made), 2)
    for command in (["accounts", "--db", lab.db], ["backup", "--db", lab.db, "--to", lab.path("b.db")]):
        expect(f"the command {command[0]} beside it", lab.run(*command)[0], 0)
        expect(f"the copy that is being made, behind {command[0]}", [name for name in copies(lab) if name not in others], made)
    os.remove(gate)
    expect("the backup that was made beside others", (making.communicate(timeout=600)[1], making.returncode), (b"", 0))
    expect("its rows", rows_of(lab.path("slow.db")), rows_of(lab.path("b.db")))
    # one whose maker is killed
    making = subprocess.Popen([lab.program, "backup", "--db", lab.db, "--to", lab.path("killed.db")], stdin=subprocess.DEVNULL,
                              stdout=subprocess.PIPE, stderr=subprocess.PIPE, env={**os.environ, "LD_PRELOAD": slow_lock, "LOCK_GATE": gate})
    while not os.path.exists(gate):
        expect("a command that waits at its gate runs", making.poll(), None)
        time.sleep(0.01)
    making.send_signal(signal.SIGKILL)
    making.communicate()
    os.remove(gate)
    expect("what a killed backup leaves", len([name for name in copies(lab) if name not in others]), 2)
    lab.backs_up("another-day.db")
    expect("what is left behind a backup to another name", [name for name in copies(lab) if name not in others], [])


def locked_while_taken_away(lab, slow_lock):
    """Who takes a left copy away has it locked until its name is gone. So a command that has just made it, and hasn't
    locked it yet, doesn't lock what is about to go."""
    lab.add(1)
    gate, copy = lab.path("gate"), lab.path("laboratory.db-part-1795862400123456789")

    def makes_half():
        lab.write(copy, "what a killed command has left")

    def makes_second_name():
        os.link(lab.db, copy)

    order = ["account-disable", "--db", lab.db, "--account", "9"]
    for make, command, end in ((makes_half, ["backup", "--db", lab.db, "--to", lab.path("beside.db")], (b"", 0)),
                               (makes_second_name, order, (b"fault: unknown\n", 1))):
        make()
        taking = subprocess.Popen([lab.program, *command], stdin=subprocess.DEVNULL, stdout=subprocess.PIPE, stderr=subprocess.PIPE,
                                  env={**os.environ, "LD_PRELOAD": slow_lock, "REMOVE_GATE": gate})
        while not os.path.exists(gate):
            expect("a command that waits at its gate runs", taking.poll(), None)
            time.sleep(0.01)
        with open(copy, "rb") as file:
            expect(f"{command[0]} has the copy locked that it takes away", is_locked(file), True)
            os.remove(gate)
            expect(f"the end of {command[0]}", (taking.communicate(timeout=600)[1], taking.returncode), end)
            expect(f"the copies that {command[0]} leaves", copies(lab), [])
            expect(f"nobody has what {command[0]} took away", is_locked(file), False)


def begun_anew(lab, slow_lock):
    """A command whose new copy another one takes away, or has locked to take it away, makes another copy."""
    lab.add(1)
    making_gate, opening_gate, taking_gate = lab.path("making"), lab.path("opening"), lab.path("taking")

    def waits_at(running, gate):
        while not os.path.exists(gate):
            expect("a command that waits at its gate runs", running.poll(), None)
            time.sleep(0.01)

    def held_up(gate, variable, *command, **more):
        running = subprocess.Popen([lab.program, *command], stdin=subprocess.DEVNULL, stdout=subprocess.PIPE, stderr=subprocess.PIPE,
                                   env={**os.environ, "LD_PRELOAD": slow_lock, variable: gate, **more})
        waits_at(running, gate)
        return running

    def goes_on(running, gate):
        os.remove(gate)
        output, faults = running.communicate(timeout=600)
        expect("the faults and the status of one that was held up", (faults, running.returncode), (b"", 0))

    accounts = ["accounts", "--db", lab.db]
    making = held_up(making_gate, "FLOCK_GATE", "backup", "--db", lab.db, "--to", lab.path("a.db"))
    expect("a copy that isn't locked yet", len(copies(lab)), 1)
    expect("accounts beside it", lab.run(*accounts)[0], 0)
    expect("the copy behind accounts", copies(lab), [])
    goes_on(making, making_gate)
    making = held_up(making_gate, "FLOCK_GATE", "backup", "--db", lab.db, "--to", lab.path("b.db"))
    taking = held_up(taking_gate, "REMOVE_GATE", *accounts)
    goes_on(making, making_gate)
    goes_on(taking, taking_gate)
    # the same, and the name that was looked at is taken away once the copy is made
    making = held_up(making_gate, "FLOCK_GATE", "backup", "--db", lab.db, "--to", lab.path("c.db"), LOCK_GATE=opening_gate)
    taking = held_up(taking_gate, "REMOVE_GATE", *accounts)
    os.remove(making_gate)
    waits_at(making, opening_gate)
    goes_on(taking, taking_gate)
    goes_on(making, opening_gate)
    expect("the copies that are left", copies(lab), [])
    for name in ("a.db", "b.db", "c.db"):
        expect(f"the rows of {name}", rows_of(lab.path(name)), rows_of(lab.db))


def is_locked(file):
    """Whether somebody has an open file locked (flock(2)). A lock that is had is let go."""
    try:
        fcntl.flock(file, fcntl.LOCK_EX | fcntl.LOCK_NB)
    except BlockingIOError:
        return True
    fcntl.flock(file, fcntl.LOCK_UN)
    return False


# ---- a table of locks that changes


LOCKER = """
import fcntl, struct, sys, time
files = [open(f"{sys.argv[1]}-{number}", "w") for number in range(40)]
def lock(file, kind):
    fcntl.fcntl(file, 37, struct.pack("hhqqi4x", kind, 0, 1 << 30, 510, 0))  # F_OFD_SETLK
while True:
    for file in files:
        lock(file, fcntl.F_WRLCK)
    for file in files:
        lock(file, fcntl.F_UNLCK)
"""


def other_locks(lab):
    """Beside processes that take and give up locks all the time, a served database isn't taken for one that was moved from
    its log: its server carries orders out, and a backup is made."""
    lab.add(1)
    lab.serve(count=None)
    lockers = [subprocess.Popen([sys.executable, "-c", LOCKER, lab.path(f"other-{number}")]) for number in range(3)]
    try:
        for _ in range(OTHERS):
            expect("an order beside other locks", lab.run("account-disable", "--db", lab.db, "--account", "9"), (1, "", "fault: unknown\n"))
            expect("accounts beside other locks", account_lines(lab, lab.db), ["1"])
    finally:
        for locker in lockers:
            locker.kill()
            locker.wait()


def main():
    program, slow_lock, no_links, lost_file = (os.path.abspath(path) for path in sys.argv[1:])
    os.umask(0o077)
    began = time.time()
    parts = [(links,), (hard_links,), (mounts,), (moved_while_serving,), (journals,), (restore_beside_a_start, slow_lock),
             (foreign_neighbours,), (foreign_texts,), (kept_owner,), (without_links, no_links), (lost_meanwhile, lost_file),
             (left_copies, slow_lock)]
    parts += [(left_beside,), (renamed_meanwhile, slow_lock), (planted,), (without_proc,), (same_numbers,), (names_of_neighbours,),
              (second_names,), (blamed,), (empty_files,), (locked_while_taken_away, slow_lock), (begun_anew, slow_lock),
              (other_locks,)]
    for part, *more in parts:
        with tempfile.TemporaryDirectory() as folder:
            lab = Laboratory(program, folder)
            lab.does("ready", "init", "--db", lab.db)
            try:
                part(lab, *more)
            finally:
                lab.kill()
        print(f"{part.__name__.replace('_', ' ')}: done after {time.time() - began:.0f} s", flush=True)
    print(f"{laboratory.checked} comparisons")


main()

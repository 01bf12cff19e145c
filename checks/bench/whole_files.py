#!/usr/bin/env python3
"""Times `check` over files with 20000 and 200000 test sessions, half of them answered, and measures its memory.

    ./bench --whole-files
    whole_files.py PROGRAM

The sessions have one vector set each, of SHA2-256 without a Monte Carlo test, and are of 20 accounts, or all of one. The
answers lack every test, so the standard answers are made as they are for others. It is no part of the gate."""
import os
import sqlite3
import subprocess
import sys
import tempfile
import time

import page_sums
from laboratory import Laboratory, expect

FILES = ((20000, 20), (20000, 1), (200000, 1))
CAPABILITY = {"algorithm": "SHA2-256", "messageLength": [8], "revision": "1.0"}


def graded(lab):
    """What the file keeps of a vector set whose answers lack every test, and what it keeps of one without answers."""
    lab.does("ready", "init", "--db", lab.db)
    lab.add(1)
    lab.serve()
    token = lab.token(1)
    made = lab.must("POST", "/testSessions", token, {"algorithms": [CAPABILITY]})
    path = made["vectorSetUrls"][0][len("/acvp/v1"):]
    lab.must("POST", path + "/results", made["accessToken"], {"testGroups": [], "vsId": int(path.split("/")[-1])})
    lab.kill()
    connection = sqlite3.connect(lab.db)
    capability, *answered = connection.execute("SELECT capability, answers, verdicts, disposition FROM vset2").fetchone()
    connection.close()
    return capability, answered


def file_of(lab, sessions, accounts, capability, answered):
    """A file with so many sessions of so many accounts."""
    path = lab.path(f"{sessions}-of-{accounts}.db")
    lab.does("ready", "init", "--db", path)
    moment, each = int(time.time()) - 60, sessions // accounts
    connection = page_sums.connect(path)
    for account in range(1, accounts + 1):
        connection.execute("INSERT INTO account VALUES (?, ?, 1, NULL)", (account, os.urandom(32)))
        numbers = range(account * 1000000 + 1, account * 1000000 + each + 1)
        connection.executemany("INSERT INTO session VALUES (?, ?, 0, ?, 0, NULL, 1, 0)",
                               [(number, account, moment) for number in numbers])
        connection.executemany("INSERT INTO vset2 VALUES (?, ?, ?, 0, ?, ?, ?, 0)",
                               [(number * 100 + 1, number, capability, *(answered if number % 2 else (None,) * 3))
                                for number in numbers])
    connection.commit()
    connection.close()
    return path


def main():
    with tempfile.TemporaryDirectory() as folder:
        lab = Laboratory(os.path.abspath(sys.argv[1]), folder)
        try:
            capability, answered = graded(lab)
            for sessions, accounts in FILES:
                path = file_of(lab, sessions, accounts, capability, answered)
                line = f"whole: accounts {accounts} sessions {sessions} sets {sessions} requests 0\n"
                for grades in ("no", "yes"):
                    began = time.time()
                    args = [lab.program, "check", "--db", path, "--keys", lab.keys, "--grades", grades]
                    with subprocess.Popen(args, stdout=subprocess.PIPE, stderr=subprocess.PIPE, text=True) as process:
                        told = process.stdout.read()
                        _, status, used = os.wait4(process.pid, 0)
                        process.returncode = os.waitstatus_to_exitcode(status)
                    expect("what check tells", told, line)
                    spent, size = time.time() - began, os.path.getsize(path) / 1e6
                    print(f"{sessions} sessions of {accounts} accounts, {size:.0f} MB, grades {grades}: {spent:.1f} s, "
                          f"{used.ru_maxrss / 1000:.0f} MB of memory", flush=True)
        finally:
            lab.kill()


main()

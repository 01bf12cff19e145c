#!/usr/bin/env python3
"""Serves a file in which an account has 999998 test sessions, written by SQLite: the next one gets the last number, and
the one behind it is refused as `accountFull`, unless its body is refused first. Lists and counts reach the last rows.

    full-account.py PROGRAM"""
import os
import sys
import tempfile
import time

import laboratory
import page_sums
from laboratory import Laboratory, compact, expect

MOST = 999999
FIRST, LAST = 7000001, 7999999
CAPABILITY = {"algorithm": "SHA2-256", "messageLength": [8], "revision": "1.0"}


def fill(path, created):
    """Account 7 gets all test sessions but the last, with a vector set each."""
    connection = page_sums.connect(path)
    connection.executemany("INSERT INTO session VALUES (?, 7, 0, ?, 0, NULL, 1, 0)",
                           ((number, created) for number in range(FIRST, LAST)))
    connection.executemany("INSERT INTO vset2 VALUES (?, ?, ?, 0, NULL, NULL, NULL, 0)",
                           ((number * 100 + 1, number, compact(CAPABILITY).decode()) for number in range(FIRST, LAST)))
    connection.commit()
    connection.close()


def listed(reply):
    """The numbers of the test sessions in a page, and how many there are in all."""
    return [int(session["url"].rsplit("/", 1)[1]) for session in reply["data"]], reply["totalCount"]


def main():
    os.umask(0o077)
    with tempfile.TemporaryDirectory() as folder:
        site = Laboratory(sys.argv[1], folder)
        site.does("ready", "init", "--db", site.db)
        site.add(7)
        fill(site.db, int(time.time()) - 60)
        site.serve()
        try:
            token = site.token(7)
            registered = {"algorithms": [CAPABILITY]}
            expect("the count before", site.must("GET", "/account", token)["sessions"], MOST - 1)
            page = site.must("GET", f"/testSessions?offset={MOST - 3}&limit=5", token)
            expect("the page at the end", listed(page), ([LAST - 2, LAST - 1], MOST - 1))
            made = site.must("POST", "/testSessions", token, registered)
            expect("the last test session", made["url"], f"/acvp/v1/testSessions/{LAST}")
            expect("the next one", site.call("POST", "/testSessions", token, registered), (403, {"error": "accountFull"}))
            status, refusal = site.call("POST", "/testSessions", token, {"algorithms": 5})
            expect("one whose body is refused", (status, refusal["error"]), (400, "bodyField"))
            expect("the count behind it", site.must("GET", "/account", token)["sessions"], MOST)
            page = site.must("GET", f"/testSessions?offset={MOST - 3}&limit=5", token)
            expect("the page with the last", listed(page), ([LAST - 2, LAST - 1, LAST], MOST))
            page = site.must("GET", f"/testSessions?offset={MOST}&limit=5", token)
            expect("the page behind it", listed(page), ([], MOST))
        finally:
            site.kill()
    print(f"{laboratory.checked} comparisons over {MOST} test sessions of one account")


if __name__ == "__main__":
    main()

#!/usr/bin/env python3
"""Times the reads of a test session with 20 vector sets whose kept answers are as large as a body lets them be, beside
one whose answers are small.

    ./bench --large-sets
    large_sets.py PROGRAM

Each runs in script mode, over records in memory. A read is timed from its first byte to the last of its reply, through
pipes, and the least of fifteen counts. What the two differ by is what the columns behind `answers` cost that are
reached through its pages: a table of their own for answers would save it. It is no part of the gate."""
import os
import sys
import tempfile
import time

from laboratory import Server, one_time_code

RUNS = 15
SETS = 20
LARGE = 2000000


def session_with(program, keys, size):
    """A run with a session of so many sets, each with an answer of so many bytes: its token and its path."""
    server = Server([program, "script", "--keys", keys])
    secret = bytes(32)
    server.order(f"account-add 0 7 {secret.hex()}")
    login = {"password": one_time_code(secret, time.time()), "user": "7"}
    token = server.must("POST", "/login", thing=login)["accessToken"]
    capabilities = [{"algorithm": "SHA2-256", "messageLength": [8 * place], "revision": "1.0"} for place in range(1, SETS + 1)]
    made = server.must("POST", "/testSessions", token, {"algorithms": capabilities})
    for url in made["vectorSetUrls"]:
        path = url[len("/acvp/v1"):]
        answers = {"testGroups": [{"tests": [{"md": "0" * size, "tcId": 1}], "tgId": 1}], "vsId": int(url.split("/")[-1])}
        server.must("POST", path + "/results", made["accessToken"], answers)
    return server, made["accessToken"], made["url"][len("/acvp/v1"):]


def main():
    program = sys.argv[1]
    with tempfile.TemporaryDirectory() as folder:
        keys = os.path.join(folder, "keys.txt")
        with open(keys, "w") as file:
            file.write(f"{'0' * 64}\n{'0' * 64}\n")
        for what, size in [("64 bytes", 64), (f"{LARGE} bytes", LARGE)]:
            server, token, path = session_with(program, keys, size)
            for read in ("", "/results", "/vectorSets"):
                least = None
                for _ in range(RUNS):
                    start = time.perf_counter()
                    server.must("GET", path + read, token)
                    spent = (time.perf_counter() - start) * 1000
                    least = spent if least is None else min(least, spent)
                print(f"{SETS} sets with answers of {what}, GET of the session{read}: {least:.2f} ms")
            server.end()


main()

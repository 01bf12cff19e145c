#!/usr/bin/env python3
"""Requests per second of the proved program in script mode, and how they grow with the test sessions in the tables.

    ./bench --rates [--instructions]
    rates.py [--instructions] COMMAND..

COMMAND is as in `acvp_server script --keys keys.txt`, under keys of zero bytes. For each number of sessions of other
accounts that are there, a run of the script that makes them is timed, and one that goes on with so many logins, reads
of a vector set, or submissions; the difference is theirs. Tokens and codes are Python's own, so that a script stands
before the program begins. The least of the runs counts. With --instructions the processor's instructions are counted in
the place of seconds, by callgrind of valgrind, so that a busy machine doesn't matter; of fewer requests, and once. It
is no part of the gate."""
import re
import subprocess
import sys
import time

import laboratory
from validation import one_time_code

RUNS, MORE, FEW = 5, 10000, 1000
SECRET = b"12345678901234567890123456789012"
CAPABILITY = {"algorithm": "SHA2-256", "messageLength": [8], "revision": "1.0"}


def signed(account, moment, session=None):
    claims = {"sub": str(account), "iat": moment, "exp": moment + 1800}
    return laboratory.signed(claims if session is None else {**claims, "sid": session})


def request(moment, method, path, token=None, thing=None):
    text = laboratory.request(method, path, token, thing)
    return b"request %d %d\n%s\n" % (moment, len(text), text)


def setup(sessions):
    """The script that makes so many sessions of accounts 1001 and on, 1000 each, and one of account 7."""
    events = []
    for place in range(sessions):
        account = 1001 + place // 1000
        if place % 1000 == 0:
            events.append(f"account-add 0 {account} {SECRET.hex()}\n".encode())
        events.append(request(60, "POST", "/testSessions", signed(account, 60), {"algorithms": [CAPABILITY]}))
    events.append(f"account-add 0 7 {SECRET.hex()}\n".encode())
    events.append(request(60, "POST", "/testSessions", signed(7, 60), {"algorithms": [CAPABILITY]}))
    return events


def logins(count):
    return [request(moment, "POST", "/login", None, {"password": one_time_code(SECRET, moment), "user": "7"})
            for moment in range(60, 60 + 30 * count, 30)]


def reads(count):
    return [request(61, "GET", "/testSessions/7000001/vectorSets/700000101", signed(7, 60, 7000001))] * count


def submissions(count):
    thing = {"vsId": 700000101, "testGroups": [{"tgId": 1, "tests": [{"tcId": n, "md": "00"} for n in range(1, 18)]}]}
    path = "/testSessions/7000001/vectorSets/700000101/results"
    token = signed(7, 60, 7000001)
    return [request(61, "POST", path, token, thing)] + [request(61, "PUT", path, token, thing)] * (count - 1)


def run(command, events, accepted=None):
    """What the program says to a script, so many requests of which it must accept: all, where it isn't said."""
    done = subprocess.run(command, input=b"".join(events), capture_output=True)
    wanted = sum(event.startswith(b"request") for event in events) if accepted is None else accepted
    if done.returncode != 0 or done.stdout.count(b"HTTP/1.1 200 OK") != wanted:
        sys.exit(f"not {wanted} requests are accepted: {done.stderr} {done.stdout[-400:]}")
    return done


def seconds(command, events, accepted=None):
    begun = time.monotonic()
    run(command, events, accepted)
    return time.monotonic() - begun


def instructions(command, events, accepted=None):
    done = run(["valgrind", "--tool=callgrind", "--callgrind-out-file=/dev/null", *command], events, accepted)
    return int(re.search(rb"Collected : (\d+)", done.stderr)[1])


def main():
    command = [word for word in sys.argv[1:] if word != "--instructions"]
    if not command:
        sys.exit(__doc__)
    counted = len(command) < len(sys.argv) - 1
    runs, more, cost = (1, FEW, instructions) if counted else (RUNS, MORE, seconds)
    kinds = [("logins", logins(more)), ("reads of a set", reads(more)), ("submissions", submissions(more))]
    for sessions in [10, 1000, 20000]:
        begun = setup(sessions)
        alone = min(cost(command, begun) for _ in range(runs))
        print(f"{sessions} sessions:", end="", flush=True)
        for name, events in kinds:
            least = min(cost(command, begun + events) for _ in range(runs)) - alone
            text = f"{least / more:.0f} instructions for each of {name}" if counted else f"{more / least:.0f} {name}/s"
            print(f" {text}", end="," if name != kinds[-1][0] else "\n", flush=True)


if __name__ == "__main__":
    main()

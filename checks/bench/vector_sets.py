#!/usr/bin/env python3
"""Times the program's answers on the dearest vector sets, where its cache has nothing of them and where it has.

    ./bench --vector-sets
    vector_sets.py PROGRAM

Each vector set is registered alone, in a run of its own in script mode: the widest domain of SHA2-512 without a Monte
Carlo test, the widest of HMAC-SHA2-512, and one with a Monte Carlo test of SHA2-512. A request is timed from its first
byte to the last of its reply, through pipes; what counts is the least of fifteen runs. It is no part of the gate."""
import os
import sys
import tempfile
import time

from laboratory import Server, one_time_code

RUNS = 15


def span(least, most):
    return {"increment": 8, "max": most, "min": least}


SETS = {
    "SHA2-512, widest": {"algorithm": "SHA2-512", "messageLength": [span(0, 1528), span(1544, 65536)]},
    "HMAC-SHA2-512, widest": {"algorithm": "HMAC-SHA2-512", "keyLen": [span(8, 524288)], "macLen": [span(32, 512)]},
    "SHA2-512, Monte Carlo": {"algorithm": "SHA2-512", "messageLength": [1536]},
}


class Timed:
    """A run with one vector set of a sample, of which nothing is in the cache."""

    def __init__(self, program, keys, capability):
        self.server = Server([program, "script", "--keys", keys])
        secret = bytes(32)
        self.server.order(f"account-add 0 7 {secret.hex()}")
        login = {"password": one_time_code(secret, time.time()), "user": "7"}
        token = self.server.must("POST", "/login", thing=login)["accessToken"]
        registered = {"algorithms": [dict(capability, revision="1.0")], "isSample": True}
        session = self.server.must("POST", "/testSessions", token, registered)
        self.token, self.path = session["accessToken"], session["vectorSetUrls"][0][len("/acvp/v1"):]

    def time(self, method, place="", thing=None):
        """The reply's object, and the milliseconds that it took."""
        start = time.perf_counter()
        reply = self.server.must(method, self.path + place, self.token, thing)
        return reply, (time.perf_counter() - start) * 1000


def measure(program, keys, capability, times):
    reading = Timed(program, keys, capability)
    for state in ("made", "cached"):
        times.setdefault(("read", state), []).append(reading.time("GET")[1])
    expected, spent = reading.time("GET", "/expected")
    times.setdefault(("standard answers", "made"), []).append(spent)
    times.setdefault(("standard answers", "cached"), []).append(reading.time("GET", "/expected")[1])
    reading.server.end()
    waiting = Timed(program, keys, capability)
    for state in ("made", "cached"):
        times.setdefault(("results without answers", state), []).append(waiting.time("GET", "/results")[1])
    waiting.server.end()
    sending = Timed(program, keys, capability)
    times.setdefault(("submit", "made"), []).append(sending.time("POST", "/results", expected)[1])
    times.setdefault(("submit", "cached"), []).append(sending.time("PUT", "/results", expected)[1])
    results, spent = sending.time("GET", "/results")
    times.setdefault(("results with answers", "cached"), []).append(spent)
    assert results["disposition"] == "passed", results["disposition"]
    sending.server.end()


def main():
    program = sys.argv[1]
    with tempfile.TemporaryDirectory() as folder:
        keys = os.path.join(folder, "keys.txt")
        with open(keys, "w") as file:
            file.write(f"{'0' * 64}\n{'0' * 64}\n")
        for name, capability in SETS.items():
            times = {}
            for _ in range(RUNS):
                measure(program, keys, capability, times)
            for (what, state), spent in times.items():
                print(f"{name}, {what}, {state}: {min(spent):.2f} ms")


if __name__ == "__main__":
    main()

#!/usr/bin/env python3
"""Times submissions to vector sets with a Monte Carlo test, whose standard answers are a hundred thousand hashes: they
take some hundred times as long where the answers are made anew as where they are found. The program keeps what it
computed of the last 64 vector sets that were asked for, and of 1,024 with a Monte Carlo test the standard answers
beside. So a submission that is sent again is quick, also behind 64 and more other vector sets, small ones and such with
a Monte Carlo test of their own. Only the processor's time counts, and of the turns the quickest, since the machine may
be busy with something else.

COMMAND runs the server in script mode under a token key and a seed of zeros."""
import sys
import time

from laboratory import Piped, request, shown, signed

MOMENT, CACHED, TURNS = 1000000000, 64, 3
# how many times as long a submission takes at the least where the answers are made anew
TIMES = 5
DEAR = {"algorithm": "SHA2-512", "messageLength": [1536], "revision": "1.0"}
SMALL = {"algorithm": "SHA2-256", "messageLength": [8], "revision": "1.0"}


class Account:
    def __init__(self, command):
        self.server, self.sessions = Piped(command), 0
        assert self.server.order(f"account-add 0 7 {bytes(32).hex()}") == "order done"

    def asks(self, method, path, thing=None, session=None):
        claims = {"sub": "7", "iat": MOMENT, "exp": MOMENT + 1800}
        token = signed(claims if session is None else {**claims, "sid": session})
        status, reply = shown(self.server.ask_at(MOMENT, request(method, path, token, thing)))
        assert status == 200, (method, path, status, reply)

    def registers(self, capability):
        """A new test session with one vector set; gives its number."""
        self.asks("POST", "/testSessions", {"algorithms": [capability]})
        self.sessions += 1
        return 7000000 + self.sessions

    def reads(self, session):
        self.asks("GET", f"/testSessions/{session}/vectorSets/{session}01", None, session)

    def submits(self, session, method="PUT"):
        """The seconds that the server computes on answers, none of which is right."""
        wrong = {"testGroups": [], "vsId": session * 100 + 1}
        begun = self.computed()
        self.asks(method, f"/testSessions/{session}/vectorSets/{session}01/results", wrong, session)
        return self.computed() - begun

    def computed(self):
        """The seconds that the server has computed so far: the processor's time of a process (clock_getcpuclockid(3))."""
        return time.clock_gettime(~self.server.process.pid << 3 | 2)


def main():
    account = Account(sys.argv[1:])
    dear = account.registers(DEAR)
    others = [account.registers(SMALL) for _ in range(2 * CACHED)]

    def behind(count, turn):
        """The seconds of a submission once so many other vector sets were read, in each turn others first."""
        for place in range(count):
            account.reads(others[(turn * CACHED + place) % len(others)])
        return account.submits(dear)

    made = account.submits(dear, "POST")
    again = min(account.submits(dear) for _ in range(TURNS))
    found = min(behind(CACHED - 1, turn) for turn in range(TURNS))
    pushed_out = min(behind(CACHED, turn) for turn in range(TURNS))
    # more dear ones than the cache has places, each first made, and then found again, turn after turn
    more = [account.registers(DEAR) for _ in range(CACHED + 6)]
    first = min(account.submits(session, "POST") for session in more)
    later = min(max(account.submits(session) for session in more) for _ in range(TURNS))
    account.server.end()
    told = (f"made: {made:.4f} s, sent again: {again:.4f}, behind 63 others: {found:.4f}, behind 64: {pushed_out:.4f}; "
            f"of {len(more)} dear ones, made: {first:.4f}, sent again: {later:.4f} at most")
    if again * TIMES > made or found * TIMES > made or pushed_out * TIMES > made or later * TIMES > first:
        sys.exit(told)
    print(told)


if __name__ == "__main__":
    main()

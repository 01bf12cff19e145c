#!/usr/bin/env python3
"""What a login costs that is refused, by why it is: the account isn't there, is disabled, its code was used, or is wrong.

    ./bench --refused-logins [--instructions]
    refused_logins.py [--instructions] COMMAND..

COMMAND is as in `acvp_server script --keys keys.txt`. Each kind is a script of its own; the time of the script that makes
the accounts is taken away. The kinds take turns, and the least of the runs of each counts. With --instructions the
processor's instructions are counted in the place of seconds, by callgrind of valgrind. It is no part of the gate."""
import sys

from rates import SECRET, instructions, request, seconds
from validation import one_time_code

RUNS, MORE, FEW = 9, 20000, 1000
MOMENT = 60


def login(user, code):
    return request(MOMENT, "POST", "/login", None, {"password": code, "user": user})


def main():
    command = [word for word in sys.argv[1:] if word != "--instructions"]
    if not command:
        sys.exit(__doc__)
    counted = len(command) < len(sys.argv) - 1
    runs, more, cost = (1, FEW, instructions) if counted else (RUNS, MORE, seconds)
    right = one_time_code(SECRET, MOMENT)
    wrong = f"{(int(right) + 1) % 100000000:08d}"
    begun = [f"account-add 0 {account} {SECRET.hex()}\n".encode() for account in (7, 8)]
    begun += [b"account-disable 0 8\n", login("7", right)]
    kinds = {"isn't there": ("9", right), "is disabled": ("8", right), "code was used": ("7", right),
             "code is wrong": ("7", wrong)}
    # the first login uses the code, and is the only one that is accepted
    alone, least = [], {kind: [] for kind in kinds}
    for _ in range(runs):
        alone.append(cost(command, begun, 1))
        for kind, (user, code) in kinds.items():
            least[kind].append(cost(command, begun + [login(user, code)] * more, 1))
    for kind, costs in least.items():
        each = (min(costs) - min(alone)) / more
        print(f"{kind}: " + (f"{each:.0f} instructions" if counted else f"{each * 1e6:.2f} µs"))


if __name__ == "__main__":
    main()

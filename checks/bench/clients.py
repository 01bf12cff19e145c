"""Requests per second of `acvp_server serve` over a file, with 1, 8 and 64 clients at once, each a process of its own
that reads an account, one time after another.

    ./bench --clients [PROGRAM]

It is no part of the gate."""
import multiprocessing
import statistics
import sys
import tempfile
import time

import laboratory
from laboratory import Laboratory, expect, request, within_a_step

CLIENTS, REQUESTS, ROUNDS = [1, 8, 64], 4096, 3


def asks(lab, texts, begins, status):
    """Sends these requests, one after another, and counts the replies of the status."""
    begins.wait()
    good = 0
    for text in texts:
        good += lab.ask(text).startswith(b"HTTP/1.1 %d " % status)
    if good != len(texts):
        sys.exit(1)


def seconds(lab, texts, clients):
    """How long so many clients take to have all of these requests answered."""
    begins = multiprocessing.Event()
    each = [multiprocessing.Process(target=asks, args=(lab, texts[which::clients], begins, 200)) for which in range(clients)]
    for client in each:
        client.start()
    time.sleep(0.5)
    began = time.perf_counter()
    begins.set()
    for client in each:
        client.join()
    took = time.perf_counter() - began
    expect("the ends of the clients", [client.exitcode for client in each], [0] * clients)
    return took


def main():
    program = sys.argv[1]
    with tempfile.TemporaryDirectory() as folder:
        lab = Laboratory(program, folder)
        lab.does("ready", "init", "--db", lab.db)
        lab.add(1)
        lab.serve()
        within_a_step(5)
        read = request("GET", "/account", lab.token(1))
        print("| Clients | Reads of an account |")
        print("|---|---|")
        for clients in CLIENTS:
            rates = [REQUESTS / seconds(lab, [read] * REQUESTS, clients) for _ in range(ROUNDS)]
            print(f"| {clients} | {statistics.median(rates):.0f} |", flush=True)
        lab.kill()
    print(f"{laboratory.checked} comparisons")


main()

"""The memory that hostile requests make `acvp_server serve` take, in megabytes: as many vector sets of the widest
capability as its cache holds, bodies that are almost whole on every connection that the server holds, and then bodies of
nested arrays, as deep and as many as a body has room for.

    ./bench --hostile-memory [PROGRAM]

It is no part of the gate."""
import re
import socket
import sys
import tempfile
import time

import laboratory
from laboratory import Laboratory, expect, shown, read_all

CONNECTIONS, BODY, CACHED = 256, 2097152, 64
WIDEST = {"algorithm": "HMAC-SHA2-512", "keyLen": [{"increment": 8, "max": 524288, "min": 8}],
          "macLen": [{"increment": 8, "max": 512, "min": 32}], "revision": "1.0"}


def megabytes(process, word):
    with open(f"/proc/{process.pid}/status") as file:
        return int(re.search(rf"{word}:\s+(\d+) kB", file.read())[1]) // 1024


def nested():
    """A body of 2 MiB: an array of arrays that nest as deep as a body may."""
    deepest = b"[" * 126 + b"]" * 126
    count = (BODY - 2) // (len(deepest) + 1)
    body = b"[" + b",".join([deepest] * count) + b"]"
    return body + b" " * (BODY - len(body))


def login(body):
    return b"POST /acvp/v1/login HTTP/1.1\r\nHost: a\r\nContent-Length: %d\r\n\r\n" % len(body) + body


def read_widest(lab):
    """Reads as many vector sets as the cache holds, and what is expected of each."""
    account = lab.token(1)
    for _ in range(CACHED):
        session = lab.must("POST", "/testSessions", account, {"isSample": True, "algorithms": [WIDEST]})
        path = session["vectorSetUrls"][0].removeprefix("/acvp/v1")
        for more in ("", "/expected"):
            lab.must("GET", path + more, session["accessToken"])


def main():
    program = sys.argv[1]
    text = login(nested())
    with tempfile.TemporaryDirectory() as folder:
        lab = Laboratory(program, folder)
        lab.does("ready", "init", "--db", lab.db)
        lab.add(1)
        lab.serve(count=None, more=["--patience", "600"])
        print("| What the clients have done | Resident | At most so far |")
        print("|---|---|---|")

        def row(what):
            print(f"| {what} | {megabytes(lab.process, 'VmRSS')} | {megabytes(lab.process, 'VmHWM')} |", flush=True)

        row("nothing")
        read_widest(lab)
        row(f"{CACHED} vector sets of the widest capability")
        expect("a login of nested arrays", shown(lab.ask(text))[0], 400)
        row("one login of 2 MiB of nested arrays")
        clients = [socket.create_connection(("127.0.0.1", lab.port)) for _ in range(CONNECTIONS)]
        for client in clients:
            client.sendall(text[:-1])
        time.sleep(2)
        row(f"{CONNECTIONS} such logins, whole but for a byte")
        for client in clients:
            client.sendall(text[-1:])
        expect("the answers to all", {shown(read_all(client))[0] for client in clients}, {400})
        row("all of these answered")
        lab.kill()
    print(f"{laboratory.checked} comparisons")


main()

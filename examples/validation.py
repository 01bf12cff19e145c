#!/usr/bin/env python3
"""A client, in standard Python alone, that gets Python's hashlib and hmac validated and certified.

    examples/validation.py COMMAND..
    examples/validation.py --port P PROGRAM FILE KEYS
    examples/validation.py --url URL ACCOUNT SECRET [AUTHORITY [CERTIFICATE KEY]]

COMMAND runs the server in script mode with a keys file, as in `acvp_server script --keys keys.txt`. The client hands it
each request and order through a pipe, plays the network and the clock, and reads the reply before it goes on.

With --port the client speaks to PROGRAM, such as `acvp_server`, on port P. It has PROGRAM serve the records in FILE,
which `acvp_server init` has made, under the keys in KEYS. The operator's orders are commands of PROGRAM, given while it
serves. The account is the lowest free one from 7 to 9999.

With --url the client speaks to a server or its reverse proxy at URL, such as https://laboratory.example/acvp/v1, for
an account whose secret is in the file SECRET. AUTHORITY is the certificate that signed the proxy's, and CERTIFICATE and
KEY are the client's own. It ends once its test session has passed, since the operator isn't there.

With --without-monte-carlo as the first argument the longest message has 760 bits, less than three digests. So there is
no Monte Carlo test, which takes an unproved build more than a minute.

It prints what happens, and stops with status 1 at the first surprise."""
import contextlib
import hashlib
import hmac
import json
import os
import signal
import socket
import ssl
import subprocess
import sys
import tempfile
import time
from urllib.parse import urlsplit

HASHES = {"SHA2-256": "sha256", "HMAC-SHA2-256": "sha256"}
REGISTRATION = {"algorithms": [
    {"algorithm": "SHA2-256", "messageLength": [{"increment": 8, "max": 1024, "min": 0}], "revision": "1.0"},
    {"algorithm": "HMAC-SHA2-256", "keyLen": [{"increment": 8, "max": 1024, "min": 8}], "macLen": [128, 256],
     "revision": "1.0"}]}


def stop(what):
    sys.exit(f"This isn't as it must be: {what}")


def tell(who, what, outcome=""):
    print(f"{who:9} {what:58} {outcome}".rstrip(), flush=True)


class Server:
    """The server behind a pipe, as its operator and its network see it."""
    host = "laboratory.example"

    def __init__(self, command):
        self.process = subprocess.Popen(command, stdin=subprocess.PIPE, stdout=subprocess.PIPE)

    def send(self, event):
        self.process.stdin.write(event)
        self.process.stdin.flush()

    def line(self):
        line = self.process.stdout.readline()
        if not line:
            stop("the server has ended")
        return line.decode().rstrip("\n")

    def order(self, text):
        """Hands over an operator's order, and gives its answer."""
        self.send(text.encode() + b"\n")
        return self.line()

    def ask(self, text):
        """Sends the bytes of a request, and gives those of its reply."""
        self.send(b"request %d %d\n%s\n" % (time.time(), len(text), text))
        word, size = self.line().split(" ")
        if word != "reply":
            stop(f"a request is answered by {word}")
        reply = self.process.stdout.read(int(size))
        self.line()
        return reply

    def call(self, method, path, token=None, thing=None):
        """Sends a request, and gives the status and the second object of the reply's body."""
        lines = [f"{method} /acvp/v1{path} HTTP/1.1", f"Host: {self.host}", "Connection: close"]
        body = b""
        if token is not None:
            lines.append(f"Authorization: Bearer {token}")
        if thing is not None:
            body = json.dumps([{"acvVersion": "1.0"}, thing]).encode()
            lines.append(f"Content-Length: {len(body)}")
        head, _, content = self.ask("\r\n".join(lines + ["", ""]).encode() + body).partition(b"\r\n\r\n")
        return int(head.split(b" ")[1]), json.loads(content)[1]

    def must(self, method, path, token=None, thing=None):
        """The object of a reply whose status must be 200."""
        status, reply = self.call(method, path, token, thing)
        if status != 200:
            stop(f"{method} {path} is answered {status} {reply}")
        return reply

    def end(self):
        self.process.stdin.close()
        if self.process.wait() != 0:
            stop(f"the server ended with status {self.process.returncode}")


class SocketServer(Server):
    """The server behind a port, over records in a file."""

    def __init__(self, port, program, file, keys):
        self.port, self.program, self.file, self.keys = port, program, file, keys
        self.process = None

    def serve(self):
        self.process = subprocess.Popen([self.program, "serve", "--db", self.file, "--keys", self.keys,
                                         "--port", str(self.port), "--count", "1000000"], stdout=subprocess.PIPE)
        if self.line() != f"listening 127.0.0.1:{self.port}":
            stop("the server doesn't listen")

    def end(self):
        if self.process is not None:
            self.process.kill()
            self.process.wait()
            self.process.stdout.close()
            self.process = None

    def order(self, text):
        """Carries out an operator's order in a script's form, and gives a script's answer."""
        word, _, number, *secret = text.split(" ")
        options = ["--account" if word.startswith("account") else "--request", number]
        with tempfile.NamedTemporaryFile("w") as file:
            if secret:
                file.write(secret[0] + "\n")
                file.flush()
                options += ["--secret", file.name]
            done = subprocess.run([self.program, word, "--db", self.file, *options], capture_output=True, text=True)
        return "order done" if done.returncode == 0 else "order " + done.stderr[len("fault: "):].rstrip("\n")

    def ask(self, text):
        if self.process is None:
            self.serve()
        with socket.create_connection(("127.0.0.1", self.port)) as connection:
            connection.sendall(text)
            return b"".join(iter(lambda: connection.recv(65536), b""))


class RemoteServer(Server):
    """The server at an address, as a client alone sees it."""

    def __init__(self, url, authority=None, certificate=None, key=None):
        address = urlsplit(url)
        if address.scheme not in ("http", "https") or address.path.rstrip("/") != "/acvp/v1":
            stop(f"{url} is no address that ends in /acvp/v1")
        self.process, self.host, self.context = None, address.hostname, None
        self.port = address.port or (443 if address.scheme == "https" else 80)
        if address.scheme == "https":
            self.context = ssl.create_default_context(cafile=authority)
            if certificate is not None:
                self.context.load_cert_chain(certificate, key)

    def ask(self, text):
        with contextlib.ExitStack() as opened:
            connection = opened.enter_context(socket.create_connection((self.host, self.port), timeout=60))
            if self.context is not None:
                connection = opened.enter_context(self.context.wrap_socket(connection, server_hostname=self.host))
            connection.sendall(text)
            return b"".join(iter(lambda: connection.recv(65536), b""))

    def end(self):
        pass


def one_time_code(secret, moment):
    """The code of a moment (RFC 6238), of 8 digits under HMAC-SHA-256."""
    mac = hmac.new(secret, int(moment // 30).to_bytes(8, "big"), hashlib.sha256).digest()
    place = mac[-1] & 15
    return "%08d" % ((int.from_bytes(mac[place:place + 4], "big") & 0x7fffffff) % 10**8)


def monte_carlo(name, seed):
    """The hundred checkpoints of a Monte Carlo test: each turn hashes the last three digests a thousand times."""
    checkpoints = []
    for _ in range(100):
        three = [seed] * 3
        for _ in range(1000):
            three = [three[1], three[2], hashlib.new(name, b"".join(three)).digest()]
        seed = three[2]
        checkpoints.append({"md": seed.hex()})
    return checkpoints


def answer(vector_set, group, test):
    """The answer of the implementation under test, which is Python's."""
    name = HASHES[vector_set["algorithm"]]
    message = bytes.fromhex(test["msg"])
    if "key" in test:
        mac = hmac.new(bytes.fromhex(test["key"]), message, name).digest()
        return {"mac": mac[:group["macLen"] // 8].hex(), "tcId": test["tcId"]}
    if group["testType"] == "MCT":
        return {"resultsArray": monte_carlo(name, message), "tcId": test["tcId"]}
    return {"md": hashlib.new(name, message).hexdigest(), "tcId": test["tcId"]}


def answers(vector_set):
    groups = [{"tests": [answer(vector_set, group, test) for test in group["tests"]], "tgId": group["tgId"]}
              for group in vector_set["testGroups"]]
    return {"testGroups": groups, "vsId": vector_set["vsId"]}


def judged(server, path, token, wanted):
    """The tests that a vector set, whose disposition must be this one, doesn't pass."""
    results = server.must("GET", f"{path}/results", token)
    if results["disposition"] != wanted:
        stop(f"{path} is {results['disposition']} and not {wanted}")
    return [test["tcId"] for test in results["tests"] if test["result"] != "passed"]


def validate(server, token, path):
    """Fetches a vector set, answers it, first with one wrong digit, and reads the results."""
    vector_set = server.must("GET", path, token)
    count = sum(len(group["tests"]) for group in vector_set["testGroups"])
    kinds = {group["testType"] for group in vector_set["testGroups"]}
    tell("client", f"fetches vector set {vector_set['vsId']}",
         f"{count} tests of {vector_set['algorithm']}" + (", one of them Monte Carlo" if "MCT" in kinds else ""))
    right = answers(vector_set)
    wrong = json.loads(json.dumps(right))
    first = wrong["testGroups"][0]["tests"][0]
    member = "mac" if "mac" in first else "md"
    first[member] = ("0" if first[member][0] != "0" else "1") + first[member][1:]
    server.must("POST", f"{path}/results", token, wrong)
    tell("client", "submits Python's answers, one digit of them changed", "received")
    failed = judged(server, path, token, "fail")
    if failed != [first["tcId"]]:
        stop(f"the tests {failed} fail, and not test {first['tcId']} alone")
    tell("client", "reads the results", f"fail: test {failed[0]} alone")
    server.must("PUT", f"{path}/results", token, right)
    judged(server, path, token, "passed")
    tell("client", "submits them as they are, and reads the results", "passed")


def path_of(url):
    return url[len("/acvp/v1"):]


def decided(server, word, url, wanted):
    """The operator decides on a request. That must succeed."""
    number = url.split("/")[-1]
    outcome = server.order(f"request-{word} {int(time.time())} {number}")
    if outcome != "order done":
        stop(f"request {number} is answered {outcome}")
    tell("operator", f"{word}s request {number}", wanted)


def registered(server, token, kind, thing):
    """Asks for a vendor, a module or an environment, has it approved, and gives its URL."""
    request = server.must("POST", f"/{kind}", token, thing)
    if request["status"] != "initial":
        stop(f"a new request is {request['status']}")
    tell("client", f"asks to register \"{thing['name']}\" in /{kind}", request["url"])
    decided(server, "approve", request["url"], "done")
    url = server.must("GET", path_of(request["url"]), token)["approvedUrl"]
    if server.must("GET", path_of(url), token) != {**thing, "url": url}:
        stop(f"{url} isn't what was asked for")
    return url


def certify(server, token, bound, session):
    """Asks for certification, is rejected, asks again and is approved."""
    vendor = registered(server, token, "vendors", {"name": "Python Software Foundation"})
    parts = {"moduleUrl": registered(server, token, "modules", {"name": "hashlib and hmac", "vendorUrl": vendor}),
             "oeUrl": registered(server, token, "oes", {"name": sys.platform})}
    for word, status in [("reject", "open"), ("approve", "approved")]:
        request = server.must("PUT", path_of(session), bound, parts)
        tell("client", "asks for the certification of the test session", request["url"])
        frozen = server.call("DELETE", path_of(session), bound)
        if frozen != (409, {"error": "sessionFrozen"}):
            stop(f"the session, which must be frozen, is cancelled: {frozen}")
        decided(server, word, request["url"], "done")
        if server.must("GET", path_of(session), bound)["status"] != status:
            stop(f"the session isn't {status}")
    approved = server.must("GET", path_of(request["url"]), token)
    if approved["approvedUrl"] != session:
        stop(f"{approved} isn't of the session {session}")
    tell("client", "reads the request", f"approved: {approved['approvedUrl']}")


def added(server, secret):
    """Adds an account with this secret, the lowest free one from 7 on, and gives its number."""
    for account in range(7, 10000):
        outcome = server.order(f"account-add {int(time.time())} {account} {secret.hex()}")
        if outcome == "order done":
            return account
        if outcome != "order taken":
            stop(f"adding an account is answered {outcome}")
    return stop("there is no room for an account")


def logged_in(server, account, secret):
    """Logs in with a one-time code, which isn't accepted again, and gives the token."""
    code = one_time_code(secret, time.time())
    login = {"password": code, "user": str(account)}
    token = server.must("POST", "/login", thing=login)["accessToken"]
    tell("client", f"logs in with the one-time code {code}", "a token for half an hour")
    status, refusal = server.call("POST", "/login", thing=login)
    if (status, refusal) != (403, {"error": "loginRefused"}):
        stop(f"the same code again is answered {status} {refusal}")
    tell("client", "logs in with the same code again", f"{status} {refusal['error']}")
    return token


def session_passed(server, token):
    """Registers a test session and has all its vector sets pass; gives its URL and its token."""
    session = server.must("POST", "/testSessions", token, REGISTRATION)
    names = ", ".join(capability["algorithm"] for capability in REGISTRATION["algorithms"])
    tell("client", f"registers {names}", session["url"])
    bound = session["accessToken"]
    for url in session["vectorSetUrls"]:
        validate(server, bound, path_of(url))
    results = server.must("GET", path_of(session["url"]) + "/results", bound)
    if results["passed"] is not True:
        stop("the session hasn't passed")
    tell("client", "reads the results of the test session", "passed")
    return session["url"], bound


def validated_at(url, account, secret, *files):
    """Has a test session pass at an address."""
    with open(secret) as file:
        secret = bytes.fromhex(file.read().strip())
    server = RemoteServer(url, *files)
    session, _ = session_passed(server, logged_in(server, int(account), secret))
    tell("client", "has a test session that may be certified", session)


def main():
    # whoever ends the client ends its server, too
    signal.signal(signal.SIGTERM, lambda number, frame: sys.exit(128 + number))
    if sys.argv[1:2] == ["--without-monte-carlo"]:
        del sys.argv[1]
        REGISTRATION["algorithms"][0]["messageLength"][0]["max"] = 760
    if sys.argv[1:2] == ["--url"] and len(sys.argv) in (5, 6, 8):
        validated_at(*sys.argv[2:])
        return
    if sys.argv[1:2] == ["--port"] and len(sys.argv) == 6:
        server = SocketServer(int(sys.argv[2]), *sys.argv[3:])
    elif len(sys.argv) > 1 and sys.argv[1] not in ("--port", "--url"):
        server = Server(sys.argv[1:])
    else:
        sys.exit(__doc__)
    secret = os.urandom(32)
    try:
        account = added(server, secret)
        tell("operator", f"adds account {account} with a secret of its own", "done")
        token = logged_in(server, account, secret)
        session, bound = session_passed(server, token)
        certify(server, token, bound, session)
    except BaseException:
        server.process and server.process.kill()
        raise
    server.end()


if __name__ == "__main__":
    main()

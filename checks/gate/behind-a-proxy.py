"""The examples of a reverse proxy and of a service: nginx with TLS and certificates of clients before the program, as
examples/nginx.conf has it, with certificates of examples/certificates; two programs behind one nginx by
examples/two_laboratories.conf; and what systemd says of examples/acvp_server.service. What isn't installed is skipped.

    behind-a-proxy.py PROGRAM"""
import contextlib
import hashlib
import http.client
import json
import os
import re
import shutil
import socket
import ssl
import subprocess
import sys
import tempfile
import time

from laboratory import Laboratory, compact, expect, free_port, free_ports, within_a_step
import laboratory
from validation import answers

# the bits of the digests
HASHES = {"SHA2-224": 224, "SHA2-256": 256, "SHA2-384": 384, "SHA2-512": 512, "SHA2-512/224": 224, "SHA2-512/256": 256}
TOP = os.path.dirname(os.path.dirname(os.path.dirname(os.path.abspath(__file__))))
SCRIPT = os.path.join(TOP, "examples", "certificates")
REGISTRATION = {"algorithms": [{"algorithm": "SHA2-256", "messageLength": [8], "revision": "1.0"}]}
MACS = {"algorithm": "HMAC-SHA2-256", "keyLen": [256], "macLen": [256], "revision": "1.0"}
TWENTY_SETS = {"algorithms": [MACS] * 20}
# what is told to whoever has no certificate that is accepted, and by the server to whoever has one and no token
NO_CLIENT = 403, {"error": "clientCertificate"}
NO_TOKEN = 401, {"error": "tokenMissing"}
TOO_LARGE = 413, {"error": "bodyTooLarge"}
# What nginx answers itself, or would, and what is answered: a request line, the fields behind Host, a status and an
# error. Of a request line that can't be read nginx knows no path.
SHAPES = [
    ("POST /acvp/v1/testSessions HTTP/1.1", ["Transfer-Encoding: xchunked"], 501, "transferCoding"),
    ("POST /acvp/v1/testSessions HTTP/1.1", ["Transfer-Encoding: gzip, chunked"], 501, "transferCoding"),
    ("POST /acvp/v1/testSessions HTTP/1.1", ["Content-Length: 1", "Content-Length: 2"], 400, "badRequest"),
    ("TRACE /acvp/v1/account HTTP/1.1", [], 405, "noMethod"),
    ("CONNECT /acvp/v1/account HTTP/1.1", [], 405, "noMethod"),
    ("CONNECT 127.0.0.1:443 HTTP/1.1", [], 400, "badRequest"),
    ("OPTIONS * HTTP/1.1", [], 400, "badRequest"),
    ("PRI * HTTP/2.0", [], 400, "badRequest"),
    ("GET /acvp/v1/account HTTP/2.0", [], 400, "badRequest"),
    ("GET /acvp/v1/account HTTX/1.1", [], 400, "badRequest"),
    ("get /acvp/v1/account HTTP/1.1", [], 400, "badRequest"),
    ("nothing like it", [], 400, "badRequest"),
    ("GET /acvp/v1/%zz HTTP/1.1", [], 400, "badRequest"),
    ("GET /../other HTTP/1.1", [], 400, "badRequest"),
    ("GET /acvp/v1/account HTTP/1.1", ["Host: another"], 400, "badRequest"),
    (f"GET /{'a' * 20000} HTTP/1.1", [], 431, "headTooLarge"),
    ("GET /acvp/v1/account HTTP/1.1", [f"Long: {'a' * 20000}"], 431, "headTooLarge"),
    ("GET /refused/now HTTP/1.1", [], 404, "noRoute"),
    ("GET /acvp/v1 HTTP/1.1", [], 404, "noRoute"),
    ("POST /acvp/v1 HTTP/1.1", ["Content-Length: 0"], 404, "noRoute"),
    ("FOO /acvp/v1/account HTTP/1.1", [], 405, "noMethod"),
]


def script(lab, *args):
    """The status, the output and the faults of examples/certificates."""
    done = subprocess.run([SCRIPT, *args], cwd=lab.folder, capture_output=True, text=True, timeout=600)
    return done.returncode, done.stdout, done.stderr


def makes(lab, *args):
    status, output, faults = script(lab, *args)
    expect(f"certificates {args}", (status, len(output.splitlines()), faults), (0, 1, ""))


def files_of(folder):
    """The digest and the mode of each file in a folder."""
    kept = {}
    for place, _, names in os.walk(folder):
        for path in (os.path.join(place, name) for name in names):
            with open(path, "rb") as file:
                kept[path] = hashlib.sha256(file.read()).digest(), os.stat(path).st_mode & 0o777
    return kept


def certificates(lab):
    """An authority, the proxy's certificate and those of three clients. A stranger's authority, in a folder whose name
    has a space, has a client of the same name as one of the three."""
    makes(lab, "authority", "authority", "Example Laboratory")
    makes(lab, "server", "authority", "127.0.0.1")
    makes(lab, "authority", "a stranger", "Stranger")
    makes(lab, "client", "a stranger", "second")
    three = [subprocess.Popen([SCRIPT, "client", "authority", name], cwd=lab.folder, stdout=subprocess.DEVNULL)
             for name in ("acme", "second", "third")]
    expect("three at once", [one.wait() for one in three], [0, 0, 0])
    with open(lab.path("authority/records/index.txt")) as file:
        expect("the records of the proxy and of three at once", len(file.readlines()), 4)
    keys = [access[1] for path, access in files_of(lab.folder).items() if path.endswith("-key.pem")]
    expect("who may read the keys", keys, [0o600] * 7)
    careless(lab)


def careless(lab):
    """The script writes over nothing, and refuses what is no name: in one line each, and nothing is left of it."""
    before = files_of(lab.folder)
    refused = [(1, args.split(" ")) for args in (
        "authority authority Another", "server authority 127.0.0.1", "client authority acme",
        "withdraw authority nobody", "withdraw authority 127.0.0.1", "list nowhere", "client nowhere acme",
        "authority no/where Example", "authority keys.txt Example", "client keys.txt acme")]
    refused += [(2, args.split(" ")) for args in (
        "", "client", "client authority", "client authority a b", "remove authority acme", "authority new a/b",
        "server authority a_b", "list authority acme")]
    refused += [(2, ["authority", "", "Example"]), (2, ["list", ""])]
    refused += [(2, ["client", "authority", name])
                for name in ("", "two words", "a/b", "../a", "..", "-a", "Acme", "a\nb", "a" * 65, "*", "a+O=b")]
    for wanted, args in refused:
        status, output, faults = script(lab, *args)
        expect(f"certificates {args}: {faults}", (status, output, len(faults.splitlines())), (wanted, "", 1))
    expect("what is there after that", files_of(lab.folder), before)


def replaced(name, pairs):
    """An example, with what this check has in place of its files and ports."""
    with open(os.path.join(TOP, "examples", name)) as file:
        text = file.read()
    for old, new in pairs:
        expect(f"{old} in {name}", old in text, True)
        text = text.replace(old, new)
    return text


def configured(lab, port, chosen=None):
    """The example of a proxy before one server, or before those that an include chooses from."""
    one = 'map "" $laboratory {\n        default 127.0.0.1:8080;\n    }'
    text = replaced("nginx.conf", [
        ("/etc/acvp/", lab.path("authority/")), ("/run/acvp-nginx.pid", lab.path("nginx.pid")),
        ("/var/lib/nginx/", lab.path("")), ("listen 443 ssl;", f"listen 127.0.0.1:{port} ssl;"),
        (one, f"include {chosen};" if chosen else one.replace("8080", str(lab.port)))])
    # the paths of nginx's own package, which another user may not write to
    own = "".join(f"    {kind}_temp_path {lab.path(kind)};\n" for kind in ("fastcgi", "uwsgi", "scgi"))
    text = text.replace("http {\n", "http {\n" + own, 1)
    who = "user root;\n" if os.geteuid() == 0 else ""
    return lab.write(lab.path("nginx.conf"), "daemon off;\n" + who + text)


@contextlib.contextmanager
def nginx(lab, conf, port):
    """nginx while it runs. Its errors are shown if anything fails."""
    process = subprocess.Popen(["nginx", "-p", lab.folder, "-c", conf], stderr=subprocess.PIPE)
    try:
        waits(port)
        yield
    except BaseException:
        process.terminate()
        print(process.communicate()[1].decode(), file=sys.stderr)
        raise
    finally:
        process.terminate()
        process.wait()


def reloads(lab):
    subprocess.run(["nginx", "-p", lab.folder, "-c", lab.path("nginx.conf"), "-s", "reload"], check=True,
                   capture_output=True, timeout=600)


class Front:
    """A client of the proxy, with a certificate or without one."""

    def __init__(self, lab, port, certificate="authority/client-acme"):
        self.port = port
        self.context = ssl.create_default_context(cafile=lab.path("authority/authority.pem"))
        if certificate:
            self.context.load_cert_chain(lab.path(f"{certificate}.pem"), lab.path(f"{certificate}-key.pem"))

    def connect(self):
        connection = socket.create_connection(("127.0.0.1", self.port), timeout=60)
        return self.context.wrap_socket(connection, server_hostname="127.0.0.1")

    def tells(self, line, fields):
        """The status and the second object of the reply to a request line and these fields."""
        with self.connect() as connection:
            connection.sendall("\r\n".join([line, "Host: 127.0.0.1", *fields, "", ""]).encode())
            reply = http.client.HTTPResponse(connection)
            reply.begin()
            expect(f"the type of the reply to {line[:40]}", reply.headers["Content-Type"], "application/json")
            version, thing = json.loads(reply.read())
        expect(f"the envelope of the reply to {line[:40]}", version, {"acvVersion": "1.0"})
        return reply.status, thing

    def until_refused(self, method, path, most=2000):
        """How many requests for a path are handed on before one is refused for their rate, where so many are sent at
        most."""
        connection = http.client.HTTPSConnection("127.0.0.1", self.port, context=self.context, timeout=60)
        for count in range(most):
            connection.request(method, path)
            reply = connection.getresponse()
            text = json.loads(reply.read())
            if reply.status == 429:
                wanted = "application/json", "2", [{"acvVersion": "1.0"}, {"error": "tooManyRequests"}]
                told = reply.headers["Content-Type"], reply.headers["Retry-After"], text
                expect("what is told of a rate", told, wanted)
                connection.close()
                return count
            expect("a request below a rate", (reply.status, text[1]), NO_TOKEN)
        raise SystemExit(f"{most} requests for {path} are handed on")

    def call(self, method, path, token=None, thing=None, body=None):
        connection = http.client.HTTPSConnection("127.0.0.1", self.port, context=self.context, timeout=60)
        if thing is not None:
            body = compact([{"acvVersion": "1.0"}, thing])
        headers = {"Authorization": f"Bearer {token}"} if token else {}
        connection.request(method, path, body, headers)
        reply = connection.getresponse()
        text = reply.read()
        connection.close()
        expect("the type of a reply", reply.headers["Content-Type"], "application/json")
        return reply.status, json.loads(text)[1]

    def must(self, method, path, token=None, thing=None):
        status, thing = self.call(method, path, token, thing)
        if status != 200:
            raise SystemExit(f"{method} {path} is answered {status} {thing}")
        return thing


def waits(port):
    for _ in range(200):
        with socket.socket() as there:
            if there.connect_ex(("127.0.0.1", port)) == 0:
                return
        time.sleep(0.05)
    raise SystemExit("nginx doesn't listen")


def shapes(client):
    """What nginx answers itself is in the protocol's envelope."""
    for line, fields, status, error in SHAPES:
        expect(f"{line[:40]} {fields[:1]}", client.tells(line, fields), (status, {"error": error}))


def twenty_sets(client, token):
    """Twenty vector sets that are fetched, answered, corrected and read again in one go stay below the rates."""
    session = client.must("POST", "/acvp/v1/testSessions", token, TWENTY_SETS)
    bound = session["accessToken"]
    for of_set in session["vectorSetUrls"]:
        given = answers(client.must("GET", of_set, bound))
        client.must("POST", of_set + "/results", bound, given)
        client.must("PUT", of_set + "/results", bound, given)
        expect("the results of one of twenty", client.must("GET", of_set + "/results", bound)["disposition"], "passed")
    expect("the results of twenty", client.must("GET", session["url"] + "/results", bound)["passed"], True)


def unread(prompts, number):
    """Answers as long as the right ones, to the vector set of a number, which aren't worked out."""
    def answer(group, test):
        if group["testType"] == "MCT":
            digits = "0" * (HASHES[prompts["algorithm"]] // 4)
            return {"resultsArray": [{"md": digits}] * 100, "tcId": test["tcId"]}
        if "macLen" in group:
            return {"mac": "0" * (group["macLen"] // 4), "tcId": test["tcId"]}
        return {"md": "0" * (HASHES[prompts["algorithm"]] // 4), "tcId": test["tcId"]}
    groups = [{"tests": [answer(group, test) for test in group["tests"]], "tgId": group["tgId"]}
              for group in prompts["testGroups"]]
    return {"algorithm": prompts["algorithm"], "revision": "1.0", "testGroups": groups, "vsId": number}


def enveloped(thing):
    return [{"acvVersion": "1.0"}, thing]


def padded(thing, most):
    """A body of so many bytes: indented, and then filled up with white space."""
    body = json.dumps(enveloped(thing), indent=4).encode()
    expect(f"{len(body)} of {most} bytes", len(body) <= most, True)
    return body.ljust(most)


def bodies(client, token):
    """The longest bodies that clients need have the lengths that the example names, and pass. Longer ones don't."""
    lengths, keys = {"increment": 8, "max": 65536, "min": 0}, {"increment": 8, "max": 524288, "min": 8}
    wide = [{"algorithm": name, "messageLength": [lengths], "revision": "1.0"} for name in HASHES]
    wide += [{"algorithm": f"HMAC-{name}", "keyLen": [keys], "macLen": [bits - 8, bits], "revision": "1.0"}
             for name, bits in HASHES.items()]
    session = client.must("POST", "/acvp/v1/testSessions", token, {"algorithms": wide})
    bound = session["accessToken"]
    prompts = {of_set: client.must("GET", of_set, bound) for of_set in session["vectorSetUrls"]}
    # by the greatest number that a vector set can have
    sizes = {of_set: len(compact(enveloped(unread(of, 999999999920)))) for of_set, of in prompts.items()}
    longest = max(sizes, key=sizes.get)
    expect(f"the longest of {sizes}", (prompts[longest]["algorithm"], sizes[longest]), ("SHA2-512", 17661))
    given = unread(prompts[longest], prompts[longest]["vsId"])
    many = {"algorithm": "HMAC-SHA2-512/256", "keyLen": [{"increment": 524280, "max": 524288, "min": 524280}] * 32,
            "macLen": [{"increment": 128, "max": 256, "min": 128}] * 32, "revision": "1.0"}
    several = {"algorithms": [many] * 20, "encryptAtRest": False, "isSample": False}
    expect("the longest registration", len(compact(enveloped(several))), 55938)
    vendor = {"name": "\u00fc" * 8186}
    expect("the longest vendor", len(json.dumps(vendor, ensure_ascii=False, separators=(",", ":")).encode()), 16383)
    for path, by, thing, most in [(longest + "/results", bound, given, 65536),
                                  ("/acvp/v1/testSessions", token, several, 262144),
                                  ("/acvp/v1/vendors", token, vendor, 65536)]:
        body = padded(thing, most)
        expect(f"{most} bytes to {path}", client.call("POST", path, by, body=body)[0], 200)
        expect(f"a byte more to {path}", client.call("POST", path, by, body=body + b" "), TOO_LARGE)
    expect("more bytes by PUT", client.call("PUT", longest + "/results", bound, body=b" " * 65537), TOO_LARGE)


def withdrawn(lab, port):
    """A withdrawn certificate is refused from the next reload on, and another one isn't. Its name may get a new one."""
    first, second = Front(lab, port), Front(lab, port, "authority/client-second")
    asked = "GET", "/acvp/v1/account"

    def refused():
        for _ in range(200):
            if second.call(*asked) == NO_CLIENT:
                return
            time.sleep(0.05)
        raise SystemExit("a withdrawn certificate is accepted")

    makes(lab, "withdraw", "authority", "second")
    expect("a certificate on the list, before the proxy is reloaded", second.call(*asked), NO_TOKEN)
    reloads(lab)
    refused()
    expect("another certificate", first.call(*asked), NO_TOKEN)
    makes(lab, "withdraw", "authority", "second")
    makes(lab, "list", "authority")
    for name in ("client-second.pem", "client-second-key.pem"):
        os.rename(lab.path(f"authority/{name}"), lab.path(f"old-{name}"))
    makes(lab, "client", "authority", "second")
    reloads(lab)
    time.sleep(1)
    expect("the old certificate, by the list that is made again", second.call(*asked), NO_CLIENT)
    expect("a new one of the same name", Front(lab, port, "authority/client-second").call(*asked), NO_TOKEN)
    expect("another certificate behind it", first.call(*asked), NO_TOKEN)


def rates(lab, port):
    """Who sends on and on is refused, and not for another's requests, nor for those of a stranger's certificate with
    its name. What costs the server more has a rate of its own."""
    first, second, third = (Front(lab, port, f"authority/client-{name}") for name in ("acme", "second", "third"))
    of_set = "/acvp/v1/testSessions/7000001/vectorSets/700000101"
    stranger = Front(lab, port, "a stranger/client-second")
    expect("a stranger's requests", [stranger.call("GET", of_set) for _ in range(140)], [NO_CLIENT] * 140)
    few = second.until_refused("GET", of_set)
    expect(f"{few} costly requests at once, where 120 may be", few >= 120, True)
    for method, path in [("GET", of_set + "/expected"), ("POST", of_set + "/results"), ("PUT", of_set + "/results"),
                         ("PUT", "/acvp/v1/testSessions/7000001")]:
        few = second.until_refused(method, path)
        expect(f"{few} of {method} {path} behind them", few < 60, True)
    expect("what costs less beside them", second.call("GET", of_set + "/results"), NO_TOKEN)
    few = third.until_refused("GET", "/acvp/v1/account")
    expect(f"{few} requests at once, where 200 may be", few >= 200, True)
    expect("another client beside them", first.call("GET", of_set), NO_TOKEN)


def over_tls(lab, port):
    """A session passes through the proxy, beside a client that stops half way; what isn't a request of a client's is
    told in the protocol's envelope."""
    client = Front(lab, port)
    slow = client.connect()
    slow.sendall(b"POST /acvp/v1/login HTTP/1.1\r\nHost: x\r\nContent-Length: 100\r\n\r\n[")
    expect("the version of TLS", slow.version(), "TLSv1.3")
    within_a_step(5)
    began = time.monotonic()
    token = client.must("POST", "/acvp/v1/login", thing={"password": lab.code(7), "user": "7"})["accessToken"]
    session = client.must("POST", "/acvp/v1/testSessions", token, REGISTRATION)
    bound, of_set = session["accessToken"], session["vectorSetUrls"][0]
    client.must("POST", of_set + "/results", bound, answers(client.must("GET", of_set, bound)))
    expect("the results over TLS", client.must("GET", session["url"] + "/results", bound)["passed"], True)
    expect("a validation beside a slow client, in ten seconds", time.monotonic() - began < 10, True)
    slow.close()
    shapes(client)
    twenty_sets(client, token)
    bodies(client, token)
    certificate = [lab.path(f"authority/{name}.pem") for name in ("authority", "client-acme", "client-acme-key")]
    done = subprocess.run([sys.executable, os.path.join(TOP, "examples", "validation.py"), "--url",
                           f"https://127.0.0.1:{port}/acvp/v1", "8", lab.path("secret-8"), *certificate],
                          capture_output=True, text=True, timeout=120)
    expect("the example's validation over TLS", (done.returncode, done.stderr), (0, ""))
    expect("its last line", done.stdout.split("\n")[-2].split()[-1], "/acvp/v1/testSessions/8000001")
    expect("a path that is none of the server's", client.call("GET", "/other"), (404, {"error": "noRoute"}))
    for path, most in [("testSessions", 2097152), ("login", 4096)]:
        expect(f"too much for {path}", client.call("POST", f"/acvp/v1/{path}", body=b" " * (most + 1)), TOO_LARGE)
    for certificate, what in [(None, "no certificate"), ("a stranger/client-second", "another authority's"),
                              ("authority/server", "the proxy's own")]:
        expect(what, Front(lab, port, certificate).call("GET", "/acvp/v1/account"), NO_CLIENT)
    withdrawn(lab, port)
    tries = [client.call("POST", "/acvp/v1/login", thing={"password": "00000000", "user": "7"})[0] for _ in range(20)]
    expect("logins that are tried on and on", (tries[0], tries[-1]), (403, 429))
    rates(lab, port)
    lab.kill()
    expect("a server that isn't there", client.call("GET", "/acvp/v1/account"), (503, {"error": "unavailable"}))


def proxy(program):
    with tempfile.TemporaryDirectory() as folder:
        lab = Laboratory(program, folder)
        lab.does("ready", "init", "--db", lab.db)
        certificates(lab)
        lab.serve(count=None)
        lab.add(7)
        lab.add(8)
        port = free_port()
        try:
            with nginx(lab, configured(lab, port), port):
                over_tls(lab, port)
        finally:
            lab.kill()


def divided(lab, labs, port):
    """Each client reaches the accounts of its own laboratory alone, whatever it knows of the other's, and a client that
    no laboratory has reaches none."""
    acme, example, third = (Front(lab, port, f"authority/client-{name}") for name in ("acme", "example", "third"))
    within_a_step(10)
    first, second = ({"password": of.code(account), "user": str(account)} for of, account in zip(labs, (7, 5007)))
    for client, login in [(acme, second), (example, first)]:
        expect("a login of the other's account", client.call("POST", "/acvp/v1/login", thing=login),
               (403, {"error": "loginRefused"}))
    tokens = [client.must("POST", "/acvp/v1/login", thing=login)["accessToken"]
              for client, login in [(acme, first), (example, second)]]
    for client, other, token, account in zip((acme, example), (example, acme), tokens, (7, 5007)):
        session = client.must("POST", "/acvp/v1/testSessions", token, REGISTRATION)
        expect("its session", session["url"], f"/acvp/v1/testSessions/{account}000001")
        bound, paths = session["accessToken"], [session["url"], session["vectorSetUrls"][0]]
        expect("its account", client.must("GET", "/acvp/v1/account", token)["account"], account)
        expect("its session again", client.must("GET", session["url"], bound)["url"], session["url"])
        for path, by in [("/acvp/v1/account", token), *((path, bound) for path in paths)]:
            expect(f"{path} of the other's", other.call("GET", path, by), (401, {"error": "tokenSignature"}))
            expect(f"{path} by a client of no laboratory", third.call("GET", path, by), NO_CLIENT)
    for path in ("/acvp/v1/login", "/acvp/v1/testSessions", "/acvp/v1/vendors", "/acvp/v1"):
        expect(f"{path} by a client of no laboratory", third.call("POST", path, tokens[0], first), NO_CLIENT)
    expect("a path that is none of the servers'", third.call("GET", "/other"), (404, {"error": "noRoute"}))
    labs[1].kill()
    expect("a laboratory that isn't there", example.call("GET", "/acvp/v1/account"), (503, {"error": "unavailable"}))
    expect("the other one", acme.must("GET", "/acvp/v1/account", tokens[0])["sessions"], 1)


def two_laboratories(program):
    """Two programs with two databases behind one proxy."""
    with contextlib.ExitStack() as opened:
        labs = [Laboratory(program, opened.enter_context(tempfile.TemporaryDirectory())) for _ in range(2)]
        for lab, account in zip(labs, (7, 5007)):
            os.remove(lab.keys)
            lab.does(f"made {lab.keys}", "keys", "--new", lab.keys)
            lab.does("ready", "init", "--db", lab.db)
            lab.add(account)
            opened.callback(lab.kill)
            lab.serve(count=None)
        lab = labs[0]
        makes(lab, "authority", "authority", "Example Laboratories")
        makes(lab, "server", "authority", "127.0.0.1")
        for name in ("acme", "example", "third"):
            makes(lab, "client", "authority", name)
        port, third = free_ports(2)
        ports = [labs[0].port, labs[1].port, third]
        chosen = lab.write(lab.path("two_laboratories.conf"), replaced("two_laboratories.conf", [
            (f"127.0.0.1:{old}", f"127.0.0.1:{new}") for old, new in zip((8080, 8081, 8082), ports)]))
        opened.enter_context(nginx(lab, configured(lab, port, chosen), port))
        divided(lab, labs, port)


def service(program):
    if not shutil.which("systemd-analyze"):
        print("skipped: what systemd says of the service (apt-get install systemd)")
        return
    with open(os.path.join(TOP, "examples", "acvp_server.service")) as file:
        text = file.read()
    with tempfile.TemporaryDirectory() as folder:
        place = os.path.join(folder, "acvp_server.service")
        with open(place, "w") as file:
            file.write(text.replace("/usr/local/bin/acvp_server", program))
        done = subprocess.run(["systemd-analyze", "verify", place], capture_output=True, text=True)
        expect("what systemd says of the service", (done.returncode, done.stdout), (0, ""))
        done = subprocess.run(["systemd-analyze", "security", "--offline=true", place], capture_output=True, text=True)
        level = re.search(r"exposure level for .*: ([0-9.]+)", done.stdout)
        if level is None:
            print("skipped: how exposed the service is, which this systemd doesn't say of a file")
        else:
            expect(f"how exposed the service is: {level.group(1)}", float(level.group(1)) < 2, True)


def main():
    program = os.path.abspath(sys.argv[1])
    missing = [tool for tool in ("nginx", "openssl") if not shutil.which(tool)]
    if missing:
        print(f"skipped: a proxy before the program (apt-get install {' '.join(missing)})")
    else:
        proxy(program)
        two_laboratories(program)
    service(program)
    print(f"{laboratory.checked} comparisons")


main()

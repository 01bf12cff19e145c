#!/usr/bin/env python3
"""Runs the built program on scripts and command lines, and compares its output and its status.

Codes come from oathtool and tokens from joserfc where they are at hand: a code of another program logs in here,
a token of this one verifies there, and a token signed there is renewed here."""
import base64
import hashlib
import hmac
import json
import os
import shutil
import subprocess
import sys
import tempfile

PROGRAM = sys.argv[1]
SECRET = b"12345678901234567890123456789012".hex()
KEY = bytes(range(32))
checked = 0


def run(args, stdin=b""):
    return subprocess.run([PROGRAM] + args, input=stdin, capture_output=True)


def expect(what, got, wanted):
    global checked
    if got != wanted:
        sys.exit(f"{what}: {got!r} in place of {wanted!r}")
    checked += 1


def login(moment, password, token=None, user="7"):
    members = {"password": password, "user": user}
    if token is not None:
        members["accessToken"] = token
    body = json.dumps([{"acvVersion": "1.0"}, members], separators=(",", ":")).encode()
    head = b"POST /acvp/v1/login HTTP/1.1\r\nHost: localhost\r\nContent-Length: %d\r\n\r\n" % len(body)
    return b"request %d %d\n%s\n" % (moment, len(head + body), head + body)


def add(secret=SECRET):
    return f"account-add 0 7 {secret}\n".encode()


def token_in(output):
    return json.loads(output.split(b"\r\n\r\n")[-1])[1]["accessToken"]


def part_of(token, place):
    part = token.split(".")[place]
    return base64.urlsafe_b64decode(part + "=" * (-len(part) % 4))


def claims_of(token):
    return json.loads(part_of(token, 1))


def is_signed(token, key):
    text = token[:token.rindex(".")]
    return part_of(token, 2) == hmac.new(key, text.encode(), hashlib.sha256).digest()


def signed_by_hmac(claims, key):
    def encoded(part):
        return base64.urlsafe_b64encode(part).rstrip(b"=").decode()
    text = encoded(b'{"alg":"HS256","typ":"JWT"}') + "." + encoded(json.dumps(claims, separators=(",", ":")).encode())
    return text + "." + encoded(hmac.new(key, text.encode(), hashlib.sha256).digest())


def whole_outputs(folder):
    """The first login and a late one under a key of zeros, byte for byte."""
    zeros = os.path.join(folder, "zeros")
    with open(zeros, "w") as file:
        file.write(("0" * 64 + "\n") * 2)
    token = signed_by_hmac({"exp": 1859, "iat": 59, "sub": "7"}, bytes(32))
    between = b"\r\nContent-Type: application/json\r\nContent-Length: %d\r\nConnection: close\r\n\r\n%s"
    for moment, length, first, body in [
            (59, 292, b"HTTP/1.1 200 OK\r\nDate: Thu, 01 Jan 1970 00:00:59 GMT",
             b'[{"acvVersion":"1.0"},{"accessToken":"%s"}]' % token.encode()),
            (90, 181, b"HTTP/1.1 403 Forbidden\r\nDate: Thu, 01 Jan 1970 00:01:30 GMT",
             b'[{"acvVersion":"1.0"},{"error":"loginRefused"}]')]:
        reply = first + between % (len(body), body)
        expect(f"the length of the reply at {moment}", len(reply), length)
        ran = run(["script", "--keys", zeros], add() + login(moment, "46119246"))
        expect(f"the whole output of a login at {moment}", (ran.returncode, ran.stdout, ran.stderr),
               (0, b"order done\nreply %d\n%s\n" % (length, reply), b""))


def scripts(keys):
    script = ["script", "--keys", keys]
    accepted = run(script, add() + login(59, "46119246"))
    expect("a login at second 59", accepted.returncode, 0)
    expect("its reply's length", accepted.stdout.split(b"\n")[:2], [b"order done", b"reply 292"])
    expect("its claims", claims_of(token_in(accepted.stdout)), {"exp": 1859, "iat": 59, "sub": "7"})
    refused = run(script, add() + login(90, "46119246"))
    expect("a login at second 90", refused.stdout.split(b"\n")[1], b"reply 181")
    orders = run(script, add() * 2 + b"account-disable 1 8\naccount-disable 1 7\n" + login(59, "46119246"))
    expect("orders", orders.stdout.split(b"\n")[:4], [b"order done", b"order taken", b"order unknown", b"order done"])
    expect("a disabled account", json.loads(orders.stdout.split(b"\r\n\r\n")[-1])[1], {"error": "loginRefused"})
    for what, text in [("a line without a length", b"request 59\n"), ("an end within an event", add()[:-1]),
                       ("an unknown order", b"request-approved 1 7000001\n"), ("account 0", b"account-disable 1 0\n"),
                       ("a short request", b"request 1 5\nabc\n"), ("two spaces", b"account-disable  1 7\n")]:
        stopped = run(script, add() + text)
        expect(what, (stopped.returncode, stopped.stdout, stopped.stderr), (1, b"order done\n", b"fault: syntax\n"))


def limits(keys):
    script = ["script", "--keys", keys]
    line, answer = b"account-disable 1 8\n", b"order unknown\n"
    whole = run(script, line * 100000)
    expect("100000 events", (whole.returncode, whole.stdout == answer * 100000, whole.stderr), (0, True, b""))
    stopped = run(script, line * 100001)
    expect("one event more", (stopped.returncode, stopped.stdout == answer * 100000, stopped.stderr),
           (1, True, b"fault: limit\n"))
    stopped = run(script, line * 100000 + b"\n")
    expect("no event behind the last one", (stopped.returncode, stopped.stdout == answer * 100000, stopped.stderr),
           (1, True, b"fault: limit\n"))


def version():
    """The program tells the kit that it is proved with, as the README's last line does."""
    with open(os.path.join(os.path.dirname(os.path.abspath(__file__)), "..", "..", "README.md")) as file:
        last = file.read().splitlines()[-1]
    kit = subprocess.run(["rt", "version"], capture_output=True, check=True, text=True).stdout.strip()
    expect("the README's last line", last, f"Proved with `{kit}`.")
    for word in ("--version", "-V"):
        told = run([word])
        expect(f"the line {word}", (told.returncode, told.stdout, told.stderr),
               (0, f"acvp_server of schema 3, from sources proved with {kit}\n".encode(), b""))
    told_builds(kit)


def told_builds(kit):
    """Of a process as large as one of `rt try`, which no proof precedes, --version says so; without /proc it says that it can't
    be told."""
    untold = f"for {kit}: without /proc it can't be told if its sources are proved"
    sizes = [("268435455 1 1 1 0 1 0\n", f"from sources proved with {kit}"), ("268435456 1 1 1 0 1 0\n", f"not proved, for {kit}"),
             ("", untold), ("x\n", untold), (None, untold)]
    shows = 'mount --bind "$1" /proc && exec "$2" --version'
    for size, told in sizes:
        with tempfile.TemporaryDirectory() as folder:
            os.mkdir(os.path.join(folder, "self"))
            if size is not None:
                with open(os.path.join(folder, "self", "statm"), "w") as file:
                    file.write(size)
            done = subprocess.run(["unshare", "--mount", "sh", "-c", shows, "sh", folder, os.path.abspath(PROGRAM)], capture_output=True)
        if b"unshare: " in done.stderr or b"mount: " in done.stderr:
            print("skipped: how --version tells an unproved build, for which this user can't mount a folder")
            return
        expect(f"the version where the size is told as {size!r}", (done.returncode, done.stdout, done.stderr),
               (0, f"acvp_server of schema 3, {told}\n".encode(), b""))


def command_lines(keys, folder):
    short = os.path.join(folder, "short")
    with open(short, "w") as file:
        file.write("0" * 64 + "\n")
    for path in [short, os.path.join(folder, "absent")]:
        stopped = run(["script", "--keys", path])
        expect("a bad keys file", (stopped.returncode, stopped.stdout, stopped.stderr), (1, b"", b"fault: keys\n"))
    expect("an empty script", (run(["script", "--keys", keys]).returncode, run(["script", "--keys", keys]).stdout), (0, b""))
    for args in [[], ["scripts"], ["script"], ["script", "--keys"], ["script", "--keys", keys, "more"]]:
        stopped = run(args)
        expect(f"the line {args}", (stopped.returncode, stopped.stdout, bool(stopped.stderr)), (2, b"", True))
    for args in [["script", "--help"], ["--help"]]:
        helped = run(args)
        expect(f"the line {args}", (helped.returncode, b"Example: acvp_server " in helped.stdout, helped.stderr), (0, True, b""))


def keys_files(keys, folder):
    path = os.path.join(folder, "ring")
    later, latest = bytes(range(32, 64)), bytes(range(64, 96))
    first, second, third = ["token " + key.hex() for key in (KEY, later, latest)]
    seeds = ["seed " + "0" * 64, "seed " + "1" * 64]

    def lines(*all_lines):
        return "".join(line + "\n" for line in all_lines)

    def run_with(text, script):
        with open(path, "w") as file:
            file.write(text)
        return run(["script", "--keys", path], script)

    def issued(text):
        return token_in(run_with(text, add() + login(59, "46119246")).stdout)

    old = token_in(run(["script", "--keys", keys], add() + login(59, "46119246")).stdout)
    plain = b'{"alg":"HS256","typ":"JWT"}'
    expect("a token of the short form", (part_of(old, 0), is_signed(old, KEY)), (plain, True))
    one = issued(lines(first, *seeds))
    expect("a token of a ring of one key", (part_of(one, 0), is_signed(one, KEY)), (plain, True))
    two = issued(lines(first, second, seeds[0]))
    expect("a token of a ring of two keys", (part_of(two, 0), is_signed(two, later)),
           (b'{"alg":"HS256","kid":"1","typ":"JWT"}', True))
    ring = lines(first, "token -", third, *seeds)
    token = issued(ring)
    expect("a token of a ring with a retired key", (part_of(token, 0), is_signed(token, latest)),
           (b'{"alg":"HS256","kid":"2","typ":"JWT"}', True))
    full = issued(lines(*["token -"] * 15, third, *seeds * 8))
    expect("a token of a ring of 16 entries", (part_of(full, 0), is_signed(full, latest)),
           (b'{"alg":"HS256","kid":"15","typ":"JWT"}', True))
    renewed = run_with(ring, add() + login(59, "46119246", old)).stdout
    expect("a token of the first key", claims_of(token_in(renewed)), {"exp": 1859, "iat": 59, "sub": "7"})
    refused = run_with(ring, add() + login(59, "46119246", two)).stdout
    expect("a token of the retired key", json.loads(refused.split(b"\r\n\r\n")[-1])[1], {"error": "renewalRefused"})
    for what, text in [("no seed", lines(first)), ("no entry", lines(*seeds)), ("nothing", ""),
                       ("the last key retired", lines(first, "token -", *seeds)),
                       ("17 entries", lines(*[first] * 17, *seeds)), ("17 seeds", lines(first, *seeds * 8, seeds[0])),
                       ("a seed before the ring", lines(seeds[0], first)),
                       ("an entry behind a seed", lines(first, *seeds, second)),
                       ("a line without its line feed", lines(first, *seeds)[:-1]),
                       ("a space more", lines("token  " + KEY.hex(), *seeds)),
                       ("a space behind", lines(first, seeds[0] + " ")), ("63 digits", lines(first[:-1], *seeds)),
                       ("65 digits", lines(first + "0", *seeds)), ("no digit", lines(first[:-1] + "g", *seeds)),
                       ("an empty line", lines(first, *seeds, "")),
                       ("a retired seed", lines(first, seeds[0], "seed -")),
                       ("a word on one line of two", lines(KEY.hex(), seeds[0])),
                       ("three lines without a word", lines(KEY.hex(), "0" * 64, "0" * 64))]:
        stopped = run_with(text, b"")
        expect(f"a keys file: {what}", (stopped.returncode, stopped.stdout, stopped.stderr), (1, b"", b"fault: keys\n"))


def codes_of_oathtool(keys):
    if not shutil.which("oathtool"):
        print("skipped: codes of another program (apt-get install oathtool)")
        return
    for number, moment in enumerate([0, 29, 30, 1111111111, 2000000000, 4102444799]):
        secret = bytes((number * 37 + i * 11) % 256 for i in range(32)).hex()
        code = subprocess.run(["oathtool", "--totp=sha256", "-d", "8", "-N", f"@{moment}", secret],
                              capture_output=True, check=True, text=True).stdout.strip()
        output = run(["script", "--keys", keys], add(secret) + login(moment, code)).stdout
        expect(f"oathtool's code at {moment}", claims_of(token_in(output))["iat"], moment)


def tokens_of_joserfc(keys):
    try:
        from joserfc import jwt
        from joserfc.jwk import OctKey
    except ImportError:
        print("skipped: tokens of another program (pip install joserfc)")
        return
    key = OctKey.import_key(KEY)
    issued = token_in(run(["script", "--keys", keys], add() + login(59, "46119246")).stdout)
    read = jwt.decode(issued, key, algorithms=["HS256"])
    expect("joserfc reads a token", dict(read.claims), {"exp": 1859, "iat": 59, "sub": "7"})
    for claims in [{"exp": 50, "iat": 10, "sub": "7"}, {"iss": "other", "sub": "7", "sid": 7000001, "iat": 1, "exp": 9}]:
        signed = jwt.encode({"alg": "HS256"}, claims, key)
        output = run(["script", "--keys", keys], add() + login(59, "46119246", signed)).stdout
        wanted = {"exp": 1859, "iat": 59, "sub": "7"}
        if "sid" in claims:
            wanted["sid"] = claims["sid"]
        expect("joserfc's token is renewed", claims_of(token_in(output)), wanted)


def main():
    with tempfile.TemporaryDirectory() as folder:
        keys = os.path.join(folder, "keys")
        with open(keys, "w") as file:
            file.write(KEY.hex() + "\n" + "0" * 64 + "\n")
        whole_outputs(folder)
        scripts(keys)
        limits(keys)
        version()
        command_lines(keys, folder)
        keys_files(keys, folder)
        codes_of_oathtool(keys)
        tokens_of_joserfc(keys)
    print(f"{checked} comparisons")


main()

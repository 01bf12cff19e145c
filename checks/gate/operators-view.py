"""What the operator is shown of accounts, of requests and of a certification, while the records are served and while
they aren't.

    operators-view.py PROGRAM

The wanted lines are written from what was asked for here, and the bodies are those that the account itself gets by its
own requests. Nothing is left beside the database, and nothing of it changes. What a vendor wrote to act on the terminal
that shows it is escaped."""
import contextlib
import hashlib
import html.parser
import json
import os
import re
import shutil
import sqlite3
import sys
import tempfile

from laboratory import Laboratory, expect, request
import laboratory
import page_sums
from validation import answers

CAPABILITIES = [{"algorithm": "SHA2-256", "messageLength": [8], "revision": "1.0"},
                {"algorithm": "HMAC-SHA2-256", "keyLen": [256], "macLen": [256], "revision": "1.0"}]
VENDOR, MODULE, ENVIRONMENT = {"name": "Acme"}, {"name": "Hash \u00fc", "version": "2"}, {"name": "Linux"}
BODY = b"\r\n\r\n"
ANOTHER = '8000001 account 8 (disabled) vendor initial\n    "Another"'
# Controls, separators of lines and paragraphs, what turns the direction of writing, and what isn't seen: all of some, and a
# few of each other range of the general categories Cc, Cf, Zl and Zp, and of what is ignorable by default.
ACTING = "".join(map(chr, [*range(32), *range(0x7F, 0xA0), 0xAD, 0x61C, *range(0x200B, 0x2010), *range(0x2028, 0x202F),
                            *range(0x2060, 0x2070), 0xFEFF, *range(0xFFF9, 0xFFFC), 0x34F, 0x600, 0x6DD, 0x115F, 0x1160, 0x17B4,
                            0x180B, 0x180E, 0x3164, 0xFE00, 0xFE0F, 0xFFA0, 0x1D173, 0xE0001, 0xE0020, 0xE0041, 0xE007F, 0xE0100]))


NO_TABLES = {"accounts": 0, "requests": 0, "sessions": 0, "sets": 0, "whole": True}


def compact(value):
    return json.dumps(value, ensure_ascii=False, separators=(",", ":"), sort_keys=True)


def short(url):
    return url[len("/acvp/v1"):]


def unfolded(text):
    """A text whose lines all have room in 80 columns, without the ends of lines that go on, indented by eight."""
    expect("lines of more than 80 bytes", [line for line in text.split("\n") if len(line.encode()) > 80], [])
    return text.replace("\n        ", "")


def shows(lab, *args):
    """The lines that a command prints, which nothing is left of. Indented ones belong to the line before them, and words
    have room in 80 columns."""
    before = {name: os.stat(lab.path(name)).st_mtime_ns for name in os.listdir(lab.folder)}
    status, output, faults = lab.run(*args)
    expect(f"the command {args}", (status, faults), (0, ""))
    after = {name: os.stat(lab.path(name)).st_mtime_ns for name in os.listdir(lab.folder)}
    expect(f"the files behind {args}", after, before)
    words = args[0] in ("accounts", "requests", "request-show") and "--json" not in args
    return re.split(r"\n(?!    )", unfolded(output) if words else output)[:-1]


def document_of(lab, *args):
    """The JSON document that a command prints: an array's items in lines, or an object in one; compact, with ascending
    members."""
    lines = shows(lab, *args, "--json")
    value = json.loads("\n".join(lines))
    expect(f"the document of {args}", "".join(lines), compact(value))
    expect(f"the lines of {args}", len(lines), len(value) + 1 if isinstance(value, list) and value else 1)
    return value


def asked_for(number, kind, name, enabled=True, **more):
    """A request as JSON: what isn't said of it is null."""
    return {"account": number // 1000000, "approved": None, "certification": None, "enabled": enabled, "kind": kind, "name": name,
            "request": number, "status": "initial", **more}


def body(lab, path, token):
    """The body that an account is answered."""
    return lab.ask(request("GET", path, token)).split(BODY, 1)[1].decode()


def asked(lab, token):
    """A vendor, a module and an environment are asked for and approved, by the numbers 1, 2 and 3."""
    for place, (path, thing) in enumerate([("/vendors", VENDOR), ("/modules", MODULE), ("/oes", ENVIRONMENT)], 1):
        if path == "/modules":
            thing = dict(thing, vendorUrl="/acvp/v1/vendors/7000001")
        lab.must("POST", path, token, thing)
        number = 7000000 + place
        shown = shows(lab, "request-show", "--db", lab.db, "--keys", lab.keys, "--request", str(number))
        kind = {"/vendors": "vendor", "/modules": "module", "/oes": "environment"}[path]
        line = f"{number} account 7 {kind} initial\n    {json.dumps(thing['name'], ensure_ascii=False)}"
        expect(f"the line of request {number}", shown[0], line)
        expect(f"the object of request {number}", [json.loads(line) for line in shown[1:]], [thing])
        expect("the requests that wait", shows(lab, "requests", "--db", lab.db), [line, ANOTHER])
        expect(f"request {number} as a document",
               document_of(lab, "request-show", "--db", lab.db, "--keys", lab.keys, "--request", str(number)),
               [asked_for(number, kind, thing["name"]), {"object": thing}])
        lab.does(f"request {number} approved /acvp/v1{path}/7000001", "request-approve", "--db", lab.db, "--request",
                 str(number))


def certified(lab, token):
    """A session with a right vector set and a wrong one, which is cancelled, waits for its certification. Gives what
    `request-show` is to print of it, its token, and the answers to the right vector set."""
    made = lab.must("POST", "/testSessions", token, {"algorithms": CAPABILITIES})
    bound, session = made["accessToken"], short(made["url"])
    right, wrong = map(short, made["vectorSetUrls"])
    given = answers(lab.must("GET", right, bound))
    lab.must("POST", right + "/results", bound, given)
    lab.must("POST", wrong + "/results", bound, {"testGroups": [], "vsId": int(wrong.split("/")[-1])})
    kept, failed = body(lab, right + "/results", bound), body(lab, wrong + "/results", bound)
    lab.must("DELETE", wrong, bound)
    lab.must("PUT", session, bound, {"moduleUrl": "/acvp/v1/modules/7000001", "oeUrl": "/acvp/v1/oes/7000001"})
    paths = [(session, bound), (session + "/results", bound), ("/modules/7000001", token), ("/vendors/7000001", token),
             ("/oes/7000001", token)]
    wanted = [f'7000004 account 7 certification initial\n    session 7000001 of {made["createdOn"][:10]} 1 of 1 passed\n    "{MODULE["name"]}"',
              ("vectorSet 700000101 kept ", CAPABILITIES[0]), f"vectorSet 700000101 {kept}",
              ("vectorSet 700000102 cancelled ", CAPABILITIES[1]), f"vectorSet 700000102 {failed}"]
    return wanted + [f"/acvp/v1{path} {body(lab, path, by)}" for path, by in paths], bound, given


def compared(what, shown, wanted):
    expect(f"how many lines {what} has", len(shown), len(wanted))
    for line, right in zip(shown, wanted):
        if isinstance(right, tuple):
            front, capability = right
            expect(what, line[:len(front)], front)
            expect(what, {**json.loads(line[len(front):]), "revision": "1.0"}, capability)
        else:
            expect(what, line, right)


def compared_as_document(lab, wanted):
    """The same as a document: an object for each line."""
    shown = document_of(lab, "request-show", "--db", lab.db, "--keys", lab.keys, "--request", "7000004")
    for at in (1, 3):
        front, capability = wanted[at]
        _, number, state, _ = front.split(" ")
        there = {**shown[at].pop("capability"), "revision": "1.0"}
        expect(f"the capability of {number}", (there, shown[at]), (capability, {"state": state, "vectorSet": int(number)}))
        results = json.loads(wanted[at + 1].split(" ", 2)[2])
        expect(f"the results of {number}", shown[at + 1], {"results": results, "vectorSet": int(number)})
    read = [line.split(" ", 1) for line in wanted[5:]]
    expect("what the account reads", shown[5:], [{"body": json.loads(body), "path": path} for path, body in read])
    return shown[0]


class Page(html.parser.HTMLParser):
    """The texts of a page's cells, whose elements are closed in their order."""

    def __init__(self, text):
        super().__init__()
        self.open, self.rows, self.texts = [], [], []
        self.feed(text)
        self.close()
        expect("the elements that are left open", self.open, [])

    def handle_starttag(self, tag, attributes):
        if tag != "meta":
            self.open.append(tag)
        if tag == "tr":
            self.rows.append([])
        if tag in ("td", "th"):
            self.rows[-1].append("")

    def handle_endtag(self, tag):
        expect("the element that is closed", tag, self.open.pop() if self.open else None)

    def handle_data(self, text):
        if "td" in self.open or "th" in self.open:
            self.rows[-1][-1] += text
        elif "style" not in self.open:
            self.texts.append(text.strip())


def pages(lab, text):
    """The page of a certification says what its document says, and loads nothing."""
    lines = shows(lab, "certificate", "--db", lab.db, "--keys", lab.keys, "--request", "7000004", "--html")
    expect("whether the page needs nothing else", [word for word in ("src", "href", "url(", "@import", "script") if word in "".join(lines)], [])
    page, told = Page("\n".join(lines)), json.loads(text)
    expect("the texts around its tables", [text for text in page.texts if text], ["Validation certificate"] * 2 + ["Vector sets"])
    rows = dict(page.rows[:6])
    session = told["testSession"]
    expect("its first rows", (rows.pop("Request"), rows.pop("Account"), rows.pop("Test session")),
           (told["requestUrl"], str(told["account"]), f"{session['url']} of {session['createdOn']}"))
    expect("its objects", {label: json.loads(said) for label, said in rows.items()},
           {"Vendor": told["vendor"], "Module": told["module"], "Operational environment": told["oe"]})
    expect("its vector sets", [(row[0], row[1], json.loads(row[2]), row[3]) for row in page.rows[7:]],
           [(str(one["vsId"]), one["disposition"], one["capability"], one["answersSha256"]) for one in told["vectorSets"]])
    return lines


def kept_answers(lab, number):
    """The text of the answers to a vector set, as SQLite reads it from a copy of the file and its log."""
    with tempfile.TemporaryDirectory() as folder:
        copy = os.path.join(folder, "copy.db")
        for end in ("", "-wal"):
            if os.path.exists(lab.db + end):
                shutil.copy(lab.db + end, copy + end)
        with contextlib.closing(sqlite3.connect(copy)) as connection:
            return connection.execute("SELECT answers FROM vset2 WHERE vs = ?", (number,)).fetchone()[0]


def texts(test):
    """The texts that a test is answered."""
    results = test["resultsArray"] if "resultsArray" in test else [test]
    return [result["md"] if "md" in result else result["mac"] for result in results]


def document(lab):
    """The document of the certification, which is one line of compact JSON with ascending members."""
    shown = shows(lab, "certificate", "--db", lab.db, "--keys", lab.keys, "--request", "7000004")
    expect("the lines of the document", len(shown), 1)
    expect("the document as compact JSON", compact(json.loads(shown[0])), shown[0])
    return shown[0]


def says(lab, text, wanted, given):
    """The document has what was asked for and what the account itself read, and the digest of the kept answers."""
    read = {path: json.loads(body)[1] for path, body in (line.split(" ", 1) for line in wanted[5:])}
    session = read["/acvp/v1/testSessions/7000001"]
    kept = kept_answers(lab, 700000101)
    expect("the kept answers", json.loads(kept),
           [[test["tcId"], texts(test)] for group in given["testGroups"] for test in group["tests"]])
    expect("the document", json.loads(text),
           {"account": 7, "module": read["/acvp/v1/modules/7000001"], "oe": read["/acvp/v1/oes/7000001"],
            "requestUrl": "/acvp/v1/requests/7000004",
            "testSession": {"createdOn": session["createdOn"], "url": session["url"]},
            "vectorSets": [{"answersSha256": hashlib.sha256(kept.encode()).hexdigest(), "capability": CAPABILITIES[0],
                            "disposition": "passed", "vsId": 700000101}],
            "vendor": read["/acvp/v1/vendors/7000001"]})


def no_documents(lab):
    """Only an approved certification has a document, and only under the seed of its vector sets."""
    show = ["certificate", "--db", lab.db, "--keys", lab.keys, "--request"]
    for number in ("7000001", "7000005", "8000001", "1"):
        lab.fails("unknown", *show, number)
    lab.fails("keys", "certificate", "--db", lab.db, "--keys", lab.path("no-keys"), "--request", "7000004")
    lab.fails("unavailable", "certificate", "--db", lab.path("absent.db"), "--keys", lab.keys, "--request", "7000004")
    other = lab.write(lab.path("other-keys"), f"{laboratory.KEY.hex()}\n{bytes(32).hex()}\n")
    os.chmod(other, 0o600)
    # a database that knows its seeds tells which is another; one that knows none tells by the answers
    unknowing = lab.path("unknowing.db")
    lab.backs_up("unknowing.db")
    with contextlib.closing(page_sums.connect(unknowing)) as connection:
        connection.execute("DELETE FROM meta WHERE name <> 'schema'")
        connection.commit()
    for db, cause in ((lab.db, "its seed 1 is another than the one that the database was served with"),
                      (unknowing, "it lacks a seed that a vector set names, or has another in its place")):
        expect(f"under another seed, of {db}", lab.run("certificate", "--verbose", "--db", db, "--keys", other, "--request", "7000004"),
               (1, "", f"fault: keys\nbecause: --keys: {cause}\n"))
    os.remove(other)
    expect("no number", lab.run(*show, "0")[0], 2)


def certificates(lab, wanted, token, bound, given):
    """The document is the same bytes after a restart and after all that may happen later."""
    text = document(lab)
    says(lab, text, wanted, given)
    page = pages(lab, text)
    no_documents(lab)
    lab.serve()
    expect("the document while it is served", (document(lab), pages(lab, text)), (text, page))
    lab.must("POST", "/testSessions", token, {"algorithms": CAPABILITIES})
    lab.must("POST", "/testSessions/7000001/reviewers", bound, {"account": 9999})
    lab.must("POST", "/vendors", token, {"name": "Acme the second"})
    lab.does("request 7000005 approved /acvp/v1/vendors/7000002", "request-approve", "--db", lab.db, "--request", "7000005")
    lab.does("account 7 disabled", "account-disable", "--db", lab.db, "--account", "7")
    expect("the document after later events", (document(lab), pages(lab, text)), (text, page))
    lab.kill()
    expect("the document after a restart", document(lab), text)


def shows_plainly(lab, *args, keys=True):
    """The lines of a command, none of which acts on a terminal."""
    lines = shows(lab, *args, "--db", lab.db, *(["--keys", lab.keys] if keys else []))
    expect(f"what acts on a terminal, of the command {args}", set(ACTING) & set("".join(lines).replace("\n    ", "")), set())
    return lines


def acting_text(lab):
    """A vendor, a module and an environment whose names act on a terminal, and a certification of them: what is printed
    doesn't, and has the names that were sent."""
    lab.add(7)
    lab.serve()
    token = lab.token(7)
    things = [("/vendors", {"name": f"vendor <b>&amp;</td> \\{ACTING}\\u0085"}), ("/modules", {"name": f"module {ACTING}", "vendorUrl": "/acvp/v1/vendors/7000001"}),
              ("/oes", {"name": f"{ACTING} environment"})]
    for number, (path, thing) in enumerate(things, 7000001):
        lab.must("POST", path, token, thing)
        shown = shows_plainly(lab, "request-show", "--request", str(number))
        expect(f"the object of request {number} as it was sent", [json.loads(line) for line in shown[1:]], [thing])
        expect(f"the name of request {number}", [json.loads(line) for line in shown[0].split("\n    ")[1:]], [thing["name"]])
        expect("the same in its list", shows_plainly(lab, "requests", keys=False)[-1], shown[0])
        expect("the name in its document", json.loads("".join(shows_plainly(lab, "requests", "--json", keys=False)))[-1]["name"], thing["name"])
        lab.does(f"request {number} approved /acvp/v1{path}/7000001", "request-approve", "--db", lab.db, "--request", str(number))
    # as many vector sets as a session may have, of which the last is cancelled
    made = lab.must("POST", "/testSessions", token, {"algorithms": CAPABILITIES[1:] * 20})
    bound, session, sets = made["accessToken"], short(made["url"]), list(map(short, made["vectorSetUrls"]))
    for of_set in sets[:-1]:
        lab.must("POST", of_set + "/results", bound, answers(lab.must("GET", of_set, bound)))
    lab.must("DELETE", sets[-1], bound)
    lab.must("PUT", session, bound, {"moduleUrl": "/acvp/v1/modules/7000001", "oeUrl": "/acvp/v1/oes/7000001"})
    lines = shows_plainly(lab, "request-show", "--request", "7000004")
    states = [tuple(line.split(" ")[1:3]) for line in lines if line.split(" ")[2:3] in (["kept"], ["cancelled"])]
    expect("which vector sets are shown", states, [(of_set[-9:], "kept") for of_set in sets[:-1]] + [(sets[-1][-9:], "cancelled")])
    shown = dict(line.split(" ", 1) for line in lines)
    for path, thing in things:
        expect(f"{path} as it is read", json.loads(shown[f"/acvp/v1{path}/7000001"])[1], lab.must("GET", f"{path}/7000001", token))
    lab.does("request 7000004 approved /acvp/v1/testSessions/7000001", "request-approve", "--db", lab.db, "--request", "7000004")
    text, = shows_plainly(lab, "certificate", "--request", "7000004")
    expect("the names in a document", [json.loads(text)[member]["name"] for member in ("vendor", "module", "oe")], [thing["name"] for _, thing in things])
    expect("its page", pages(lab, text), shows_plainly(lab, "certificate", "--request", "7000004", "--html"))
    named = [f"{ACTING[at:at + 24]}\"" for at in range(0, len(ACTING), 24)] + ["\u00fc" * 2000, "\U0001f600" * 100]
    # a name, and the lines in which it stands: 80 bytes each at most, no character of which is cut
    in_lines = {"b" * 74: ['    "' + "b" * 74 + '"'], "b" * 75: ['    "' + "b" * 75, '        "'],
                "b" * 147: ['    "' + "b" * 75, "        " + "b" * 72, '        "'],
                "\u00fc" * 38: ['    "' + "\u00fc" * 37, "        " + '\u00fc"'],
                "\u6f22" * 30: ['    "' + "\u6f22" * 25, "        " + "\u6f22" * 5 + '"'],
                "a" + "\U0001f600" * 19: ['    "a' + "\U0001f600" * 18, "        " + '\U0001f600"']}
    for number, name in enumerate([*named, *in_lines], 7000005):
        lab.must("POST", "/vendors", token, {"name": name})
        _, line = shows_plainly(lab, "requests", keys=False)[-1].split("\n    ")
        expect(f"the name of request {number}", json.loads(line), name)
    output = lab.run("requests", "--db", lab.db)[1]
    for name, lines in in_lines.items():
        expect("how a name stands in lines", "initial\n" + "\n".join(lines) + "\n" in output, True)
    expect("requests", [len(request.split("\n")) for request in shows_plainly(lab, "requests", "--all", keys=False)],
           [2] * 3 + [3] + [2] * len([*named, *in_lines]))
    _, asked_of = lab.typed(b"n\n", "request-reject", "--db", lab.db, "--request", "7000005")
    expect("a name in a question", json.loads(unfolded(asked_of).split("\n")[1]), named[0])


def many_rows(lab):
    """An account of so many rows that what is said of it takes two lines."""
    lab.backs_up("crowd.db")
    crowd = lab.path("crowd.db")
    connection = page_sums.connect(crowd)
    with contextlib.closing(connection), connection:
        for table, key, kinds in (("session", "session", [0]), ("request", "request", [0]), ("object", "number", [1, 2, 3])):
            columns = [column for _, column, *_ in connection.execute(f"PRAGMA table_info({table})")]
            for kind in kinds:
                values = {key: "9999000000 + n", "account": "9999", "kind": str(max(kind, 1)), "body": "'{}'", "certify": "NULL",
                          "approved": "NULL"}
                connection.execute(f"WITH RECURSIVE numbers(n) AS (SELECT 1 UNION ALL SELECT n + 1 FROM numbers WHERE n < 9999) "
                                   f"INSERT INTO {table} SELECT {', '.join(values.get(column, '0') for column in columns)} FROM numbers")
    status, output, faults = lab.run("accounts", "--db", crowd)
    expect("an account of many rows", (status, output.splitlines()[-2:], faults),
           (0, ["9999 enabled sessions 9999 requests 9999", "    vendors 9999 modules 9999 environments 9999"], ""))
    os.remove(crowd)


def broken_off(lab):
    """A document that a malformed row breaks off isn't closed, and is told as a fault."""
    whole = shows(lab, "requests", "--db", lab.db, "--all", "--json")
    lab.backs_up()
    stray = lab.path("backup.db")
    connection = page_sums.connect(stray)
    with contextlib.closing(connection), connection:
        connection.execute("UPDATE request SET body = 'x' WHERE request = 8000001")
    expect("a document that is broken off", lab.run("requests", "--db", stray, "--all", "--json"),
           (1, "".join(line + "\n" for line in whole[:-2]), "fault: unavailable\n"))
    # what the account can't read whole, since a row of it is malformed, breaks it off, too
    connection = page_sums.connect(stray)
    with contextlib.closing(connection):
        connection.execute("UPDATE account SET enabled = 1")
        connection.commit()
        shown = {form: shows(lab, "request-show", "--db", stray, "--keys", lab.keys, "--request", "7000004", *form) for form in ((), ("--json",))}
        connection.execute("UPDATE object SET body = 'x' WHERE kind = 3")
        connection.commit()
    for form, lines in shown.items():
        before = next(at for at, line in enumerate(lines) if line.startswith("/acvp/v1/oes/") or line.endswith('"path":"/acvp/v1/oes/7000001"}'))
        status, output, faults = lab.run("request-show", "--db", stray, "--keys", lab.keys, "--request", "7000004", *form)
        expect(f"what can't be read whole {form}", (status, output if form else unfolded(output), faults),
               (1, "".join(line + "\n" for line in lines[:before]), "fault: unavailable\n"))


def looks(lab, wanted):
    """All that is shown at the end, of three accounts."""
    expect("the accounts", shows(lab, "accounts", "--db", lab.db),
           ["7 enabled sessions 1 requests 4 vendors 1 modules 1 environments 1",
            "8 disabled sessions 0 requests 1 vendors 0 modules 0 environments 0",
            "9999 enabled sessions 0 requests 0 vendors 0 modules 0 environments 0"])
    expect("the requests that wait", shows(lab, "requests", "--db", lab.db), [wanted[0], ANOTHER])
    expect("all requests", shows(lab, "requests", "--db", lab.db, "--all"),
           [f'7000001 account 7 vendor approved 7000001\n    "{VENDOR["name"]}"', f'7000002 account 7 module approved 7000001\n    "{MODULE["name"]}"',
            f'7000003 account 7 environment approved 7000001\n    "{ENVIRONMENT["name"]}"', wanted[0], ANOTHER])
    counts = ("sessions", "requests", "vendors", "modules", "environments")
    expect("the accounts as a document", document_of(lab, "accounts", "--db", lab.db),
           [{"account": account, "enabled": enabled, **dict(zip(counts, numbers))} for account, enabled, numbers in
            ((7, True, (1, 4, 1, 1, 1)), (8, False, (0, 1, 0, 0, 0)), (9999, True, (0, 0, 0, 0, 0)))])
    created = json.loads(wanted[5].split(" ", 1)[1])[1]["createdOn"]
    certification = {"createdOn": created, "environment": 7000001, "module": 7000001, "passed": 1, "session": 7000001, "vectorSets": 1}
    waiting = [asked_for(7000004, "certification", MODULE["name"], certification=certification),
               asked_for(8000001, "vendor", "Another", enabled=False)]
    expect("the requests that wait as a document", document_of(lab, "requests", "--db", lab.db), waiting)
    decided = {"approved": 7000001, "status": "approved"}
    expect("all requests as a document", document_of(lab, "requests", "--db", lab.db, "--all"),
           [asked_for(7000001, "vendor", VENDOR["name"], **decided), asked_for(7000002, "module", MODULE["name"], **decided),
            asked_for(7000003, "environment", ENVIRONMENT["name"], **decided), *waiting])
    expect("a check as a document", document_of(lab, "check", "--db", lab.db, "--keys", lab.keys),
           {"accounts": 3, "requests": 5, "sessions": 1, "sets": 2, "whole": True})
    show = ["request-show", "--db", lab.db, "--keys", lab.keys, "--request"]
    compared("the certification", shows(lab, *show, "7000004"), wanted)
    expect("the request in its document", compared_as_document(lab, wanted), waiting[0])
    question = f"{wanted[0]}\n7 enabled sessions 1 requests 4 vendors 1 modules 1 environments 1\n"
    for command, verb in (("request-approve", "Approve"), ("request-reject", "Reject")):
        expect(f"what {command} asks", lab.typed(b"n\n", command, "--db", lab.db, "--request", "7000004"),
               (1, f"{question}{verb} request 7000004? [y/N] n\nnothing is changed\n"))
    expect("a question about what isn't there", lab.typed(b"n\n", "request-approve", "--db", lab.db, "--request", "7000005"),
           (1, "fault: unknown\n"))
    expect("a vendor of a disabled account", shows(lab, *show, "8000001"),
           [ANOTHER, '{"name":"Another"}'])
    lab.fails("unknown", *show, "7000005")
    lab.fails("unknown", *show, "1")
    lab.fails("keys", "request-show", "--db", lab.db, "--keys", lab.path("no-keys"), "--request", "7000004")
    for command in (["accounts"], ["requests"]):
        lab.fails("unavailable", *command, "--db", lab.path("absent.db"))
        lab.fails("unavailable", *command, "--db", lab.keys)


def numbers_apart(lab):
    """What is shown of a certification is of its own session, module, vendor and environment, where all these have other
    numbers than one another and than the request."""
    lab.add(7)
    lab.serve(count=None)
    token, requests = lab.token(7), 0

    def registered(path, thing):
        nonlocal requests
        requests += 1
        lab.must("POST", path, token, thing)
        number = str(7000000 + requests)
        return lab.run("request-approve", "--db", lab.db, "--request", number)[1].split()[-1].removeprefix("/acvp/v1")

    vendors = [registered("/vendors", {"name": f"Vendor {number}"}) for number in (1, 2)]
    module = registered("/modules", {"name": "Module", "vendorUrl": "/acvp/v1" + vendors[1], "version": "1"})
    environments = [registered("/oes", {"name": f"Environment {number}"}) for number in (1, 2, 3)]
    made = [lab.must("POST", "/testSessions", token, {"algorithms": [CAPABILITIES[number % 2]] * (1 + number)}) for number in range(4)]
    session, bound = short(made[3]["url"]), made[3]["accessToken"]
    for of_set in map(short, made[3]["vectorSetUrls"]):
        lab.must("POST", of_set + "/results", bound, answers(lab.must("GET", of_set, bound)))
    lab.must("PUT", session, bound, {"moduleUrl": "/acvp/v1" + module, "oeUrl": "/acvp/v1" + environments[2]})
    request = "7000007"
    expect("the numbers", (vendors[1], module, environments[2], session, requests),
           ("/vendors/7000002", "/modules/7000001", "/oes/7000003", "/testSessions/7000004", 6))
    paths = [(session, bound), (session + "/results", bound), (module, token), (vendors[1], token), (environments[2], token)]
    read = [(path, body(lab, path, by)) for path, by in paths]
    shown = shows(lab, "request-show", "--db", lab.db, "--keys", lab.keys, "--request", request)
    sets = [f"70000040{number}" for number in (1, 2, 3, 4)]
    expect("the vector sets", [line.split(" ")[1] for line in shown[1:9]], [number for number in sets for _ in (1, 2)])
    expect("what the account reads", shown[9:], [f"/acvp/v1{path} {told}" for path, told in read])
    items = document_of(lab, "request-show", "--db", lab.db, "--keys", lab.keys, "--request", request)
    expect("the numbers of the document", items[0]["certification"],
           {"createdOn": made[3]["createdOn"], "environment": 7000003, "module": 7000001, "passed": 4, "session": 7000004, "vectorSets": 4})
    expect("what the account reads, in the document", items[9:], [{"body": json.loads(told), "path": f"/acvp/v1{path}"} for path, told in read])
    # an approval that rests on changed rows says so
    for place, statement in enumerate(("UPDATE session SET passed = 3 WHERE session = 7000004",
                                       "UPDATE object SET body = '{}' WHERE kind = 2 AND number = 7000001")):
        damaged = lab.path(f"damaged-{place}.db")
        expect("a backup", lab.run("backup", "--db", lab.db, "--to", damaged)[0], 0)
        with contextlib.closing(page_sums.connect(damaged)) as connection, connection:
            connection.execute(statement)
        expect(f"an approval after {statement}", lab.run("request-approve", "--verbose", "--db", damaged, "--request", request),
               (1, "", "fault: unavailable\nbecause: --request: a row that it rests on is wrong: run check\n"))
    status, terminal = lab.typed(b"y\n", "request-approve", "--db", lab.db, "--request", request)
    expect("the question", terminal.split("\n")[1], f"    session 7000004 of {made[3]['createdOn'][:10]} 4 of 4 passed")
    expect("the approval", (status, terminal.split("\n")[-2]), (0, f"request {request} approved /acvp/v1{session}"))
    expect("as what it was approved", lab.run("request-reject", "--verbose", "--db", lab.db, "--request", request)[2],
           "fault: notInitial\nbecause: --request: it was approved, as 7000004\n")
    document, = shows(lab, "certificate", "--db", lab.db, "--keys", lab.keys, "--request", request)
    for path in (session, module, vendors[1], environments[2]):
        expect(f"{path} in the document", f'"/acvp/v1{path}"' in document, True)


def main():
    program = os.path.abspath(sys.argv[1])
    with tempfile.TemporaryDirectory() as folder:
        lab = Laboratory(program, folder)
        lab.does("ready", "init", "--db", lab.db)
        expect("no account", shows(lab, "accounts", "--db", lab.db), [])
        expect("no request", shows(lab, "requests", "--db", lab.db, "--all"), [])
        for args, wanted in ((["accounts"], []), (["requests", "--all"], []), (["check", "--keys", lab.keys], NO_TABLES)):
            expect(f"the document of {args} without a row", document_of(lab, *args, "--db", lab.db), wanted)
        for account in (7, 8, 9999):
            lab.add(account)
        try:
            lab.serve()
            token = lab.token(7)
            lab.must("POST", "/vendors", lab.token(8), {"name": "Another"})
            lab.does("account 8 disabled", "account-disable", "--db", lab.db, "--account", "8")
            asked(lab, token)
            wanted, bound, given = certified(lab, token)
            looks(lab, wanted)
        finally:
            lab.kill()
        looks(lab, wanted)
        lab.fails("unknown", "certificate", "--db", lab.db, "--keys", lab.keys, "--request", "7000004", what="before it is approved")
        lab.does("request 7000004 approved /acvp/v1/testSessions/7000001", "request-approve", "--db", lab.db, "--request", "7000004")
        expect("no more than the other waits", shows(lab, "requests", "--db", lab.db), [ANOTHER])
        shown = shows(lab, "request-show", "--db", lab.db, "--keys", lab.keys, "--request", "7000004")
        expect("the line of what is approved", shown[0], wanted[0].replace("initial", "approved 7000001"))
        expect("its session", json.loads(shown[5].split(" ", 1)[1])[1]["status"], "approved")
        certificates(lab, wanted, token, bound, given)
        broken_off(lab)
        many_rows(lab)
    for part in (acting_text, numbers_apart):
        with tempfile.TemporaryDirectory() as folder:
            lab = Laboratory(program, folder)
            lab.does("ready", "init", "--db", lab.db)
            try:
                part(lab)
            finally:
                lab.kill()
    print(f"{laboratory.checked} comparisons")


main()

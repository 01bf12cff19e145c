"""The requests and replies of docs/EXCHANGES.md, one of each action and a few more, as the program answers them.

    exchanges-of-the-page.py COMMAND..
    exchanges-of-the-page.py --write COMMAND..

COMMAND is as in `acvp_server script --keys keys.txt`, under keys of zeros. The page must be what its events give, byte
for byte; with --write it is written."""
import os
import re
import sys

from laboratory import Piped, shown
import laboratory
from validation import answers

PAGE = os.path.join(os.path.dirname(os.path.abspath(__file__)), "..", "..", "docs", "EXCHANGES.md")
SECRET = b"12345678901234567890123456789012"
MOMENT = 60
HEAD = """# A request and a reply of each action

These are the bytes on the connection, sorted by action, not in the order sent. Lines of a head end with CR LF. A body
is one line with no line end, broken here after a comma if it is long. Account 7's secret is the 32 bytes
`12345678901234567890123456789012` of RFC 6238's examples; the keys file holds zeros alone.
[A Monte Carlo test](#a-monte-carlo-test) and [a refusal](#a-refusal) are at the end.
"""
# The sections after those of the 31 actions.
PROMPT, ANSWERS, REFUSAL = 32, 33, 34


class Exchanges:
    def __init__(self, command):
        self.server, self.told = Piped(command), {}

    def asks(self, number, name, method, path, token=None, thing=None, status=200):
        """The second object of the reply to an action, whose exchange is kept under its number."""
        body = None if thing is None else laboratory.compact([{"acvVersion": "1.0"}, thing])
        text = laboratory.request(method, path, token, body=body)
        reply = self.server.ask_at(MOMENT, text)
        came, there = shown(reply)
        if came != status:
            raise SystemExit(f"{name} is answered {reply}")
        if number is not None:
            self.told.setdefault(number, (name, text, reply))
        return there

    def approves(self, request):
        answer = self.server.order(f"request-approve {MOMENT} {request}")
        if answer != "order done":
            raise SystemExit(f"the approval of {request} is answered {answer}")


def short(url):
    return url[len("/acvp/v1"):]


def run(command):
    it = Exchanges(command)
    for account in (7, 8):
        it.server.order(f"account-add {MOMENT} {account} {SECRET.hex()}")
    code = laboratory.one_time_code(SECRET, MOMENT)
    token = it.asks(1, "Login", "POST", "/login", None, {"password": code, "user": "7"})["accessToken"]
    it.asks(3, "ListAlgorithms", "GET", "/algorithms", token)
    it.asks(4, "ReadAlgorithm", "GET", "/algorithms/2", token)
    for number, name, path, thing in [
            (19, "NewVendor", "/vendors", {"name": "Acme"}),
            (22, "NewModule", "/modules", {"name": "Hashes", "vendorUrl": "/acvp/v1/vendors/7000001", "version": "2"}),
            (25, "NewEnvironment", "/oes", {"name": "Linux"})]:
        url = it.asks(number, name, "POST", path, token, thing)["url"]
        it.approves(url.split("/")[-1])
    for number, name, path in [(18, "ListVendors", "/vendors"), (20, "ReadVendor", "/vendors/7000001"),
                               (21, "ListModules", "/modules?limit=10"), (23, "ReadModule", "/modules/7000001"),
                               (24, "ListEnvironments", "/oes"), (26, "ReadEnvironment", "/oes/7000001"),
                               (27, "ListRequests", "/requests"), (28, "ReadRequest", "/requests/7000001")]:
        it.asks(number, name, "GET", path, token)
    capability = {"algorithm": "HMAC-SHA2-256", "keyLen": [8], "macLen": [32], "revision": "1.0"}
    made = it.asks(6, "NewSession", "POST", "/testSessions", token, {"algorithms": [capability], "isSample": True})
    bound, session, sets = made["accessToken"], short(made["url"]), [short(url) for url in made["vectorSetUrls"]]
    it.asks(12, "ReadSet", "GET", sets[0], bound)
    expected = it.asks(17, "Expected", "GET", sets[0] + "/expected", bound)
    it.asks(15, "Submit", "POST", sets[0] + "/results", bound, {name: expected[name] for name in ("testGroups", "vsId")})
    it.asks(16, "Resubmit", "PUT", sets[0] + "/results", bound, {name: expected[name] for name in ("testGroups", "vsId")})
    it.asks(14, "SetResults", "GET", sets[0] + "/results", bound)
    it.asks(10, "SessionResults", "GET", session + "/results", bound)
    it.asks(30, "AddReviewer", "POST", session + "/reviewers", bound, {"account": 8})
    it.asks(29, "ListReviewers", "GET", session + "/reviewers", bound)
    it.asks(31, "RemoveReviewer", "DELETE", session + "/reviewers/8", bound)
    again = it.asks(None, "NewSession", "POST", "/testSessions", token, {"algorithms": [capability, capability]})
    bound, session, sets = again["accessToken"], short(again["url"]), [short(url) for url in again["vectorSetUrls"]]
    it.asks(11, "ListSets", "GET", session + "/vectorSets", bound)
    it.asks(None, "Submit", "POST", sets[0] + "/results", bound, answers(it.asks(None, "ReadSet", "GET", sets[0], bound)))
    it.asks(13, "CancelSet", "DELETE", sets[1], bound)
    it.asks(7, "ReadSession", "GET", session, bound)
    it.asks(8, "Certify", "PUT", session, bound, {"moduleUrl": "/acvp/v1/modules/7000001", "oeUrl": "/acvp/v1/oes/7000001"})
    it.asks(9, "CancelSession", "DELETE", short(made["url"]), made["accessToken"])
    it.asks(5, "ListSessions", "GET", "/testSessions?offset=0&limit=2", token)
    it.asks(2, "ReadAccount", "GET", "/account", token)
    hash_function = {"algorithm": "SHA2-256", "messageLength": [768], "revision": "1.0"}
    made = it.asks(None, "NewSession", "POST", "/testSessions", token, {"algorithms": [hash_function]})
    bound, path = made["accessToken"], short(made["vectorSetUrls"][0])
    right = answers(it.asks(PROMPT, "ReadSet", "GET", path, bound))
    it.asks(ANSWERS, "Submit", "POST", path + "/results", bound, right)
    it.asks(REFUSAL, "Submit", "POST", path + "/results", bound, {}, status=409)
    return it.told


def lines_of(text):
    """The lines of a request or a reply, a long body broken behind a comma."""
    head, _, body = text.decode().partition("\r\n\r\n")
    lines = head.split("\r\n") + [""]
    while len(body) > 112 and "," in body:
        place = (body.rfind(",", 0, 112) if "," in body[:112] else body.find(",")) + 1
        lines.append(body[:place])
        body = body[place:]
    return lines + [body] if body else lines


def block_of(asked, reply):
    """The lines of an exchange, as the page has them."""
    block = lines_of(asked)
    block += ([""] if block[-1] else []) + lines_of(reply)
    return "\n" + "\n".join(("    " + line).rstrip() for line in block) + "\n"


def body_of(text):
    return text.split(b"\r\n\r\n", 1)[1]


def in_short(text):
    """A body with the last of its groups alone, and the first two and the last of its checkpoints."""
    groups = b'"testGroups":['
    body = body_of(text)
    first, last = body.index(groups) + len(groups), body.rindex(b'{"test')
    return re.sub(rb'("resultsArray":\[{[^}]*},{[^}]*},).*(,{[^}]*}\])', rb"\1..\2", body[:first] + b"..," + body[last:])


def page_of(told):
    parts = [HEAD]
    for number in range(1, 32):
        name, asked, reply = told[number]
        parts.append(f"\n## {number} {name}\n" + block_of(asked, reply))
    parts.append("\n## A Monte Carlo test\n\nThe last group of a vector set of SHA2-256; `..` stands for what is left out.\n")
    for said, text in (("Prompts", told[PROMPT][2]), ("Answers", told[ANSWERS][1])):
        lines = lines_of(b"\r\n\r\n" + in_short(text))[2:]
        parts.append(f"\n{said}:\n\n" + "\n".join("    " + line for line in lines) + "\n")
    parts.append("\n## A refusal\n\nA second `POST` of answers to this vector set.\n" + block_of(*told[REFUSAL][1:]))
    return "".join(parts)


def main():
    command = [word for word in sys.argv[1:] if word != "--write"]
    told = run(command)
    if sorted(told) != list(range(1, REFUSAL + 1)):
        raise SystemExit(f"the page has the sections {sorted(told)}")
    page = page_of(told)
    if len(command) < len(sys.argv) - 1:
        with open(PAGE, "w") as file:
            file.write(page)
        return
    with open(PAGE) as file:
        there = file.read()
    if there != page:
        first = next((pair for pair in zip(there.split("\n"), page.split("\n")) if pair[0] != pair[1]), None)
        raise SystemExit(f"docs/EXCHANGES.md has other lines than the program: {first}")
    print(f"{len(told)} exchanges are as the page shows them")


main()

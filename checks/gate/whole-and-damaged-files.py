#!/usr/bin/env python3
"""Has `check` look at a file with a validation of each of two accounts, which the program made, and at copies of it that
are damaged, each in one way, by Python's sqlite3: the file is whole, with so many rows; and of each damage it tells the
row, by its table and key, and the word of the condition that is broken first. Nothing is written. It looks at files of
the earlier schemas, too, after `migrate`, and while a file is served.

    whole-and-damaged-files.py PROGRAM SHIM

PROGRAM is the built program, and SHIM the library of set_clock.c, which shows it one moment.

What can't be made: a row that refers to none, since no such file is opened; two rows under one key; and more than 999999
sessions or requests of an account, which take too long."""
import concurrent.futures
import importlib.util
import json
import os
import shutil
import subprocess
import sys
import tempfile

import laboratory
import page_sums
from laboratory import Laboratory, compact, expect


def module_of(name):
    """What a check beside this one defines."""
    path = os.path.join(os.path.dirname(os.path.abspath(__file__)), name + ".py")
    spec = importlib.util.spec_from_file_location(name.replace("-", "_"), path)
    module = importlib.util.module_from_spec(spec)
    spec.loader.exec_module(module)
    return module


rows = module_of("damaged-rows")
earlier = module_of("files-of-earlier-schemas")
VENDOR, MODULE, ENVIRONMENT = rows.VENDOR, rows.MODULE, rows.ENVIRONMENT
CERTIFIED, WAITING, OPEN, SAMPLE, CANCELLED, READY = (7000000 + place for place in rows.SESSIONS)
NAMED = '{"name":"V"}'
TWO_OF_MODULE = ('{"moduleUrl":"/acvp/v1/modules/7000001","oeUrl":"/acvp/v1/oes/%d","session":7000002}',
                 '{"moduleUrl":"/acvp/v1/modules/%d","oeUrl":"/acvp/v1/oes/7000001","session":7000002}')

# ---- damages: what is done, with the values for it; and the line that is told


def insert(table, *values):
    return f"INSERT INTO {table} VALUES ({','.join('?' * len(values))})", values


def update(table, column, value, **keys):
    wanted = " AND ".join(f"{name} = ?" for name in keys)
    return f"UPDATE {table} SET {column} = ? WHERE {wanted}", (value, *keys.values())


def delete(table, **keys):
    return f"DELETE FROM {table} WHERE " + " AND ".join(f"{name} = ?" for name in keys), tuple(keys.values())


def new_session(number, account=7, live=1):
    return insert("session", number, account, 0, rows.MOMENT, 0, None, live, 0)


def new_set(number, session):
    return insert("vset2", number, session, compact(rows.SHORT).decode(), 0, None, None, None, 0)


def outside():
    """Rows whose numbers begin with no account's."""
    for number in (0, -1, 10000, 2**63 - 1):
        yield [insert("account", number, bytes(32), 1, None)], f"account {number} outside"
    for number in (0, 999999, -7000001, 10000000000):
        yield [new_session(number)], f"session {number} outside"
    for number in (5, 99999999, 1000000000000):
        yield [new_set(number, OPEN)], f"set {number} outside"
    for kind, number in ((VENDOR, 5), (MODULE, 10000000000), (0, 7000001), (4, 7000001)):
        yield [insert("object", kind, number, 7, NAMED)], f"object {number} outside"
    for number in (1, 10000000000):
        yield [insert("request", number, 7, VENDOR, NAMED, 0, None)], f"request {number} outside"


def stray():
    """Rows that stand for nothing."""
    for column, value in (("secret", bytes(31)), ("secret", bytes(33)), ("enabled", 2), ("last_step", -1)):
        yield [update("account", column, value, account=7)], "account 7 stray"
    for column, value in (("sample", 2), ("created", -1), ("cancelled", 2), ("live", -1), ("passed", -1)):
        yield [update("session", column, value, session=SAMPLE)], f"session {SAMPLE} stray"
    passed = OPEN * 100 + 1
    for column, value in (("capability", "{}"), ("capability", "["), ("cancelled", 2), ("epoch", -1), ("answers", None),
                          ("answers", "no answers"), ("answers", ""), ("answers", "["), ("answers", "[[1]]"),
                          ("answers", '[[1,["00"]], [2,["00"]]]'), ("answers", '[[2,["00"]],[1,["00"]]]'),
                          ("verdicts", "px"), ("verdicts", None), ("disposition", 99), ("disposition", None),
                          ("disposition", 0)):
        yield [update("vset2", column, value, vs=passed)], f"set {passed} stray"
    yield ([("UPDATE vset2 SET capability = CAST(x'7bff7d' AS TEXT) WHERE vs = ?", (passed,))], f"set {passed} stray")
    yield [update("vset2", "verdicts", "p", vs=OPEN * 100 + 4)], f"set {OPEN * 100 + 4} stray"
    for body in ("{}", "", '{"name":""}'):
        yield [update("object", "body", body, kind=VENDOR, number=7000001)], "object 7000001 stray"
    yield [update("object", "body", NAMED, kind=MODULE, number=7000001)], "object 7000001 stray"
    for column, value in (("kind", 99), ("status", 3), ("status", 0), ("approved", None), ("approved", -1), ("body", "{}")):
        yield [update("request", column, value, request=7000001)], "request 7000001 stray"
    yield [update("request", "approved", 7000001, request=7000008)], "request 7000008 stray"
    yield [update("request", "body", NAMED, request=7000007)], "request 7000007 stray"
    for account in (-1, 65536):
        yield [update("reviewer", "account", account, session=OPEN, account=rows.SILENT)], f"reviewer {OPEN} stray"


def owners():
    """Rows that are of another account than their numbers say, or of another session."""
    yield [update("session", "account", 8, session=READY)], f"session {READY} owner"
    yield [update("vset2", "session", WAITING, vs=CERTIFIED * 100 + 1)], f"set {CERTIFIED * 100 + 1} owner"
    yield [update("object", "account", 8, kind=VENDOR, number=7000001)], "object vendor 7000001 owner"
    yield [update("object", "account", 8, kind=ENVIRONMENT, number=7000001)], "object environment 7000001 owner"
    yield [update("request", "account", 8, request=7000008)], "request 7000008 owner"
    yield [update("session", "account", 21, session=8000006)], "session 8000006 owner"


def sessions():
    last = READY * 100 + 1
    moved = [update("session", "session", 7000009, session=READY), update("vset2", "session", 7000009, session=READY),
             update("vset2", "vs", 700000901, vs=last)]
    yield moved, "session 7000009 number"
    yield [delete("vset2", session=SAMPLE), delete("session", session=SAMPLE)], f"session {CANCELLED} number"
    for created in (rows.END_OF_MOMENTS, 2**63 - 1):
        yield [update("session", "created", created, session=CERTIFIED)], f"session {CERTIFIED} created"
    for request in (7000005, 7000001, 8000007):
        yield [update("session", "certify", request, session=WAITING)], f"session {WAITING} lastRequest"
    yield [update("session", "certify", 7000005, session=READY)], f"session {READY} lastRequest"
    yield [delete("vset2", session=READY)], f"session {READY} noSet"
    yield [new_set(READY * 100 + place, READY) for place in range(2, 22)], f"session {READY} manySets"
    for column, value in (("live", 0), ("live", 5), ("passed", 0), ("passed", 4)):
        yield [update("session", column, value, session=OPEN)], f"session {OPEN} counter"
    for number, cancelled in ((OPEN * 100 + 1, 1), (OPEN * 100 + 5, 0)):
        yield [update("vset2", "cancelled", cancelled, vs=number)], f"session {OPEN} counter"
    yield [update("session", "passed", 9, session=8000006)], "session 8000006 counter"
    # the last account there can be
    yield [insert("account", 9999, bytes(32), 1, None), new_session(9999000001, 9999)], "session 9999000001 noSet"


def sets():
    yield [update("vset2", "vs", OPEN * 100 + 99, vs=OPEN * 100 + 5)], f"set {OPEN * 100 + 99} number"
    yield ([delete("vset2", vs=OPEN * 100 + 4), update("session", "live", 3, session=OPEN)],
           f"set {OPEN * 100 + 5} number")
    for number in (OPEN * 100 + 1, OPEN * 100 + 4, READY * 100 + 1):
        yield [update("vset2", "epoch", 1, vs=number)], f"set {number} noSeed"


def requests():
    yield [delete("request", request=7000010)], "request 7000011 number"
    for number, text in ((7000002, TWO_OF_MODULE[0]), (7000009, TWO_OF_MODULE[1]), (8000001, TWO_OF_MODULE[1])):
        yield [update("request", "body", text % number, request=7000007)], "request 7000007 body"
    module = '{"name":"Module","vendorUrl":"/acvp/v1/vendors/7000009"}'
    yield [update("request", "body", module, request=7000010)], "request 7000010 body"
    yield [update("request", "approved", 7000009, request=7000001)], "request 7000001 notGiven"
    yield [update("request", "approved", 7000002, request=7000005)], "request 7000005 notGiven"
    yield [delete("object", kind=ENVIRONMENT, number=7000001)], "request 7000003 notGiven"


def objects():
    yield [insert("object", VENDOR, 7000003, 7, NAMED)], "account 7 manyObjects"
    module = '{"name":"Module","vendorUrl":"/acvp/v1/vendors/7000001"}'
    yield [insert("object", MODULE, 7000002, 7, module)], "account 7 manyObjects"
    yield [insert("object", ENVIRONMENT, 7000002, 7, NAMED)], "account 7 manyObjects"
    yield ([update("object", "number", 7000005, kind=VENDOR, number=7000002),
            update("request", "approved", 7000005, request=7000002)], "object vendor 7000005 number")
    yield [update("request", "approved", 7000001, request=7000002)], "object vendor 7000002 notAskedFor"
    module = '{"name":"Module","vendorUrl":"/acvp/v1/vendors/7000009"}'
    yield [update("object", "body", module, kind=MODULE, number=7000001)], "object module 7000001 object"


def reviewers():
    for account in (0, 10000):
        yield ([update("reviewer", "account", account, session=OPEN, account=rows.SILENT)],
               f"reviewer {OPEN} {account} noAccountNumber")
    yield [insert("reviewer", OPEN, account) for account in range(100, 115)], f"reviewer {OPEN} 9 manyReviewers"


def certifications():
    """Certifications that aren't the last request of their session, nor rejected earlier ones, or of sessions that may not
    be certified."""
    # the second one was asked for twice
    for session, request in ((CERTIFIED, 7000005), (WAITING, 7000006)):
        yield [update("session", "certify", None, session=session)], f"request {request} notLast"
        for column in ("cancelled", "sample"):
            yield [update("session", column, 1, session=session)], f"session {session} notCertifiable"
        yield ([update("vset2", "cancelled", 1, session=session), update("session", "live", 0, session=session),
                update("session", "passed", 0, session=session)], f"session {session} notCertifiable")
    yield [update("session", "certify", 7000006, session=WAITING)], "request 7000007 notLast"
    yield [update("request", "status", 0, request=7000006)], "request 7000006 notLast"
    yield ([update("request", "status", 1, request=7000006), update("request", "approved", WAITING, request=7000006)],
           "request 7000006 notLast")
    # the last one rejected, and the earlier one named in its place
    rejected = [update("request", "status", 2, request=7000007), update("session", "certify", 7000006, session=WAITING)]
    for status, approved in ((0, None), (1, WAITING), (2, None)):
        yield ([*rejected, update("request", "status", status, request=7000006),
                update("request", "approved", approved, request=7000006)], "request 7000007 notLast")
    yield ([update("request", "status", 2, request=7000007), update("session", "certify", None, session=WAITING)],
           "request 7000006 notLast")
    unanswered = [update("vset2", column, None, vs=CERTIFIED * 100 + 2) for column in ("answers", "verdicts", "disposition")]
    yield [*unanswered, update("session", "passed", 1, session=CERTIFIED)], f"session {CERTIFIED} notCertifiable"
    body = f'{{"moduleUrl":"/acvp/v1/modules/7000001","oeUrl":"/acvp/v1/oes/7000001","session":{SAMPLE}}}'
    for status, approved in ((0, None), (1, SAMPLE), (2, None)):
        asked = insert("request", 7000012, 7, rows.CERTIFICATION, body, status, approved)
        yield [asked], "request 7000012 notLast"
        if status != 2:
            yield [asked, update("session", "certify", 7000012, session=SAMPLE)], f"session {SAMPLE} notCertifiable"


def registrations():
    """Approvals of objects that aren't those which were asked for, and two approvals with the number of one object."""
    one, two, module = '{"name":"One"}', '{"name":"Two"}', '{"name":"Module","vendorUrl":"/acvp/v1/vendors/700000%d"}'
    for kind, body, request in ((VENDOR, two, 7000001), (ENVIRONMENT, NAMED, 7000003), (MODULE, module % 2, 7000004)):
        yield [update("object", "body", body, kind=kind, number=7000001)], f"request {request} notAsAsked"
        yield [update("request", "body", body, request=request)], f"request {request} notAsAsked"
    yield ([update("request", "approved", 7000002, request=7000001),
            update("request", "approved", 7000001, request=7000002)], "request 7000001 notAsAsked")
    for body, word in ((one, "givenTwice"), (two, "notAsAsked")):
        yield [insert("request", 7000012, 7, VENDOR, body, 1, 7000001)], f"request 7000012 {word}"
    # the module was asked for three times, with one text
    for request in (7000009, 7000010):
        yield ([update("request", "status", 1, request=request),
                update("request", "approved", 7000001, request=request)], f"request {request} givenTwice")


def epochs():
    """Epochs of account 7 that no run leaves, where there are two seeds: the set that is told is the first which has an
    earlier one than it may have."""
    for number, told in ((OPEN * 100 + 1, OPEN * 100 + 2), (OPEN * 100 + 3, OPEN * 100 + 1),
                         (OPEN * 100 + 5, OPEN * 100 + 1), (CERTIFIED * 100 + 3, CERTIFIED * 100 + 1)):
        yield [update("vset2", "epoch", 1, vs=number)], f"set {told} epoch"
    for session in (CERTIFIED, WAITING, OPEN, SAMPLE, CANCELLED):
        yield [update("vset2", "epoch", 1, session=session)], f"set {(session + 1) * 100 + 1} epoch"
    later = [update("vset2", "epoch", 1, session=session) for session in (CERTIFIED, OPEN, SAMPLE, CANCELLED, READY)]
    yield later, f"set {WAITING * 100 + 1} epoch"
    # what is looked for before
    one = update("vset2", "epoch", 1, vs=OPEN * 100 + 1)
    yield [one, update("vset2", "epoch", 2, vs=READY * 100 + 1)], f"set {READY * 100 + 1} noSeed"
    yield [one, update("request", "body", NAMED, request=7000001)], "request 7000001 notAsAsked"


def epochs_that_rise():
    """What is whole without the verdicts, where there are two seeds: the later sessions have the later one. Each account's
    epochs are its own."""
    for first in (READY, CANCELLED, OPEN, WAITING, CERTIFIED):
        yield [update("vset2", "epoch", 1, session=session) for session in range(first, READY + 1)]
    yield [("UPDATE vset2 SET epoch = 1", ())]


def pairs():
    """Two damages, of which the one that is looked for first is told."""
    counter = update("session", "live", 0, session=OPEN)
    yield [counter, insert("account", 0, bytes(32), 1, None)], "account 0 outside"
    yield [counter, update("session", "sample", 2, session=8000004)], f"session {OPEN} counter"
    yield [counter, update("session", "sample", 2, session=SAMPLE)], f"session {SAMPLE} stray"
    yield [counter, update("request", "account", 8, request=7000008)], "request 7000008 owner"
    yield [counter, update("vset2", "epoch", 1, vs=OPEN * 100 + 1)], f"session {OPEN} counter"
    yield ([update("vset2", "epoch", 1, vs=READY * 100 + 1), delete("request", request=7000010)],
           f"set {READY * 100 + 1} noSeed")
    yield ([update("request", "body", NAMED, request=7000001), update("session", "certify", None, session=CERTIFIED)],
           "request 7000005 notLast")


GROUPS = (outside, stray, owners, sessions, sets, requests, objects, reviewers, certifications, registrations, pairs)


def verdicts(connection):
    """Verdicts that aren't those on the answers, with the disposition and the counters that belong to them."""
    passed = OPEN * 100 + 1
    (right,), = connection.execute("SELECT verdicts FROM vset2 WHERE vs = ?", (passed,))
    (answers,), = connection.execute("SELECT answers FROM vset2 WHERE vs = ?", (passed,))
    (count,), = connection.execute("SELECT passed FROM session WHERE session = ?", (OPEN,))
    expect("the verdicts of a vector set that passed", set(right), {"p"})
    for wrong in ("f" * len(right), right[:-1] + "f", "f" + right[1:]):
        yield ([update("vset2", "verdicts", wrong, vs=passed), update("vset2", "disposition", 0, vs=passed),
                update("session", "passed", count - 1, session=OPEN)], f"set {passed} verdicts")
    # one hexadecimal digit of the last answer, and of the first
    for place in (answers.rindex('"') - 1, answers.index('["') + 2):
        digit = "0" if answers[place] != "0" else "1"
        yield ([update("vset2", "answers", answers[:place] + digit + answers[place + 1:], vs=passed)],
               f"set {passed} verdicts")
    # a verdict more, and one less
    for other in (right + "p", right[:-1]):
        yield [update("vset2", "verdicts", other, vs=passed)], f"set {passed} verdicts"


def foreign_answers(connection):
    """Answers to tests that the vector set doesn't have: the tests of one are numbered from 1 on."""
    for number in (OPEN * 100 + 1, OPEN * 100 + 2, CERTIFIED * 100 + 1):
        (answers, verdicts_on), = connection.execute("SELECT answers, verdicts FROM vset2 WHERE vs = ?", (number,))
        last = max(json.loads(answers))[0]
        expect(f"the answers to vector set {number} are to its tests", last <= len(verdicts_on), True)
        for test in (len(verdicts_on) + 1, 2**64 - 1):
            yield ([update("vset2", "answers", f'{answers[:-1]},[{test},["00"]]]', vs=number)], f"set {number} answers")
        yield [update("vset2", "answers", f'[[0,["00"]],{answers[1:]}', vs=number)], f"set {number} answers"
    # the verdicts are told first, and the vector sets come in order
    first, second = OPEN * 100 + 1, CERTIFIED * 100 + 1
    more = [("UPDATE vset2 SET answers = '[[0,[\"00\"]],' || substr(answers, 2) WHERE vs = ?", (number,))
            for number in (first, second)]
    yield more, f"set {min(first, second)} answers"
    (right,), = connection.execute("SELECT verdicts FROM vset2 WHERE vs = ?", (first,))
    yield [more[0], update("vset2", "verdicts", right + "p", vs=first)], f"set {first} verdicts"


# ---- what is shown


def whole_line(path):
    connection = rows.opened(path)
    counts = [connection.execute(f"SELECT count(*) FROM {table}").fetchone()[0]
              for table in ("account", "session", "vset2", "request")]
    connection.close()
    return "whole: accounts %d sessions %d sets %d requests %d\n" % tuple(counts)


def bytes_of(path):
    with open(path, "rb") as file:
        return file.read()


def checked(lab, path, *more, keys=None):
    """What `check` comes to, and whether it left the file as it was, and nothing beside it."""
    folder = os.path.dirname(path)
    before, beside = bytes_of(path), sorted(os.listdir(folder))
    told = lab.run("check", "--db", path, "--keys", keys or lab.keys, *more)
    return told, bytes_of(path) == before and sorted(os.listdir(folder)) == beside


def whole_as(path):
    return ((0, whole_line(path), ""), True)


def wrong_as(line):
    return ((1, line + "\n", "fault: rows\n"), True)


def wrong_as_json(line):
    row, word = line.rsplit(" ", 1)
    return wrong_as(json.dumps({"row": row, "whole": False, "wrong": word}, separators=(",", ":")))


def is_whole(lab, path, *more, keys=None):
    expect(f"check {path} {more}", checked(lab, path, *more, keys=keys), whole_as(path))


def is_wrong(lab, path, line, *more, keys=None):
    expect(f"check {path} {more}", checked(lab, path, *more, keys=keys), wrong_as(line))


def damage(lab, whole, statements, name):
    """A copy of the file in a folder of its own, which is damaged so."""
    folder = lab.path(f"damage-{name}")
    os.mkdir(folder)
    path = os.path.join(folder, "laboratory.db")
    shutil.copy(whole, path)
    connection = rows.opened(path)
    for statement, values in statements:
        changed = connection.execute(statement, values).rowcount
        if changed < 1:
            raise SystemExit(f"{statement} {values} changes no row")
    connection.close()
    return path


def each_damage(lab, whole):
    """Each in turn, as many side by side as there are processors. All but those of verdicts and answers are found without
    the verdicts, too: every other one is looked at so, and every third is told as JSON."""
    connection = rows.opened(whole)
    found = [each for group in GROUPS for each in group()]
    cases = [(statements, wrong_as(line) if place % 3 else wrong_as_json(line),
              (("--grades", "no") if place % 2 else ()) + (() if place % 3 else ("--json",))) for place, (statements, line)
             in enumerate(found)]
    for statements, line in (*verdicts(connection), *foreign_answers(connection)):
        cases.append((statements, wrong_as(line), ()))
        cases.append((statements, None, ("--grades", "no")))
    connection.close()

    def outcome(place):
        statements, wanted, more = cases[place]
        path = damage(lab, whole, statements, place)
        told = checked(lab, path, *more)
        wanted = wanted or whole_as(path)
        shutil.rmtree(os.path.dirname(path))
        return told, wanted

    with concurrent.futures.ThreadPoolExecutor(os.cpu_count()) as pool:
        for place, (told, wanted) in enumerate(pool.map(outcome, range(len(cases)))):
            expect(f"check {cases[place][2]} after {cases[place][0]}", told, wanted)
    print(f"{len(found)} damages of rows, {len(cases) - len(found)} looks at verdicts and answers")


def two_seeds(lab):
    """A keys file with one seed more than the file was served with."""
    lines = bytes_of(lab.keys).decode().split()
    return lab.write(lab.path("added.txt"), f"token {lines[0]}\nseed {lines[1]}\nseed {'5' * 64}\n")


def under_two_seeds(lab, whole):
    """Damaged epochs are told before verdicts, which are those under the seed of the epoch. A vector set under the seed
    that was added is whole with the verdicts, too: it has no answers."""
    keys = two_seeds(lab)
    is_whole(lab, whole, keys=keys)
    for place, (statements, line) in enumerate(epochs()):
        path = damage(lab, whole, statements, f"epoch-{place}")
        is_wrong(lab, path, line, keys=keys)
        is_wrong(lab, path, line, "--grades", "no", keys=keys)
    for place, statements in enumerate(epochs_that_rise()):
        path = damage(lab, whole, statements, f"rising-{place}")
        is_whole(lab, path, "--grades", "no", keys=keys)
    last = [update("vset2", column, None, session=READY) for column in ("answers", "verdicts", "disposition")]
    last += [update("vset2", "epoch", 1, session=READY), update("session", "passed", 0, session=READY)]
    is_whole(lab, damage(lab, whole, last, "added"), keys=keys)


def other_keys(lab, whole):
    """Under another seed the first answered set has other standard answers, where the file doesn't know its seeds; without
    a seed it has none."""
    lines = bytes_of(lab.keys).decode().split()
    other = lab.write(lab.path("other.txt"), f"{lines[0]}\n{'5' * 64}\n")
    lab.fails("keys", "check", "--db", whole, "--keys", other)
    unknowing = damage(lab, whole, [delete("meta", name="seed 1")], "unknowing")
    is_wrong(lab, unknowing, f"set {CERTIFIED * 100 + 1} verdicts", keys=other)
    is_whole(lab, unknowing, "--grades", "no", keys=other)


def faults(lab, whole):
    """What can't be looked at."""
    options = ["--keys", lab.keys]
    lab.fails("keys", "check", "--db", whole, "--keys", lab.path("absent.txt"))
    lab.fails("unavailable", "check", "--db", lab.path("absent.db"), *options)
    lab.fails("unavailable", "check", "--db", lab.write(lab.path("text.db"), "no database" * 100), *options)
    old = earlier.older_file(lab.path("old.db"), "schema 1")
    lab.fails("schema", "check", "--db", old, *options)
    referring = damage(lab, whole, [delete("account", account=7)], "referring")
    lab.fails("unavailable", "check", "--db", referring, *options)
    for words in (["--grades", "maybe"], ["--grades"]):
        expect(f"the status of check {words}", lab.run("check", "--db", whole, *options, *words)[0], 2)


def after_migrate(lab, whole):
    """The same rows in a file of each earlier schema, which is moved."""
    for name, (version, tables) in earlier.FORMS.items():
        folder = lab.path(f"schema-{version}-{len(tables)}")
        os.mkdir(folder)
        path = os.path.join(folder, "laboratory.db")
        connection = rows.opened(path)
        for table in tables:
            connection.execute(table)
        connection.execute("ATTACH ? AS whole", (whole,))
        connection.execute("INSERT INTO meta VALUES ('schema', ?)", (version,))
        for table in ("account", "session", "object", "request"):
            connection.execute(f"INSERT INTO {table} SELECT * FROM whole.{table}")
        columns = "vs, session, capability, cancelled, answers, verdicts, disposition" + (", epoch" if version > 1 else "")
        connection.execute(f"INSERT INTO {'vset' if version == 1 else 'vset2'} SELECT {columns} FROM whole.vset2")
        connection.close()
        lab.does("schema 3", "migrate", "--db", path)
        for end in ("-wal", "-shm"):
            if os.path.exists(path + end):
                os.remove(path + end)
        is_whole(lab, path)
        connection = rows.opened(path)
        connection.execute("UPDATE vset2 SET epoch = 1 WHERE vs = ?", (READY * 100 + 1,))
        connection.close()
        is_wrong(lab, path, f"set {READY * 100 + 1} noSeed")


def while_served(lab, whole):
    """A file that is served is looked at as it stands, and served on."""
    folder = lab.path("served")
    os.mkdir(folder)
    lab.db = shutil.copy(whole, os.path.join(folder, "laboratory.db"))
    lab.serve()
    expect("what is served before", lab.call("GET", "/account")[0], 401)
    expect("a check of a file that is served", checked(lab, lab.db), whole_as(whole))
    expect("what is served then", lab.call("GET", "/account")[0], 401)
    lab.kill()


def on_a_terminal(lab, whole):
    """Progress is shown on standard error, where that is a terminal, and the line as ever."""
    ours, theirs = os.openpty()
    done = subprocess.run([lab.program, "check", "--db", whole, "--keys", lab.keys], stdin=subprocess.DEVNULL,
                          stdout=subprocess.PIPE, stderr=theirs, timeout=600)
    os.close(theirs)
    shown = b""
    try:
        while part := os.read(ours, 65536):
            shown += part
    except OSError:
        pass  # so a terminal ends
    os.close(ours)
    expect("what check prints", (done.returncode, done.stdout.decode()), (0, whole_line(whole)))
    expect("the progress that it shows", (b"100 of 9999 accounts" in shown, b"9900 of 9999 accounts" in shown), (True, True))


def main():
    program, shim = map(os.path.abspath, sys.argv[1:])
    with tempfile.TemporaryDirectory() as folder:
        lab = Laboratory(program, folder)
        # for the program that is started, not for this one
        os.environ.update({"LD_PRELOAD": shim, "CLOCK": lab.write(lab.path("clock"), f"{rows.MOMENT}\n")})
        try:
            rows.whole_file(lab)
            whole = lab.path("whole.db")
            # a connection that closes takes the log into the file
            connection = rows.opened(lab.db)
            connection.execute("PRAGMA wal_checkpoint(TRUNCATE)")
            connection.execute("VACUUM INTO ?", (whole,))
            connection.close()
            page_sums.renew(whole)
            os.chmod(whole, 0o600)
            is_whole(lab, whole)
            is_whole(lab, whole, "--grades", "no")
            for part in (each_damage, under_two_seeds, other_keys, faults, after_migrate, while_served, on_a_terminal):
                part(lab, whole)
        finally:
            lab.kill()
    print(f"{laboratory.checked} comparisons")


if __name__ == "__main__":
    main()

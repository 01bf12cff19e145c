"""In eighteen crates each place that makes a refusal without a rule (`unavailable` of a reply, `unavailable` or `memory`
of a command) is an arm for an error of a call that may refuse, or stands behind one, or is one of the places below, each
with what leads to it. The crates that only look, copy or print aren't searched: acvp_audit, acvp_causes, acvp_check,
acvp_files, acvp_log, acvp_server and acvp_view.

    refusals-have-a-cause.py [--list]

With --list it prints what it finds. It reads text and follows no types. So it finds the wrong bodies that it tries and
what is like them, and passes others, as one that puts a condition before an error's arm, or allocates too much."""
import collections
import glob
import os
import re
import sys

TOP = os.path.join(os.path.dirname(os.path.abspath(__file__)), "..", "..")
CRATES = ("mac", "token", "policy", "caps", "gen", "answers", "registry", "tables", "json", "store", "desk", "http",
          "keys", "connections", "copying", "commands", "opening", "port")
VARIANTS = {"Rule": "Unavailable", "OrderReply": "Unavailable", "StoreFault": "Memory|Refused", "AdoptFault": "Memory|Refused",
            "NewFault": "Memory|Store", "TokenFault": "Memory", "BodyFault": "Memory", "CapFault": "Memory", "RegFault": "Memory",
            "ReceiveFault": "Memory", "ScriptFault": "Memory", "TextFault": "Memory|Letter", "FileFault": "Memory|Unavailable|Broken",
            "Fault": "Memory|Unavailable", "Unopened": "Taken"}
NAMED = "|".join(f"{enum}>?::(?:{names})" for enum, names in VARIANTS.items())
# a value of it, and not the name of its type
MADE = re.compile(
    rf"(?:\b(?:{NAMED}|Self::(?:Memory|Refused|Unavailable))\b"
    r"|(?<!: )(?<!-> )(?<!for )(?<![\w<])(?<!struct )AllocError\b(?!::|>)|AllocFailed \{"
    r"|\bErrorCode::\w+|(?<!\w)Error::\w+|\bErrorKind::OutOfMemory\b"
    r"|(?<!fn )\b(?:fault_of_changes|fault_of_place|fault_of_cause|refused|said_of|done_by_server)\((?!&?self\b)"
    r"|\#\[default\]|\bmacro_rules!)")
# an arm for an error, or a block behind one
MET = rf"(?:{NAMED}|DecodeAllocError::OutOfMemory)"
ERROR = re.compile(rf"(?:Ok\()?Err\((?:\(?(?:\w+, )*\w+\)?|{MET})\)\)?(?: if [^|]*)?(?: => \w+)?$|{MET}(?: \| {MET})*$")
BEHIND = re.compile(r"^let Ok\((?:mut )?\w+\) = .*else$|^if (?:(?!&&)[^|])*\.is_err\(\)$|^fn from\(_\w*: Alloc(?:Error|Failed<T>)\) -> \w+$")

# The calls whose every error is want of memory or a refusal of the store, or is met in a row that stands for nothing.
CALLS = set("""
answers:insert answers:push desk:account desk:all_missing desk:apply desk:clone desk:complete desk:find_waiting
desk:grade desk:issue_ring desk:look_at desk:may_be_approved desk:new desk:numbers_of desk:objects_shown
desk:order desk:push desk:request desk:requests_shown desk:results_at desk:reviewer desk:take desk:with_account
desk:with_capacity desk:without_account desk:written http:add_all http:extend_from_slice http:push json:with_url
store:answers_from_text store:body_value store:from_text store:push store:read_object store:same_schema
store:try_from tables:insert tables:push connections:new connections:file_at connections:exists opening:order_line port:push
port:socket_path port:with_capacity port:new port:extend_from_slice
""".split())
CALL = re.compile(r"(?:= |match |if )(?:&?\w+(?:\.|::)|<[^>]*>::)*(\w+)\(")
TYPED = re.compile(r"::(?:Memory|OutOfMemory|Letter|Refused)\b|is_memory\(\)$|^fn from|^\w+::\w+$")

# What leads to a refusal without such a call: mostly rows, texts and numbers that no run leaves and a database that
# isn't as it must be; and conversions of an error that is in hand.
PLACES = """
answers verdict_text verdicts_from_text: let Some(verdict) = verdict_of_letter(*letter) else
store columns truth: _
store columns fitting: else
store counts given_since: None
store fault fault_of: Error::SqliteFailure(ErrorCode::OutOfMemory)
store fault fault_of: _
store members one: if rows.len() > 1
store objects kept_object: else
store set_ranges graded_by: _
store set_ranges graded_of: _
store set_texts capability_of: let Some(text) = &column.text else
store sets given_disposition: _
store sets judged_disposition: _
store sets whole_summary: if !keeps_answers(&set)
store sets epoch_in: Ok(None)
store sets find_sets: if 92233720368547757 < session
store sets run: let Some(disposition) = kept_disposition(self.graded.disposition()) else
store sets run: if 92233720368547757 < session.number
store store create: if !connection.is_autocommit()
store store create: if !is_empty(&connection)
store store migrated_in_memory: if !connection.is_autocommit() || !is_empty(&connection)
store store adopt: if !connection.is_autocommit()
store store migrate: if !connection.is_autocommit()
store summaries registered_kind: _
store summaries purpose: Some(_)
store summaries certification: let Some(module) = linked(&value, "", Kind::Module) else
store summaries certification: let Some(environment) = linked(&value, "", Kind::Environment) else
store summaries certification: let Some(session) = number_at(&value, "") else
store summaries certification: else
store summaries status: _
store work commit: if !conn.is_autocommit()
desk find submission: let Some(row) = rows.session else
desk find submission: let Some(others) = row.passed.checked_sub(one_if_passed(set.disposition)) else
desk listing listed_shown: if row.created >= END_OF_MOMENTS
desk order approve: if !sound
desk registry draft_object: let Some(row) = row else
desk registry draft_request: let Some(row) = row else
desk session session_shown: if facts.created >= END_OF_MOMENTS
desk session draft_results: if facts.created >= END_OF_MOMENTS
desk set told_results: if created >= END_OF_MOMENTS
desk set draft_made: if epoch > cache.seeds().newest()
desk set draft_set: SetPlace::Made(_, None) | SetPlace::Submit(None) | SetPlace::Resubmit(None)
desk submit graded_by: if epoch > cache.seeds().newest()
desk submit draft_answers: let Some(kept) = kept_answers(session, number, others, graded) else
http reply is_unavailable: pub fn is_unavailable(&self) -> bool
connections connection files_at: if path == "" || path.starts_with("")
connections connection is_still: Ok(_)
connections connection why_unfound: OpenError::Busy
connections connection why_unfound: OpenError::Io(error)
connections connection may_be_taken: Some(because)
connections fault done: Err(error)
copying copying copy_whole: F::Fault>
copying replacing take_place: if !files.is_still_there()
copying replacing take_place: if files.is_log_full()?
copying replacing place_alone: if files.is_log_full()? || files.is_log_held()?
opening command asked: Ok(answer)
connections connection has_its_log: if is_moved(rt, path, log.as_str())?
connections connection connect_known: if has_no_log(rt, path) && is_foreign(rt, path)
connections connection may_be_made: if is_companion(path) || is_copy(path) || cause_of_path(path).is_some() || is_left_alone(rt, path)?
connections connection connect_there: Ok(false)
connections connection why_unfound: OpenError::HotJournal
connections connection why_unfound: OpenError::OutOfMemory
connections fault fault_of_error: Error::SqliteFailure(ErrorCode::NotADatabase | ErrorCode::DatabaseCorrupt)
connections fault fault_of_error: Error::SqliteFailure(ErrorCode::OutOfMemory)
connections fault fault_of_error: _
connections fault fault_of_cause: Cause::Memory
connections fault fault_of_cause: _
connections fault refused: _
connections fault refused: io::ErrorKind::OutOfMemory
commands fault of_system: io::ErrorKind::OutOfMemory
commands orders outcome_of: (Order::ApproveRequest { request: _ }, None)
opening answers fault_in: ""
opening answers fault_in: ""
opening command said_of: None
opening command done_by_server: _
"""
# Wrong bodies: a file, what stands there, and what is put before it. The contracts allow the first five.
WRONG = [
    ("desk/src/find.rt", "    match *wish {\n        Wish::Session(session, SessionWish::Results) => tables",
     "    if tables.session(7)?.is_some() {\n        return Err(StoreFault::Refused);\n    }\n"),
    ("desk/src/algorithm.rt", "    let Some(algorithm) = algorithm_at(number) else {", "    if number > 12 {\n        return Err(Rule::Unavailable);\n    }\n"),
    ("tables/src/list.rt", "        Ok(first_shown(&self.sessions,", "        if self.sessions.len() > 3 {\n            return Err(StoreFault::Memory);\n        }\n"),
    ("http/src/receiving.rt", "    match read_byte(reader, limit)? {", "    if bytes.len() == 500 {\n        return Err(ReceiveFault::Memory);\n    }\n"),
    ("http/src/running.rt", "    run_turns(alloc, routes, desk, reader, writer)", "    return Err(ScriptFault::Memory);\n"),
    ("desk/src/set.rt", "    let Ok(mut entry) = cache.take(", "    Err::<(), AllocError>(AllocError)?;\n"),
    ("desk/src/set.rt", "\nuse crate::", "\nuse acvp_tables::StoreFault as Other;"),
    ("http/src/reply.rt", "\nuse ", "\nuse acvp_policy::Rule::*;"),
    ("desk/src/set.rt", "    let SetSource { capability, epoch } = source;", "    let Ok(_) = told else {\n        return Err(rule);\n    };\n    return Err(Rule::Unavailable);\n"),
    ("desk/src/set.rt", "    let SetSource { capability, epoch } = source;", "    if number > 12 || cache.take(number).is_err() {\n        return Err(Rule::Unavailable);\n    }\n"),
    ("tables/src/list.rt", "        Ok(first_shown(&self.sets, &SetIs", "        if number == 7 {\n            return Err(AllocError.into());\n        }\n"),
    ("opening/src/command.rt", "    let moment = databases.moment();", "    if name.len() > 9 {\n        return Err(Fault::Memory);\n    }\n"),
    ("opening/src/working.rt", "    let (connection, outcome) = done_over(", "    if added.is_some() {\n        return (connection, Err(Fault::Memory), false);\n    }\n"),
    ("commands/src/done.rt", "    let mut tables = tables;\n", "    if order == &(Order::DisableAccount { account: 7 }) {\n        return (tables, Err(Fault::Unavailable));\n    }\n"),
    ("connections/src/connection.rt", "    match fs::exists(rt, path) {", "    if path.len() > 20 {\n        return Err(Unopened::Taken);\n    }\n"),
    ("copying/src/replacing.rt", "    files.remove_log()?;\n    files.take_path()", "    if files.is_still_there() {\n        return Err(files.fault_of_place());\n    }\n"),
    ("port/src/client.rt", "        match rest.extend_from_slice(buf) {", "        if buf.len() > 500 {\n            return Err(ErrorKind::OutOfMemory.into());\n        }\n"),
    ("connections/src/connection.rt", "    settle_names(rt, path);", "    if path.len() > 20 {\n        return Err(Unopened::Failed(FileFault::Unavailable));\n    }\n"),
    ("desk/src/token.rt", "\nuse ", "\nmacro_rules! refused {\n    () => {\n        Rule::Unavailable\n    };\n}\nuse "),
]


def code_of(text):
    """The code without comments, and with empty texts, over as many lines."""
    def blank(found):
        return ("" if found[0].startswith("//") else '""') + "\n" * found[0].count("\n")
    text = re.sub("|".join((r"//[^\n]*", r'b?r#"(?:.|\n)*?"#', r'b?"(?:\\(?:.|\n)|[^"\\])*"', r"b?'(?:\\.|[^'\\\n])'")), blank, text)
    # contracts tell of values, and make none
    return re.sub(r"\b(?:ensures|requires)\b[^{;]*\{(?:[^{}]|\{(?:[^{}]|\{[^{}]*\})*\})*\}", "", text)


def is_pattern(code, place):
    """Whether what ends at this place is a part of a pattern: an arrow or an equals sign comes behind it first."""
    depth = 0
    for at in range(place, len(code)):
        if code[at] in "([{":
            if code[at] == "{" and depth <= 0:
                return False
            depth += 1
        elif code[at] in ")]":
            depth -= 1
        elif code[at] in "};" or code[at] == "," and depth <= 0:
            return False
        elif code[at] == "=" and code[at - 1] not in "=!<>" and code[at + 1] != "=":
            return True
    return False


def led_to(code, place):
    """What leads to the expression at this place: an arm's pattern, or the head of its block."""
    depth = 0
    for at in range(place - 1, 0, -1):
        if code[at] in ")]}":
            depth += 1
        elif code[at] in "([" or (code[at] == "{" and depth > 0):
            depth = max(depth - 1, 0)
        elif code[at] == "{" or (code[at - 1:at + 1] == "=>" and depth == 0):
            return " ".join(head_before(code, at if code[at] == "{" else at - 1).split())
    return ""


def matched(code, place):
    """The head of the block that holds the arm of the expression at this place."""
    depth = 0
    for at in range(place - 1, 0, -1):
        if code[at] in ")]}":
            depth += 1
        elif code[at] in "([" or (code[at] == "{" and depth > 0):
            depth = max(depth - 1, 0)
        elif code[at] == "{":
            head = " ".join(head_before(code, at).split())
            if "match " in head:
                return head[head.rindex("match "):]
    return ""


def head_before(code, place):
    depth = 0
    for at in range(place - 1, -1, -1):
        if code[at] in ")]":
            depth += 1
        elif code[at] in "([":
            depth -= 1
        if depth == 0 and code[at] in "{};" or depth <= 0 and code[at] == ",":
            return code[at + 1:place]
    return code[:place]


def found_in(crate, file, text):
    """The places of a file that make a refusal without an error."""
    code = code_of(text)
    enums = "|".join(VARIANTS)
    for named in re.finditer(rf"\buse\b[^;]*\b(?:AllocError|{enums})(?:\s+as\b|::)[^;]*;|\btype\b[^;]*=\s*(?:\w+::)*(?:AllocError|{enums})\s*;", code):
        yield f"{crate} {file}: {' '.join(named[0].split())}"
    for made in MADE.finditer(code):
        line = code[code.rfind("\n", 0, made.start()) + 1:code.find("\n", made.end())]
        if re.match(r"\s*(?:pub )?(?:use|ghost)\b[^;]*(?:;\s*)?$", line) or made[0] != "#[default]" and is_pattern(code, made.end()):
            continue
        head = re.sub(r" =>( \w+)?$", "", led_to(code, made.start()))
        call = CALL.search(head if head.startswith(("let ", "if ")) else matched(code, made.start()))
        known = call and f"{crate}:{call[1]}" in CALLS or TYPED.search(head)
        if not (known and (ERROR.match(head) or BEHIND.search(head))):
            name = [fn[1] for fn in re.finditer(r"\bfn (\w+)", code[:made.start()])]
            yield f"{crate} {file} {name[-1] if name else ''}: {head}"


def sources():
    for crate in CRATES:
        for path in sorted(glob.glob(os.path.join(TOP, "crates", f"acvp_{crate}", "src", "**", "*.rt"), recursive=True)):
            with open(path, encoding="utf-8") as file:
                yield crate, path, file.read()


def main():
    found = collections.Counter()
    for crate, path, text in sources():
        found.update(found_in(crate, os.path.basename(path)[:-3], text))
    if "--list" in sys.argv[1:]:
        print("\n".join(sorted(found.elements())))
    known = collections.Counter(PLACES.strip().split("\n"))
    if found != known:
        raise SystemExit("made without an error:\n" + "\n".join((found - known).elements()) + "\nnot found any more:\n" + "\n".join((known - found).elements()))
    tried = 0
    for crate, path, text in sources():
        file = os.path.basename(path)[:-3]
        for name, old, new in WRONG:
            if path.endswith(f"acvp_{name}") and old in text:
                wrong = text.replace(old, new + old, 1)
                if not collections.Counter(found_in(crate, file, wrong)) - collections.Counter(found_in(crate, file, text)):
                    raise SystemExit(f"a wrong body of {name} isn't found: {new}")
                tried += 1
    if tried != len(WRONG):
        raise SystemExit(f"{len(WRONG) - tried} wrong bodies have no place any more")
    print(f"{sum(found.values())} places, {tried} wrong bodies found")


main()

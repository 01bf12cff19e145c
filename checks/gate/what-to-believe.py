#!/usr/bin/env python3
"""What has to be believed of the promises: the definitions that their contracts name, those that these name, and so on.
A reader who has read them, and believes the toolchain and the definitions of the kit's crates, knows what is promised.

    what-to-believe.py           prints how many definitions there are, in how many files, and their lines, and compares
                                 this with what docs/PROOFS.md says
    what-to-believe.py --list    prints them, file by file, with the lines of each

Lines are those of code: no comments, no empty lines, no imports. Types of the code that definitions speak of are
counted, and their lines aren't."""
import collections
import os
import re
import sys

TOP = os.path.join(os.path.dirname(os.path.abspath(__file__)), "..", "..")
PAGE = os.path.join(TOP, "docs", "PROOFS.md")
# headline, and the contracts that the README names
REPLIES = {"crates/acvp_http/src/promise.rt": ["headline", "isolation", "denials_are_alike"], "crates/acvp_http/src/nothing.rt": ["run_from_nothing"]}
OTHERS = {"crates/acvp_mac/src/one_time_codes.rt": ["accepted_step"], "crates/acvp_policy/src/grant.rt": ["decide"],
          "crates/acvp_answers/src/answering.rt": ["standard"], "crates/acvp_answers/src/grading.rt": ["grade", "disposition"],
          "crates/acvp_commands/src/life.rt": ["files_live_on"], "crates/acvp_commands/src/done.rt": ["done_over"],
          "crates/acvp_opening/src/command.rt": ["done_at"]}
NAME = r"[^\s(){}\[\],;.:=]+"
TOKEN = re.compile(r"[^\s(){}\[\],;]+")
START = re.compile(rf"(?:abbrev |unfoldable |opaque )?(?:pub )?(?:record |data )?({NAME})(?: |$)")


def imports(lines):
    """What the imports of a file bring in: names by their module, and modules by the names that they have here."""
    names, modules = {}, {}
    for line in lines:
        found = re.match(r"\s*(?:ghost |pub )?use (Rattle\.[^\s{;]+?)(?:\.\{(.*)\})?(?: as (\S+?))?;?$", line)
        if not found:
            continue
        path, listed, alias = found.groups()
        if listed is not None:
            for name in listed.split(","):
                name, _, other = name.strip().partition(" as ")
                names[other or name] = (path, name)
        else:
            modules[alias or path.split(".")[-1]] = path
    return names, modules


class Module:
    """A file of definitions: the lines of each, the names that each gives, and the imports."""

    def __init__(self, file):
        with open(file) as text:
            lines = text.read().splitlines()
        self.names, self.modules = imports(lines)
        self.lines, self.given = collections.defaultdict(list), {}
        margin, heading, current = 0, [], None
        for line in lines:
            code = line.strip()
            if not code or code.startswith("--") or code.startswith(("use ", "pub use ")):
                continue
            depth = len(line) - len(line.lstrip())
            if code.startswith("module ") or (heading and not heading[-1].endswith("where")):
                begins = code.startswith("module ")
                margin, heading, current = (depth + 2, [code], None) if begins else (margin, heading + [code], None)
                continue
            if depth < margin:
                margin, heading = 0, []
            if depth == margin:
                current = START.match(code).group(1) if START.match(code) else current
                self.lines[current] += heading if not self.lines[current] else []
                self.given[current] = current
            else:
                field = re.match(rf"(?:pub )?({NAME}) :(?: |$)", code)
                if field and current is not None:
                    self.given.setdefault(field.group(1), current)
            if current is not None:
                self.lines[current].append(code)


def file_of(path):
    """The file of a module of this repository, if it is one."""
    parts = path.split(".")
    file = os.path.join(TOP, "crates", parts[1], *parts[2:]) + ".antt"
    return os.path.normpath(file) if os.path.exists(file) else None


class Walk:
    def __init__(self):
        self.modules, self.met, self.types, self.outside = {}, {}, set(), set()

    def module(self, file):
        if file not in self.modules:
            self.modules[file] = Module(file)
        return self.modules[file]

    def name(self, path, name):
        """Meets a name of a module."""
        if ".specs.declared." in path:
            self.types.add(path.split(".TheVariants")[0].split(".TheViews")[0])
            return
        file = file_of(path)
        if file is None:
            self.outside.add((path, name))
            return
        module = self.module(file)
        found = module.given.get(name)
        if found is None and name in module.names:
            self.name(*module.names[name])
            return
        if found is None:
            raise SystemExit(f"{file} has no definition of {name}")
        if (file, found) not in self.met:
            self.met[file, found] = len(module.lines[found])
            for line in module.lines[found]:
                self.text(line, module.names, module.modules, file, module.given)

    def text(self, line, names, modules, file=None, given=()):
        for token in TOKEN.findall(line):
            first, _, rest = token.partition(".")
            for word in (token, first):
                operator = [known for known in names if known.startswith("◌") and known.strip("◌") == word]
                for known in [word] * (word in names) + operator:
                    self.name(*names[known])
                if file is not None and word in given:
                    self.name("Rattle." + ".".join(os.path.relpath(file, os.path.join(TOP, "crates"))[:-5].split(os.sep)), word)
            if rest and first in modules:
                self.name(modules[first], rest.split(".")[0])


def clauses_of(file, function):
    """The clauses of a function's contract, and the imports that are in force there."""
    with open(os.path.join(TOP, file)) as text:
        lines = text.read().splitlines()
    start = next(number for number, line in enumerate(lines) if re.match(rf"\s*(?:pub )?fn {function}\b", line))
    end = next(number for number in range(start, len(lines)) if lines[number].strip() == "{")
    head = "\n".join(lines[start:end])
    return head[head.index("ensures") if "requires" not in head else head.index("requires"):], imports(lines)


def told(what, walk):
    files = {file for file, _ in walk.met}
    return f"{what}: {len(walk.met)} definitions in {len(files)} files, {sum(walk.met.values())} lines"


def main():
    walk, lines = Walk(), []
    for claims, promises in (("claims 1 and 2", REPLIES), ("all claims", OTHERS)):
        for file, functions in promises.items():
            for function in functions:
                clauses, (names, modules) = clauses_of(file, function)
                walk.text(clauses, names, modules)
        lines.append(told(claims, walk))
    if sys.argv[1:] == ["--list"]:
        for file in sorted({file for file, _ in walk.met}):
            found = {name: count for (other, name), count in walk.met.items() if other == file}
            print(f"{os.path.relpath(file, TOP)}: {sum(found.values())} lines: {' '.join(sorted(found))}")
    print("\n".join(lines))
    with open(PAGE) as page:
        there = page.read().splitlines()
    for line in lines:
        if "    " + line not in there:
            raise SystemExit(f"docs/PROOFS.md lacks the line: {line}")


main()

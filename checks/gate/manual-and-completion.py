"""The man page and the completion for bash, examples/acvp_server.1 and .bash, beside what the program prints with
--help: both are as checks/lib/manual makes them, groff and mandoc read the page without a warning, and bash completes
commands, options and files. What isn't installed is skipped.

    manual-and-completion.py PROGRAM"""
import difflib
import os
import re
import shutil
import subprocess
import sys
import tempfile

from laboratory import expect
import laboratory

TOP = os.path.dirname(os.path.dirname(os.path.dirname(os.path.abspath(__file__))))
EXAMPLES = os.path.join(TOP, "examples")
PAGE, COMPLETION = os.path.join(EXAMPLES, "acvp_server.1"), os.path.join(EXAMPLES, "acvp_server.bash")
# The words of a command line, of which the last is completed, and what bash makes of them.
BASH = """\
set -u
source "$1"
shift
COMP_WORDS=("$@")
COMP_CWORD=$(($# - 1))
_acvp_server acvp_server "${COMP_WORDS[COMP_CWORD]}" "${COMP_WORDS[COMP_CWORD - 1]}"
[ "${#COMPREPLY[@]}" -eq 0 ] || printf '%s\\n' "${COMPREPLY[@]}"
"""


def help_of(program, *command):
    return subprocess.run([program, *command, "--help"], stdout=subprocess.PIPE, stderr=subprocess.DEVNULL, text=True,
                          check=True).stdout


def text_of(path):
    if not os.path.exists(path):
        return ""
    with open(path, encoding="utf-8", newline="") as file:
        return file.read()


def made_anew(program):
    """Both files are what the program's help gives, byte for byte."""
    with tempfile.TemporaryDirectory() as folder:
        subprocess.run([os.path.join(TOP, "checks", "lib", "manual"), "--to", folder, program], check=True)
        for path in (PAGE, COMPLETION):
            name = os.path.basename(path)
            kept, anew = text_of(path), text_of(os.path.join(folder, name))
            if kept != anew:
                lines = difflib.unified_diff(kept.split("\n"), anew.split("\n"), f"examples/{name}", "made anew", n=0,
                                             lineterm="")
                print("\n".join(list(lines)[:10]))
                sys.exit(f"examples/{name} isn't what --help and docs/OPERATING.md say: run checks/lib/manual")
            expect(name, kept, anew)


def read_by(tool, *args):
    """The text of the page, in one line, as a tool shows it."""
    done = subprocess.run([tool, *args, PAGE], capture_output=True, text=True)
    expect(f"what {tool} says of the page", (done.returncode, done.stderr), (0, ""))
    # mandoc prints a letter, a backspace and the letter again if it is bold
    return " ".join(re.sub(".\b", "", done.stdout).split())


def warnings_of_mandoc():
    """What mandoc warns of, but that the page has no date, without which it is the same each day."""
    done = subprocess.run(["mandoc", "-T", "lint", "-W", "warning", PAGE], capture_output=True, text=True)
    return [line for line in (done.stdout + done.stderr).splitlines() if "missing date" not in line]


def page(helps):
    """The tools read the page, and show what --help says of each command and option."""
    texts = []
    if shutil.which("groff"):
        texts.append(read_by("groff", "-man", "-ww", "-Tascii", "-P-cbou"))
    if shutil.which("mandoc"):
        expect("what mandoc warns of", warnings_of_mandoc(), [])
        texts.append(read_by("mandoc", "-T", "ascii"))
    if not texts:
        print("skipped: whether the man page can be read (apt-get install groff-base mandoc)")
    for text in texts:
        for command, said in helps.items():
            about, example = said.split("\n")[0], re.search("^Example: (.*)", said, re.MULTILINE)[1]
            expect(f"the command {command} in the page", (f" {about}. " in text, f" {example} " in text), (True, True))
            for option, value, described in re.findall(r"^ .*?(--[a-z-]+)(?: (\[?<.*?>\]?))? +(.*)", said, re.MULTILINE):
                line = " ".join(" ".join([option, value.replace("<", "").replace(">", ""), described]).split())
                expect(f"{option} of {command} in the page", f" {line}. " in text, True)


def completes(folder, *words):
    """What bash offers for the last of these words behind the program's name, in this folder."""
    done = subprocess.run(["bash", "--norc", "-c", BASH, "bash", COMPLETION, "acvp_server", *words], cwd=folder,
                          capture_output=True, text=True)
    expect(f"the faults of bash for {words}", (done.returncode, done.stderr), (0, ""))
    return sorted(done.stdout.splitlines())


def completion(helps, commands):
    expect("a word of a command", completes("/", "ba"), ["backup"])
    expect("the first words", completes("/", ""), sorted([*commands, "--help", "--version"]))
    expect("what may be asked help of", completes("/", "help", "request-s"), ["request-show"])
    expect("what comes behind that", completes("/", "help", "backup", ""), [])
    expect("an unknown command", completes("/", "nothing", ""), [])
    with tempfile.TemporaryDirectory() as folder:
        names = ["laboratory.db", "lab two.db", "lab$(touch made)`touch made`.db"]
        for name in [*names, "other.db"]:
            with open(os.path.join(folder, name), "w", encoding="ascii"):
                pass
        os.mkdir(os.path.join(folder, "labs"))
        of_lab = sorted([*names, "labs"])
        for command, said in helps.items():
            options = re.findall(r"^ .*?(--[a-z-]+)", said, re.MULTILINE)
            expect(f"the options of {command}", completes(folder, command, ""), sorted(options))
            for option in re.findall(r"^ .*?(--[a-z-]+) <FILE>", said, re.MULTILINE):
                expect(f"files behind {option} of {command}", completes(folder, command, option, "lab"), of_lab)
                expect(f"the options behind {option} of {command}", completes(folder, command, option, "x", "--"),
                       sorted(set(options) - {option}))
        for words in [("--db", "=", "lab"), ("--verbose", "--db", "lab"), ("--db", "\"lab"), ("--db", "'lab")]:
            expect(f"files behind {words}", completes(folder, "init", *words), of_lab)
        expect("all files", completes(folder, "init", "--db", "="), [*of_lab, "other.db"])
        expect("a name with a space", completes(folder, "init", "--db", "lab\\ t"), ["lab two.db"])
        expect("a name of the shell's signs", completes(folder, "init", "--db", "lab\\$"), names[2:])
        expect("a name that isn't there", completes(folder, "init", "--db", "nothing"), [])
        expect("what completing leaves", sorted(os.listdir(folder)), [*of_lab, "other.db"])
        expect("words for --grades", completes(folder, "check", "--grades", ""), ["no", "yes"])
        expect("words for --log", completes(folder, "serve", "--log", ""), ["json", "words"])
        expect("an option behind --log", completes(folder, "serve", "--log", "--v"), ["--verbose"])
        for option in ("--port", "--count", "--patience"):
            expect(f"a number for {option}", completes(folder, "serve", option, ""), [])
    done = subprocess.run(["bash", "--norc", "-c", 'source "$1" && complete -p acvp_server', "bash", COMPLETION],
                          capture_output=True, text=True)
    expect("what bash completes by", (done.stdout, done.stderr), ("complete -F _acvp_server acvp_server\n", ""))


def main():
    program = os.path.abspath(sys.argv[1])
    made_anew(program)
    commands = re.findall(r"^  ([a-z][a-z-]*) ", help_of(program), re.MULTILINE)
    helps = {command: help_of(program, command) for command in commands if command != "help"}
    page(helps)
    completion(helps, commands)
    print(f"{laboratory.checked} comparisons")


main()

"""The Debian package that ./package makes: twice the same bytes, what it refuses to be made of, and what it installs
into an empty root. The installed program serves a validation as the installed unit starts it, and as the unit's user if
root runs the check. What isn't installed is skipped.

    package-is-installed.py PROGRAM"""
import calendar
import contextlib
import glob
import gzip
import os
import re
import shlex
import shutil
import stat
import subprocess
import sys
import tempfile
import time

from laboratory import expect, free_port
import laboratory

TOP = os.path.dirname(os.path.dirname(os.path.dirname(os.path.abspath(__file__))))
IS_ROOT = os.geteuid() == 0
DOCUMENTS = "usr/share/doc/acvp-server"
COPIES = {f"{DOCUMENTS}/{name}": name for name in (
    "README.md", "CHANGELOG.md", "SECURITY.md", "examples/nginx.conf", "examples/two_laboratories.conf",
    "examples/validation.py", "examples/certificates",
    *sorted(os.path.relpath(path, TOP) for path in glob.glob(os.path.join(glob.escape(TOP), "docs", "*.md"))))}
COPIES[f"{DOCUMENTS}/examples/page_sums.py"] = "checks/lib/page_sums.py"
COPIES["usr/share/bash-completion/completions/acvp_server"] = "examples/acvp_server.bash"
PAGE, UNIT = "usr/share/man/man1/acvp_server.1.gz", "usr/lib/systemd/system/acvp_server.service"
OTHERS = [PAGE, UNIT, f"{DOCUMENTS}/copyright", "usr/lib/sysusers.d/acvp_server.conf",
          "usr/lib/tmpfiles.d/acvp_server.conf"]
PROGRAMS = ["usr/bin/acvp_server",
            *(f"{DOCUMENTS}/examples/{name}" for name in ("validation.py", "certificates", "page_sums.py"))]


def bytes_of(path):
    with open(path, "rb") as file:
        return file.read()


def packs(folder, *args, **more):
    """The status, the output and the faults of ./package in a folder, without the lines of a program that is built with
    checks."""
    done = subprocess.run([os.path.join(TOP, "package"), *args], cwd=folder, stdin=subprocess.DEVNULL, text=True,
                          capture_output=True, **more)
    return done.returncode, done.stdout, re.sub(r"^==\d+==.*\n", "", done.stderr, flags=re.MULTILINE)


def made(program, folder, **more):
    """The path and the version of a package that is made in a folder."""
    status, output, faults = packs(folder, program, **more)
    found = re.fullmatch(r"made (acvp-server_(0~[0-9]{8}\.[0-9]{6})_amd64\.deb)\n", output)
    expect("what package prints", (status, bool(found), faults), (0, True, ""))
    expect("what is in the folder", os.listdir(folder), [found[1]])
    return os.path.join(folder, found[1]), found[2]


def made_twice(program, folder):
    """The package is the same, byte for byte, whoever makes it where, and takes the place of an earlier one."""
    here, there = os.path.join(folder, "here"), os.path.join(folder, "there and 'so' on")
    for place in (here, there):
        os.mkdir(place)
    first, version = made(program, here)
    moment = str(calendar.timegm(time.strptime(version, "0~%Y%m%d.%H%M%S")))
    with open(os.path.join(there, os.path.basename(first)), "w", encoding="ascii") as file:
        file.write("an earlier one\n")
    os.symlink(program, os.path.join(folder, "a program"))
    others = {**os.environ, "TZ": "Asia/Tokyo", "LC_ALL": "C.UTF-8", "SOURCE_DATE_EPOCH": moment}
    second, _ = made("../a program", there, umask=0o077, env=others)
    expect("the bytes of two packages", bytes_of(first) == bytes_of(second), True)
    expect("the mode of a package", stat.S_IMODE(os.stat(second).st_mode), 0o644)
    return first


def refused(program, folder):
    """What no package is made of, in one line, and that nothing is left of it."""
    place = os.path.join(folder, "refused")
    os.mkdir(place)
    text = os.path.join(folder, "text")
    with open(text, "w", encoding="ascii") as file:
        file.write("#!/bin/sh\necho acvp_server of schema 3\n")
    os.chmod(text, 0o755)
    data = os.path.join(TOP, "README.md")
    for given, why in [("nothing", "isn't a program that may be run"), (folder, "isn't a program that may be run"),
                       (data, "isn't a program that may be run"), (text, "isn't a program for x86-64"),
                       (sys.executable, "isn't acvp_server: its --version doesn't say so")]:
        expect(f"a package of {given!r}", packs(place, given), (1, "", f"package: {given} {why}\n"))
    usage = (2, "", "usage: ./package [PROGRAM]\n")
    for args in (["--help"], [""], [program, program]):
        expect(f"package with {args}", packs(place, *args), usage)
    for moment in ("soon", "-5"):
        expect("a moment that is none", packs(place, program, env={**os.environ, "SOURCE_DATE_EPOCH": moment}),
               (1, "", f"package: SOURCE_DATE_EPOCH is {moment}, and not seconds since 1970\n"))
    expect("a folder that can't be written to", packs("/proc", program),
           (1, "", "package: /proc can't be written to: call it from another folder\n"))
    expect("what is left", os.listdir(place), [])


class Root:
    """An empty root, into which the package is installed. Only root can give files away: if another user runs the
    check, acvp is that user there."""

    def __init__(self, folder):
        self.folder = os.path.join(folder, "root")
        for name in ("etc", "var/lib/dpkg/info", "var/lib/dpkg/updates", "var/lib/dpkg/triggers"):
            os.makedirs(self.path(name))
        with open(self.path("var/lib/dpkg/status"), "w", encoding="ascii"):
            pass
        if not IS_ROOT:
            print("skipped: owners of what is installed (run it as root)")
            with open(self.path("etc/group"), "w", encoding="ascii") as file:
                file.write(f"acvp:x:{os.getegid()}:\n")
            with open(self.path("etc/passwd"), "w", encoding="ascii") as file:
                file.write(f"acvp:x:{os.geteuid()}:{os.getegid()}::/var/lib/acvp:/usr/sbin/nologin\n")

    def path(self, name):
        return os.path.join(self.folder, name)

    def dpkg(self, *args):
        """What dpkg prints. The scripts of the package run outside the root, in which there is no shell."""
        forced = ["--force-script-chrootless", "--force-depends"] + ([] if IS_ROOT else ["--force-not-root"])
        path = os.environ.get("PATH", "/usr/bin:/bin") + ":/usr/local/sbin:/usr/sbin:/sbin"
        done = subprocess.run(["dpkg", f"--root={self.folder}", f"--log={self.path('dpkg.log')}", "--path-include=/*",
                               *forced, *args], capture_output=True, text=True, env={**os.environ, "PATH": path})
        expect(f"dpkg {args}: {done.stderr}", done.returncode, 0)
        return done.stdout

    def owner(self):
        """The numbers of the user acvp and of its group in this root."""
        with open(self.path("etc/passwd"), encoding="ascii") as file:
            found = re.search(r"^acvp:x:(\d+):(\d+):[^:]*:/var/lib/acvp:/usr/sbin/nologin$", file.read(), re.MULTILINE)
        expect("the user acvp", bool(found), True)
        return int(found[1]), int(found[2])


def installed(root, package, program):
    """Each file is there, with its mode and its owner, and no other."""
    root.dpkg("-i", package)
    # an update by the same version
    root.dpkg("-i", package)
    expect("what dpkg --verify says", root.dpkg("--verify", "acvp-server"), "")
    control = root.dpkg("-s", "acvp-server")
    expect("its state", "\nStatus: install ok installed\n" in control, True)
    told = "This program isn't known to be proved: it was given to ./package as it is."
    expect("its description", told in control, True)
    there, owner = {}, (0, 0) if IS_ROOT else (os.geteuid(), os.getegid())
    for folder, folders, files in os.walk(root.path("usr")):
        for name in folders + files:
            path = os.path.join(folder, name)
            about = os.lstat(path)
            there[os.path.relpath(path, root.folder)] = about
            wanted = 0o755 if name in folders or os.path.relpath(path, root.folder) in PROGRAMS else 0o644
            expect(f"the mode of {path}", stat.S_IMODE(about.st_mode), wanted)
            expect(f"the owner of {path}", (about.st_uid, about.st_gid), owner)
    files = sorted(name for name, about in there.items() if stat.S_ISREG(about.st_mode))
    expect("the files", files, sorted({*COPIES, *OTHERS, *PROGRAMS}))
    kinds = {stat.S_IFMT(about.st_mode) for about in there.values()}
    expect("files and folders", kinds, {stat.S_IFREG, stat.S_IFDIR})
    for name, source in {**COPIES, "usr/bin/acvp_server": program}.items():
        expect(f"the bytes of {name}", bytes_of(root.path(name)) == bytes_of(os.path.join(TOP, source)), True)
    page = bytes_of(root.path(PAGE))
    expect("the man page", gzip.decompress(page), bytes_of(os.path.join(TOP, "examples", "acvp_server.1")))
    expect("a moment or a name in it", page[3:8], bytes(5))
    listed = subprocess.run(["dpkg-deb", "-c", package], capture_output=True, text=True, check=True).stdout
    expect("the owners in the package", {line.split()[1] for line in listed.splitlines()}, {"root/root"})


def unit(root):
    """The words by which the unit starts the program, with what is installed in the place of /usr/bin/acvp_server."""
    text = bytes_of(root.path(UNIT)).decode()
    example = bytes_of(os.path.join(TOP, "examples", "acvp_server.service")).decode()
    expect("the unit", text.replace(" /usr/bin/acvp_server ", " /usr/local/bin/acvp_server "), example)
    text = text.replace(" /usr/bin/acvp_server ", f" {root.path('usr/bin/acvp_server')} ")
    if shutil.which("systemd-analyze"):
        place = root.path("acvp_server.service")
        with open(place, "w", encoding="ascii") as file:
            file.write(text)
        done = subprocess.run(["systemd-analyze", "verify", place], capture_output=True, text=True)
        expect(f"what systemd says of the unit: {done.stderr}", (done.returncode, done.stdout), (0, ""))
    else:
        print("skipped: what systemd says of the unit (apt-get install systemd)")
    return shlex.split(re.search(r"^ExecStart=(.*)", text, re.MULTILINE)[1])


@contextlib.contextmanager
def served(words, **more):
    """Serves by these words, and gives the first line that is printed."""
    process = subprocess.Popen(words, stdin=subprocess.DEVNULL, stdout=subprocess.PIPE, **more)
    try:
        yield process.stdout.readline()
    finally:
        process.terminate()
        process.communicate()


def validates(root, words):
    """The installed program serves a validation by the commands of the unit, as the user whose the folder is."""
    records = root.path("var/lib/acvp")
    owner = root.owner()
    about = os.stat(records)
    expect("the folder of the records", (about.st_uid, about.st_gid, stat.S_IMODE(about.st_mode)), (*owner, 0o700))
    more = {"cwd": records, "umask": 0o077}
    if IS_ROOT:
        more.update(user=owner[0], group=owner[1], extra_groups=[])
    program = root.path("usr/bin/acvp_server")
    secret, port = os.path.join(records, "secret-7.txt"), str(free_port())

    def does(wanted, *args):
        done = subprocess.run([program, *args], stdin=subprocess.DEVNULL, capture_output=True, text=True, timeout=600,
                              **more)
        expect(f"the installed program's {args}: {done.stderr}", (done.returncode, done.stdout), (0, wanted + "\n"))

    does("ready", "init", "--db", "laboratory.db")
    does("made keys.txt", "keys", "--new", "keys.txt")
    does(f"made {secret}", "secret", "--new", secret)
    expect("the port of the unit", words[-2:], ["--port", "8080"])
    with served([*words[:-1], port], **more) as line:
        expect("the first line of serve", line.decode(), f"listening 127.0.0.1:{port}\n")
        does("account 7 added", "account-add", "--db", "laboratory.db", "--account", "7", "--secret", secret)
        client = [sys.executable, root.path(f"{DOCUMENTS}/examples/validation.py"), "--without-monte-carlo", "--url",
                  f"http://127.0.0.1:{port}/acvp/v1", "7", secret]
        done = subprocess.run(client, capture_output=True, text=True, timeout=120)
        expect("a validation", (done.returncode, done.stderr), (0, ""))
        expect("its last line", done.stdout.split()[-1], "/acvp/v1/testSessions/7000001")


def removed(root):
    """A removal takes all away but the records."""
    root.dpkg("--purge", "acvp-server")
    expect("the program's files", os.path.exists(root.path("usr")), False)
    expect("the records", "laboratory.db" in os.listdir(root.path("var/lib/acvp")), True)


def main():
    program = os.path.abspath(sys.argv[1])
    missing = [package for tool, package in [("dpkg-deb", "dpkg"), ("readelf", "binutils")] if not shutil.which(tool)]
    if missing:
        print(f"skipped: a package of the program (apt-get install {' '.join(missing)})")
        return
    # the user acvp goes through the folders of the root
    os.umask(0o022)
    with tempfile.TemporaryDirectory() as folder:
        os.chmod(folder, 0o755)
        package = made_twice(program, folder)
        refused(program, folder)
        root = Root(folder)
        installed(root, package, program)
        words = unit(root)
        if shutil.which("systemd-sysusers") and shutil.which("systemd-tmpfiles"):
            validates(root, words)
            removed(root)
        else:
            print("skipped: a validation by the installed program (apt-get install systemd)")
    print(f"{laboratory.checked} comparisons")


main()

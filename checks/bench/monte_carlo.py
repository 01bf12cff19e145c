#!/usr/bin/env python3
"""Times a Monte Carlo test against OpenSSL's hashes of the same length, and the prompts of the widest HMAC domain.

    ./bench --monte-carlo               this work tree
    ./bench --monte-carlo COMMIT..      and these commits beside it, in the same run

Each side is copied to a folder of its own with a program that times it; the program is proved, built and run. All sides
and `openssl speed` take turns, so that none has the machine's better minutes to itself; what counts is the least of the
runs. With valgrind, the most memory that the standard's answers to a Monte Carlo test take is measured too. It is no
part of the gate."""
import json
import os
import re
import shutil
import subprocess
import sys
import tempfile

TOP = os.path.dirname(os.path.dirname(os.path.dirname(os.path.abspath(__file__))))
RUNS = 15
CRATES = ["acvp_mac", "acvp_caps", "acvp_gen", "acvp_answers"]
HASHES = 100000
SIDES = {"sha256": 96, "sha512": 192}

PROGRAM = r"""//! Times the standard's answers to a Monte Carlo test, and the prompts of the widest HMAC domain.
#![tactic(auto)]

use acvp_answers::standard;
use acvp_caps::Capability;
use acvp_gen::{Prompts, prompts};
use std::alloc::Global;
use std::io;
use std::time::Instant;

fn prompts_of(alloc: Global, text: &str) -> Option<Prompts> {
    let capability = match Capability::from_text(alloc, text) {
        Ok(capability) => capability,
        Err(_) => return None,
    };
    match prompts(alloc, &[0; 32], 1, &capability) {
        Ok(prompts) => Some(prompts),
        Err(_) => None,
    }
}

fn time_standard(rt: &HostRuntime, name: &str, text: &str) -> io::Result<()> {
    let Some(prompts) = prompts_of(rt.alloc(), text) else {
        return Ok(());
    };
    let start = Instant::now(rt)?;
    let done = standard(rt.alloc(), &prompts).is_ok();
    let spent = start.elapsed(rt)?.as_micros();
    println!(rt; "{name} {spent} {done}")
}

fn time_prompts(rt: &HostRuntime, name: &str, text: &str) -> io::Result<()> {
    let start = Instant::now(rt)?;
    let done = prompts_of(rt.alloc(), text).is_some();
    let spent = start.elapsed(rt)?.as_micros();
    println!(rt; "{name} {spent} {done}")
}

fn main(rt: HostRuntime) -> io::Result<()> {
    // The only length is that of three digests, so one Monte Carlo test and 17 hashes are asked for.
    let sha256 = "{\"algorithm\":\"SHA2-256\",\"messageLength\":[768],\"revision\":\"1.0\"}";
    let sha512 = "{\"algorithm\":\"SHA2-512\",\"messageLength\":[1536],\"revision\":\"1.0\"}";
    let widest = "{\"algorithm\":\"HMAC-SHA2-512\",\
         \"keyLen\":[{\"increment\":8,\"max\":524288,\"min\":8}],\
         \"macLen\":[{\"increment\":8,\"max\":512,\"min\":32}],\"revision\":\"1.0\"}";
    time_standard(&rt, "sha512", sha512)?;
    if std::env::args(&rt)?.count() > 1 {
        return Ok(());
    }
    time_standard(&rt, "sha256", sha256)?;
    time_prompts(&rt, "prompts", widest)?;
    time_prompts(&rt, "prompts-of-32-items", "PARTED")
}
"""

# The same lengths of keys, given as 32 ranges.
PARTED = json.dumps({"algorithm": "HMAC-SHA2-512", "keyLen": [{"increment": 8, "max": 16384 * (i + 1),
                                                               "min": 16384 * i + 8} for i in range(32)],
                     "macLen": [{"increment": 8, "max": 512, "min": 32}], "revision": "1.0"})


def built(folder, name, commit, crates=CRATES, stands_on="acvp_caps acvp_gen acvp_answers",
          text=PROGRAM.replace("PARTED", PARTED.replace('"', '\\"'))):
    """The program over a commit, or over the work tree."""
    side = os.path.join(folder, name)
    os.makedirs(os.path.join(side, "crates"))
    if commit:
        archive = subprocess.run(["git", "-C", TOP, "archive", commit, "crates", "crates.txt"], check=True,
                                 stdout=subprocess.PIPE).stdout
        subprocess.run(["tar", "-x", "-C", side], input=archive, check=True)
    else:
        for crate in crates:
            shutil.copytree(os.path.join(TOP, "crates", crate), os.path.join(side, "crates", crate),
                            ignore=shutil.ignore_patterns("out"))
        shutil.copy(os.path.join(TOP, "crates.txt"), side)
    with open(os.path.join(side, "crates.txt")) as listed:
        lines = [line for line in listed if line.split(":")[0] in crates]
    with open(os.path.join(side, "crates.txt"), "w") as listed:
        listed.writelines(lines + [f"benchmark: {stands_on}\n"])
    source = os.path.join(side, "crates", "benchmark", "src")
    os.makedirs(source)
    with open(os.path.join(source, "main.rt"), "w") as program:
        program.write(text)
    print(f"proving and building the program over {name} ..", flush=True)
    done = subprocess.run(["rt", "run"], cwd=os.path.dirname(source), capture_output=True, text=True)
    program = os.path.join(side, "crates", "benchmark", "out", "benchmark")
    if not os.path.exists(program):
        sys.exit(f"the program over {name} isn't built:\n{done.stdout[-2000:]}{done.stderr[-2000:]}")
    return program


def openssl(algorithm):
    """The seconds that OpenSSL takes for as many hashes."""
    size = SIDES[algorithm]
    text = subprocess.run(["openssl", "speed", "-elapsed", "-seconds", "1", "-bytes", str(size), "-evp", algorithm],
                          check=True, capture_output=True, text=True).stdout
    thousands = float(re.search(rf"^{algorithm}\s+([\d.]+)k", text, re.MULTILINE).group(1))
    return HASHES * size / (thousands * 1000)


def peak(program):
    """The most bytes on the heap at a time, of the standard's answers for SHA2-512, as valgrind's massif has them."""
    with tempfile.NamedTemporaryFile() as out:
        subprocess.run(["valgrind", "--tool=massif", f"--massif-out-file={out.name}", program, "memory"], check=True,
                       capture_output=True)
        return max(int(size) for size in re.findall(r"^mem_heap_B=(\d+)", out.read().decode(), re.MULTILINE))


def main():
    commits = sys.argv[1:]
    with tempfile.TemporaryDirectory() as folder:
        programs = {"the work tree": built(folder, "the work tree", None)}
        for commit in commits:
            programs[commit] = built(folder, commit, commit)
        times = {}
        for _ in range(RUNS):
            for name, program in programs.items():
                output = subprocess.run([program], check=True, capture_output=True, text=True).stdout
                for line in output.splitlines():
                    what, spent, done = line.split()
                    assert done == "true", line
                    times.setdefault((name, what), []).append(int(spent) / 1e6)
            for algorithm in SIDES:
                times.setdefault(("openssl", algorithm), []).append(openssl(algorithm))
        for (name, what), spent in times.items():
            print(f"{name}, {what}: {min(spent):.4f} s")
        for name in programs:
            for algorithm in SIDES:
                ratio = min(times[name, algorithm]) / min(times["openssl", algorithm])
                print(f"{name}, {algorithm}: {ratio:.2f} of OpenSSL's time")
        for name, program in programs.items():
            if shutil.which("valgrind"):
                print(f"{name}: {peak(program)} bytes at most on the heap")
        for commit in commits:
            for what in ("prompts", "prompts-of-32-items"):
                ratio = min(times[commit, what]) / min(times["the work tree", what])
                print(f"{what}: {ratio:.1f} times as fast as {commit}")


if __name__ == "__main__":
    main()

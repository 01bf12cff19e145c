#!/usr/bin/env python3
"""Times the reading of bodies of answers, and the keeping of answers, for 10000, 20000 and 40000 tests.

    ./bench --bodies

The program is proved, built and run fifteen times; what counts is the least of the runs. It is no part of the gate."""
import subprocess
import tempfile

from monte_carlo import CRATES, RUNS, built

SIZES = [10000, 20000, 40000]

PROGRAM = r"""//! Times the reading of bodies of answers, and the keeping of answers.
#![tactic(auto)]

use acvp_caps::Capability;
use acvp_gen::{Prompts, prompts};
use acvp_json::{answers_from_text, answers_to_text, open_envelope, read_answers};
use std::alloc::{AllocError, Global};
use std::io;
use std::time::Instant;

fn prompts_of(alloc: Global) -> Option<Prompts> {
    let text = "{\"algorithm\":\"SHA2-256\",\"messageLength\":[8],\"revision\":\"1.0\"}";
    let capability = match Capability::from_text(alloc, text) {
        Ok(capability) => capability,
        Err(_) => return None,
    };
    match prompts(alloc, &[0; 32], 1, &capability) {
        Ok(prompts) => Some(prompts),
        Err(_) => None,
    }
}

/// So many objects or arrays, each made of its number, between a front and an end.
fn listed(alloc: Global, front: &str, kept: bool, count: u64, end: &str) -> Result<String, AllocError> {
    let digest = "e3b0c44298fc1c149afbf4c8996fb92427ae41e4649b934ca495991b7852b855";
    let mut text = String::from_str(alloc, front)?;
    for place in 0..count {
        if place > 0 {
            text.push(',')?;
        }
        let number = place + 1;
        let test = if kept {
            format!(in alloc; "[{number},[\"{digest}\"]]")?
        } else {
            format!(in alloc; "{{\"md\":\"{digest}\",\"tcId\":{number}}}")?
        };
        text.push_str(test.as_str())?;
    }
    text.push_str(end)?;
    Ok(text)
}

/// The envelope is opened, and the form of the whole is read; the first test that the set doesn't have ends it.
fn time_body(rt: &HostRuntime, prompts: &Prompts, count: u64) -> io::Result<()> {
    let front = "[{\"acvVersion\":\"1.0\"},{\"testGroups\":[{\"tests\":[";
    let Ok(text) = listed(rt.alloc(), front, false, count, "],\"tgId\":1}],\"vsId\":1}]") else {
        return Ok(());
    };
    let start = Instant::now(rt)?;
    let Ok(object) = open_envelope(rt.alloc(), text.as_bytes()) else {
        return Ok(());
    };
    let opened = start.elapsed(rt)?.as_micros();
    let second = Instant::now(rt)?;
    let done = read_answers(rt.alloc(), &object, prompts).is_err();
    let spent = second.elapsed(rt)?.as_micros();
    let size = text.len();
    println!(rt; "open {count} {size} {opened} true")?;
    println!(rt; "read {count} {size} {spent} {done}")
}

/// Kept answers are read, and written again.
fn time_kept(rt: &HostRuntime, count: u64) -> io::Result<()> {
    let Ok(text) = listed(rt.alloc(), "[", true, count, "]") else {
        return Ok(());
    };
    let start = Instant::now(rt)?;
    let Ok(answers) = answers_from_text(rt.alloc(), text.as_str()) else {
        return Ok(());
    };
    let read = start.elapsed(rt)?.as_micros();
    let second = Instant::now(rt)?;
    let done = answers_to_text(rt.alloc(), &answers).is_ok();
    let spent = second.elapsed(rt)?.as_micros();
    let size = text.len();
    println!(rt; "from-text {count} {size} {read} true")?;
    println!(rt; "to-text {count} {size} {spent} {done}")
}

fn main(rt: HostRuntime) -> io::Result<()> {
    let Some(prompts) = prompts_of(rt.alloc()) else {
        return Ok(());
    };
    for count in [10000, 20000, 40000] {
        time_body(&rt, &prompts, count)?;
        time_kept(&rt, count)?;
    }
    Ok(())
}
"""


def main():
    with tempfile.TemporaryDirectory() as folder:
        program = built(folder, "the work tree", None, CRATES + ["acvp_registry", "acvp_json"],
                        "acvp_caps acvp_gen acvp_json", PROGRAM)
        times, sizes = {}, {}
        for _ in range(RUNS):
            output = subprocess.run([program], check=True, capture_output=True, text=True).stdout
            for line in output.splitlines():
                what, count, size, spent, done = line.split()
                assert done == "true", line
                times.setdefault((what, int(count)), []).append(int(spent) / 1e3)
                sizes[what, int(count)] = int(size)
        for what in ("open", "read", "from-text", "to-text"):
            for count in SIZES:
                print(f"{what}, {count} tests, {sizes[what, count]} bytes: {min(times[what, count]):.1f} ms")


if __name__ == "__main__":
    main()

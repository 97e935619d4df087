#!/usr/bin/env python3
"""Admission of 512 cores into a System, against an earlier revision of this repository.

Builds a small program over armcaps_sanit twice, in copies of the repository outside it: from the files as they stand and
from the revision. Building proves what the program stands on, so that the first run takes minutes. Prints the processor
time of one admission in both (the best of some runs each) and their ratio. It is no test: it asserts nothing.

usage: bench/admit.py [REVISION]        the default is the revision before a System kept words
"""
import os
import pathlib
import shutil
import subprocess
import sys
import tempfile

CORES = 512
ROUNDS = 2000
RUNS = 7
BEFORE = "3587b41"
NAME = "admission"
USES = "armcaps_sanit armcaps_tables armcaps_enc"

PROGRAM = """//! Admits cores whose words differ, again and again.
#![tactic(auto)]

use armcaps_enc::SysReg;
use armcaps_sanit::System;
use armcaps_tables::{CoreRegs, Overrides};
use std::io;

// A core of a line of numbers, each of which is the next of the one before.
fn core(seed: u64) -> CoreRegs {
    let mut core = CoreRegs::zero();
    let mut word = seed;
    for reg in SysReg::TRACKED {
        word = word.wrapping_mul(6364136223846793005).wrapping_add(1442695040888963407);
        core.set(reg, word);
    }
    core
}

// A register's word over the cores, each of which comes many times.
fn admitted(cores: &[CoreRegs], first: usize) -> u64 {
    if cores.is_empty() {
        return 0;
    }
    let mut system = System::new(&cores[first % cores.len()], &Overrides::none());
    for place in 0..CORES_usize {
        system.admit(&cores[place % cores.len()]);
    }
    system.word(SysReg::CtrEl0)
}

fn main(rt: HostRuntime) -> io::Result<()> {
    let cores = [core(1), core(2), core(3), core(4), core(5), core(6), core(7), core(8)];
    let mut sum = 0u64;
    for round in 0..ROUNDS_usize {
        sum = sum.rotate_left(1) ^ admitted(&cores, round);
    }
    println!(rt; "{sum}")?;
    Ok(())
}
"""


def prepared(folder, files):
    """A copy of the repository with the program's crate in it."""
    subprocess.run(f"cd '{files[0]}' && {files[1]} | tar -x -C '{folder}'", shell=True, check=True)
    source = pathlib.Path(folder) / "crates" / NAME / "src"
    source.mkdir(parents=True)
    text = PROGRAM.replace("ROUNDS_usize", f"{ROUNDS}usize").replace("CORES_usize", f"{CORES}usize")
    (source / "main.rt").write_text(text)
    with open(pathlib.Path(folder) / "crates.txt", "a") as file:
        file.write(f"{NAME}: {USES}\n")
    subprocess.run(["git", "init", "-q", folder], check=True)
    subprocess.run(["rt", "run"], cwd=source.parent, check=True, stdout=subprocess.DEVNULL)
    return source.parent / "out" / NAME


def nanoseconds(program):
    """Processor time of one admission."""
    child = subprocess.Popen([program], stdout=subprocess.DEVNULL)
    _, _, usage = os.wait4(child.pid, 0)
    child.returncode = 0
    return usage.ru_utime * 1e9 / (CORES * ROUNDS)


def main():
    top = pathlib.Path(__file__).resolve().parent.parent
    revision = sys.argv[1] if len(sys.argv) > 1 else BEFORE
    now, before = tempfile.mkdtemp(), tempfile.mkdtemp()
    try:
        ours = prepared(now, (top, "tar -c --exclude=out crates crates.txt HANDLES"))
        theirs = prepared(before, (top, f"git archive {revision} crates crates.txt HANDLES"))
        times = [(nanoseconds(ours), nanoseconds(theirs)) for _ in range(RUNS)]
    finally:
        shutil.rmtree(now)
        shutil.rmtree(before)
    after, earlier = (min(column) for column in zip(*times))
    print(f"one admission now        {after:.0f} ns")
    print(f"one admission {revision:10} {earlier:.0f} ns")
    print(f"ratio                    {after / earlier:.3f}")


if __name__ == "__main__":
    main()

#!/usr/bin/env python3
"""Interns 10^6 names in a `Pool` and looks each up, beside Python's `dict`, in one run: median of five.

Usage: bench/interning.py   (proves and builds the program below over copies of crates/resolvo_pool_core and crates/resolvo_intern: some minutes)
"""
import resource
import statistics
import subprocess
import sys
import tempfile

import program

CRATES = """\
resolvo_pool_core: thiserror
resolvo_intern: resolvo_pool_core indexmap
interning: resolvo_pool_core resolvo_intern
"""

PROGRAM = """\
//! Interns a million names, and looks each up.
#![tactic(auto)]

use resolvo_intern::pool::{Pool, VersionSet};
use resolvo_pool_core::id::{DenseIndex, NameId};
use resolvo_pool_core::want::R;
use std::alloc::Global;
use std::process::ExitCode;

const NAMES: u32 = 1_000_000;

/// Versions up to a number.
#[derive(Clone, Copy, Debug, Drop, PartialEq, Eq, Hash)]
struct UpTo(u32);

impl VersionSet for UpTo {
    type V = u32;
}

/// Interns all names, and counts those that are found again under their id.
fn intern_and_look_up(alloc: Global) -> R<u32> {
    let mut pool = Pool::<UpTo>::new(alloc);
    for number in 0..NAMES {
        let name = format!(in alloc; "package-{number}")?;
        pool.intern_package_name(name)?;
    }
    let mut found = 0_u32;
    for number in 0..NAMES {
        let name = format!(in alloc; "package-{number}")?;
        if let Some(id) = pool.lookup_package_name(&name) {
            if id.into_raw() == number {
                found = found.saturating_add(1);
            }
        }
    }
    Ok(found)
}

fn main(rt: HostRuntime) -> ExitCode {
    match intern_and_look_up(rt.alloc()) {
        Ok(found) => {
            let _ = println!(rt; "{found}");
            ExitCode::from(0)
        }
        Err(_want) => ExitCode::from(1),
    }
}
"""

PYTHON = """\
ids = {}
for number in range(1_000_000):
    ids.setdefault(f"package-{number}", len(ids))
found = 0
for number in range(1_000_000):
    if ids.get(f"package-{number}") == number:
        found += 1
print(found)
"""


def processor_seconds(command):
    def used():
        usage = resource.getrusage(resource.RUSAGE_CHILDREN)
        return usage.ru_utime + usage.ru_stime

    before = used()
    subprocess.run(command, stdout=subprocess.DEVNULL, check=True)
    return used() - before


def main():
    with tempfile.TemporaryDirectory() as folder:
        commands = [[program.build(folder, "interning", PROGRAM, CRATES)], [sys.executable, "-c", PYTHON]]
        times = [[processor_seconds(command) for command in commands] for _ in range(5)]
        pool, plain = (statistics.median(column) for column in zip(*times))
        print(f"Pool {pool:.2f} s, dict {plain:.2f} s, ratio {pool / plain:.2f}")


main()

#!/usr/bin/env python3
"""Measures how long the class of a flow takes with few filters and with many. No part of any test.

Takes no argument. It makes a program of its own in a new folder under bench/out, over copies of the crates that it needs, lets
`rt try` build and run it, and removes the folder at the end. The filters are of UDP ports of their own, 1,024 of them as an
interface may have at most, and each flow asked for has the port of one of them, or of none. For each count of filters it
prints the nanoseconds of one call of `class`, and how many times those of one filter they are.

Each is run three times, and the least processor time counts; that of a run that asks for nothing is taken off. `rt try` runs the
program with its own checks on, some hundred times slower than a built one: what is of use here is how the times compare.
"""

import os
import shutil
import subprocess
import sys
import tempfile

sys.dont_write_bytecode = True
HERE = os.path.dirname(os.path.abspath(__file__))
ROOT = os.path.dirname(HERE)
COUNTS = [1, 16, 256, 1024]
CALLS = 2_000_000
RUNS = 3

PROGRAM = """//! Asks for the class of flows, again and again.
#![tactic(auto)]

use conf_lines::statements;
use conf_tree::Conf;
use flow_filter::Filters;
use packet_heads::FlowHeads;
use std::alloc::Global;
use std::env;

/// A datagram over IPv4 to a port.
fn heads(side: u8, port: u16) -> FlowHeads<'static> {
    let ports = if side == 0 { Some((9, port)) } else { Some((port, 9)) };
    FlowHeads::V4 { tos: 0, protocol: 17, source: &[10, 0, 0, 1], target: &[10, 0, 0, 2], ports }
}

/// Filters of so many ports of their own, from 1,024 on.
fn text(alloc: Global, side: u8, count: u16) -> anyhow::Result<String> {
    let mut text = format!(in alloc; "interface if0 cbq\\nclass cbq if0 top NULL default\\nclass cbq if0 a top pbandwidth 5\\n")?;
    for i in 0..count {
        let port = 1024 + i;
        let line = if side == 0 {
            format!(in alloc; "filter if0 a 0 {port} 0 0 17\\n")?
        } else {
            format!(in alloc; "filter if0 a 0 0 0 {port} 17\\n")?
        };
        text.push_str(line.as_str())?;
    }
    Ok(text)
}

fn number(words: &Vec<String>, place: usize) -> u32 {
    match words.get(place) {
        Some(word) => word.parse::<u32>().unwrap_or(0),
        None => 0,
    }
}

fn main(rt: HostRuntime) -> anyhow::Result<()> {
    let alloc = rt.alloc();
    let mut words = Vec::new(alloc);
    for word in env::args(&rt)? {
        words.push(word)?;
    }
    let side = number(&words, 1) as u8;
    let count = number(&words, 2) as u16;
    let calls = number(&words, 3);
    let text = text(alloc, side, count)?;
    let Ok(found) = statements(alloc, text.as_bytes()) else {
        return Ok(());
    };
    let Ok(conf) = Conf::build(alloc, found.as_slice()) else {
        println!(rt; "refused")?;
        return Ok(());
    };
    let Some(interface) = conf.interface("if0") else {
        return Ok(());
    };
    let Ok(filters) = Filters::build(alloc, interface) else {
        return Ok(());
    };
    let mut sum = 0u32;
    for call in 0..calls {
        let port = 1024 + (call.wrapping_mul(7919) % u32::from(count)) as u16;
        sum = sum.wrapping_add(filters.class(&heads(side, port)));
    }
    println!(rt; "{sum}")?;
    Ok(())
}
"""


def workspace(folder):
    """The crates below flow_filter, and the program."""
    lines = open(os.path.join(ROOT, "crates.txt")).read().splitlines()
    kept = {line.split(":")[0]: line for line in lines if ":" in line and not line.startswith("#")}
    needed, todo = [], ["flow_filter"]
    while todo:
        name = todo.pop()
        if name in kept and name not in needed:
            needed.append(name)
            todo += kept[name].split(":")[1].split()
    for name in needed:
        shutil.copytree(os.path.join(ROOT, "crates", name), os.path.join(folder, "crates", name), symlinks=True,
                        ignore=shutil.ignore_patterns("must-fail", "tests.rt"))
    program = os.path.join(folder, "crates", "classes")
    os.makedirs(os.path.join(program, "src"))
    os.makedirs(os.path.join(program, "specs"))
    os.makedirs(os.path.join(program, "proofs"))
    with open(os.path.join(program, "src", "main.rt"), "w") as file:
        file.write(PROGRAM)
    with open(os.path.join(folder, "crates.txt"), "w") as file:
        file.write("\n".join(kept[name] for name in needed) + "\nclasses: flow_filter conf_tree conf_lines packet_heads anyhow\n")
    return program


def spent(program, side, count, calls):
    """The processor seconds of one run: of making the program too, which is the same for each."""
    before = os.times()
    done = subprocess.run(["rt", "try", "--", str(side), str(count), str(calls)], cwd=program, capture_output=True, check=False)
    if done.returncode != 0:
        sys.exit(f"filters.py: the program did not end:\n{done.stdout.decode()[-2000:]}")
    after = os.times()
    return after.children_user - before.children_user


def main():
    os.makedirs(os.path.join(HERE, "out"), exist_ok=True)
    folder = tempfile.mkdtemp(dir=os.path.join(HERE, "out"))
    try:
        program = workspace(folder)
        nothing = min(spent(program, 0, 1, 0) for _ in range(RUNS))
        for side, name in ((0, "target's port"), (1, "source's port")):
            one = None
            for count in COUNTS:
                seconds = min(spent(program, side, count, CALLS) for _ in range(RUNS)) - nothing
                one = one or seconds
                print(f"{name}, {count:5} filters: {seconds / CALLS * 1e9:8.0f} ns a call, {seconds / one:.2f} times one filter", flush=True)
    finally:
        shutil.rmtree(folder)


if __name__ == "__main__":
    main()

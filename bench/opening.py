#!/usr/bin/env python3
"""Measures the opening of a state by one, two and four threads: bench/opening.py [FOLDER]

It builds a throwaway program over a copy of the repository, so nothing here is changed, and runs it on files in the
folder, or in a new one. Each file has 256 MB in bodies of one length, which are batches as builds make them: each rule
has a value, an entry that needs two names, and a verifying trace. Shapes:

new     1,000 bodies, each with rules of its own
again   1,000 bodies, each with other values of the same rules
large   16 bodies, each with rules of its own

By 0 threads the journal alone is loaded, in which no thread helps.

The numbers of threads are run in turn, and of each the least counts: of the time by the clock, which tells on an idle
machine alone; of the user and system time of the first thread, which puts all together; and of that of all threads. It
ends with 1 where four threads take more than 0.6 of the time of one by the clock, on the first shape.
"""
import hashlib
import os
import pathlib
import shutil
import struct
import subprocess
import sys
import tempfile
import time

TOP = pathlib.Path(__file__).resolve().parents[1]
CRATES = ("carte_name", "carte_value", "carte_io", "carte_bank", "carte_journal", "carte_codec", "carte_table", "carte_record", "carte_record_one", "carte_state")
ROUNDS = 5
SIZE = 256 * 1024 * 1024
SHAPES = {"new": (1000, False), "again": (1000, True), "large": (16, False)}
WORKERS = ("1", "2", "4")

MAIN = """
//! Loads a state by so many threads, or by 0 its journal alone: speed_opening WORKERS FILE
#![tactic(auto)]

use carte_io::{FileDisk, NoGate};
use carte_journal::Journal;
use carte_state::State;
use carte_value::Seeded;
use std::alloc::Global;
use std::env;
use std::fs::{File, OpenOptions};
use std::marker::Sync;
use std::thread::Threads;

const LIMIT: u64 = 4_000_000_000;

fn main(rt: HostRuntime) {
    let Ok(mut words) = env::args(&rt) else { return };
    let _program = words.next();
    let Some(workers) = words.next() else { return };
    let Some(path) = words.next() else { return };
    let Ok(workers) = workers.as_str().parse::<usize>() else { return };
    let opened = OpenOptions::new().read(true).write(true).open(&rt, path.as_str());
    let Ok(file) = opened else { return };
    let mut disk = FileDisk::of(file);
    let count = run(&rt, rt.alloc(), &mut disk, workers).unwrap_or(0);
    let _ = println!(&rt; "{count}");
}

fn run<T: Threads + Sync>(rt: &T, alloc: Global, disk: &mut FileDisk<File>, workers: usize) -> Option<usize> {
    if workers == 0 {
        let (_journal, bodies) = Journal::load(alloc, disk, LIMIT).ok()?;
        return Some(bodies.len());
    }
    let state = State::load_by(rt, alloc, disk, LIMIT, Seeded::of(7), workers, &NoGate).ok()?;
    Some(state.kept().entries.len())
}
"""


def build(work):
    crate = work / "crates" / "speed_opening"
    (crate / "src").mkdir(parents=True)
    for name in CRATES:
        shutil.copytree(TOP / "crates" / name, work / "crates" / name, ignore=shutil.ignore_patterns("out", "*.log"))
    lines = [it for it in (TOP / "crates.txt").read_text().splitlines() if it.partition(":")[0] in CRATES]
    (work / "crates.txt").write_text("\n".join([*lines, "speed_opening: carte_value carte_io carte_journal carte_state", ""]))
    shutil.copy(TOP / "HANDLES", work)
    (crate / "src" / "main.rt").write_text(MAIN.lstrip())
    # without words the program does nothing, and `rt run` leaves it proved and built
    done = subprocess.run(["rt", "run", "--jobs", "1"], cwd=crate, stdin=subprocess.DEVNULL, stdout=subprocess.PIPE,
                          stderr=subprocess.STDOUT, text=True, start_new_session=True)
    if done.returncode:
        sys.exit(done.stdout[-2_000:] + "opening: the program can't be built")
    return crate / "out" / "speed_opening"


def listed(items):
    return struct.pack(">I", len(items)) + b"".join(items)


def body(turn, keys, same):
    """The batch of a build that finishes so many rules, which need the first two inputs."""
    needs = [b"\x02i1", b"\x02i2"]
    links = listed([name + hashlib.sha256(name).digest() for name in needs])
    values, entries, traces = [], [], []
    for at in range(keys):
        text = b"r%d" % (at if same else turn * keys + at)
        name = bytes([len(text)]) + text
        value = struct.pack(">Bq", 1, turn * keys + at)
        digest = hashlib.sha256(value).digest()
        values.append(value)
        task = hashlib.sha256(b"\2i1+i2+%d" % (turn * keys + at)).digest()
        entries.append(name + task + digest + b"\0" + listed(needs))
        traces.append(name + task + links + digest)
    nothing = listed([])
    return b"\x04\0" + listed(values) + nothing + nothing + listed(entries) + nothing + listed(traces) + nothing + nothing + b"\0"


def state(path, bodies, same):
    keys = SIZE // bodies * 1000 // len(body(900, 1000, same))
    with open(path, "wb") as file:
        file.write(b"CARTE01\n")
        for turn in range(bodies):
            bytes_of_one = body(turn, keys, same)
            file.write(b"\x01" + struct.pack(">I", len(bytes_of_one)) + bytes_of_one)
        file.write(b"\x00")
    return os.path.getsize(path)


def run(program, workers, path):
    start = time.monotonic()
    child = os.fork()
    if child == 0:
        os.dup2(os.open("/dev/null", os.O_WRONLY), 1)
        os.execv(program, [program, workers, path])
    os.waitid(os.P_PID, child, os.WEXITED | os.WNOWAIT)
    clock = time.monotonic() - start
    ticks = pathlib.Path(f"/proc/{child}/task/{child}/stat").read_text().rpartition(")")[2].split()[11:13]
    _, status, usage = os.wait4(child, 0)
    assert status == 0, workers
    return clock, sum(map(int, ticks)) / os.sysconf("SC_CLK_TCK"), usage.ru_utime + usage.ru_stime, usage.ru_maxrss >> 10


def measure(program, folder):
    first = {}
    for shape, (bodies, same) in SHAPES.items():
        path = os.path.join(folder, shape)
        size = state(path, bodies, same)
        ways = (*WORKERS, "0") if shape == "new" else WORKERS
        runs = {workers: [] for workers in ways}
        for _ in range(ROUNDS):
            for workers in ways:
                runs[workers].append(run(program, workers, path))
        os.remove(path)
        least = {workers: [min(it) for it in zip(*runs[workers])] for workers in ways}
        for workers in ways:
            clock, one, used, memory = least[workers]
            print(f"{shape}, {size} bytes, {workers} threads: {clock * 1000:.0f} ms by the clock ({clock / least['1'][0]:.2f}), "
                  f"{one * 1000:.0f} on the first thread ({one / least['1'][1]:.2f}), {used * 1000:.0f} in all, {memory} MB", flush=True)
        first = first or least
    return first["4"][0] <= 0.6 * first["1"][0]


if __name__ == "__main__":
    with tempfile.TemporaryDirectory() as work:
        sys.exit(0 if measure(build(pathlib.Path(work)), sys.argv[1] if sys.argv[1:] else work) else 1)

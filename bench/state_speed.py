#!/usr/bin/env python3
"""Measures a journal on a file against bare calls of the same FileDisk, as ratios of one run: bench/state_speed.py [FOLDER]

It builds a throwaway program over a copy of the repository, so nothing here is changed, and runs it on files in the
folder, or in a new one. Each pair is run in turn, and of each the least user and system time counts. Modes:

commit  10 commits to a new file of a frame of 6,000,000 bytes, which is made once
framed  the same, with the frame made anew for each
bare    10 writes of the same bytes to a new file, with a sync behind each
copied  the same, with the bytes copied anew for each
load    loads a journal of 256 MB with 10,000 frames
read    reads the same file into one buffer

It ends with 1 where a commit takes more than 1.3 times as long as the bare calls, each with or without the copy; a
load more than 2 times as long as the read; or a load more memory than 1.2 times its bodies and 16 MB.
"""
import os
import pathlib
import shutil
import subprocess
import sys
import tempfile
import time

TOP = pathlib.Path(__file__).resolve().parents[1]
CRATES = ("carte_name", "carte_value", "carte_io", "carte_bank", "carte_journal")
ROUNDS = 9
FRAMES = 10_000
SIZE = 256 * 1024 * 1024

MAIN = """
//! A journal on a file, or bare calls of one, by the first word.
#![tactic(auto)]

use carte_io::{Disk, FileDisk};
use carte_journal::{Frame, Journal};
use std::alloc::Global;
use std::env;
use std::fs::{File, OpenOptions};

fn main(rt: HostRuntime) {
    let Ok(mut words) = env::args(&rt) else { return };
    let _program = words.next();
    let Some(mode) = words.next() else { return };
    let Some(path) = words.next() else { return };
    let opened = OpenOptions::new().read(true).write(true).create(true).open(&rt, path.as_str());
    let Ok(file) = opened else { return };
    let mut disk = FileDisk::of(file);
    let done = run(rt.alloc(), mode.as_str(), &mut disk).unwrap_or(0);
    let _ = println!(&rt; "{done}");
}

fn run(alloc: Global, mode: &str, disk: &mut FileDisk<File>) -> Option<usize> {
    match mode {
        "commit" => commit(alloc, disk),
        "framed" => framed(alloc, disk),
        "bare" => bare(alloc, disk),
        "copied" => copied(alloc, disk),
        "load" => load(alloc, disk),
        "read" => read(alloc, disk),
        _ => None,
    }
}

fn filled(alloc: Global, count: usize) -> Option<Vec<u8>> {
    let mut bytes = Vec::with_capacity(alloc, count).ok()?;
    bytes.resize(count, 7).ok()?;
    Some(bytes)
}

fn frame(alloc: Global, body: &[u8]) -> Option<Frame> {
    // A body of 9 bytes may be a move, which is no frame.
    if body.len() == 9 || body.len() > 6000000 {
        return None;
    }
    Frame::of(alloc, body).ok()
}

fn add(journal: &mut Journal, disk: &mut FileDisk<File>, frame: &Frame) -> Option<()> {
    if journal.is_broken() {
        return None;
    }
    journal.commit(disk, frame).ok()
}

fn commit(alloc: Global, disk: &mut FileDisk<File>) -> Option<usize> {
    let body = filled(alloc, 6000000)?;
    let frame = frame(alloc, &body)?;
    let (mut journal, _bodies) = Journal::load(alloc, disk, 4000000000).ok()?;
    for _ in 0..10u64 {
        add(&mut journal, disk, &frame)?;
    }
    Some(body.len())
}

fn framed(alloc: Global, disk: &mut FileDisk<File>) -> Option<usize> {
    let body = filled(alloc, 6000000)?;
    let (mut journal, _bodies) = Journal::load(alloc, disk, 4000000000).ok()?;
    for _ in 0..10u64 {
        let frame = frame(alloc, &body)?;
        add(&mut journal, disk, &frame)?;
    }
    Some(body.len())
}

fn bare(alloc: Global, disk: &mut FileDisk<File>) -> Option<usize> {
    let body = filled(alloc, 6000000)?;
    for i in 0..10u64 {
        disk.write_at(i * 6000000, &body).ok()?;
        disk.sync().ok()?;
    }
    Some(body.len())
}

fn copied(alloc: Global, disk: &mut FileDisk<File>) -> Option<usize> {
    let body = filled(alloc, 6000000)?;
    for i in 0..10u64 {
        let copy = body.to_vec(alloc).ok()?;
        disk.write_at(i * 6000000, &copy).ok()?;
        disk.sync().ok()?;
    }
    Some(body.len())
}

fn load(alloc: Global, disk: &mut FileDisk<File>) -> Option<usize> {
    let (_journal, bodies) = Journal::load(alloc, disk, 4000000000).ok()?;
    Some(bodies.len())
}

fn read(alloc: Global, disk: &mut FileDisk<File>) -> Option<usize> {
    let len = disk.len().ok()?;
    let mut bytes = filled(alloc, len as usize)?;
    disk.read_at(0, &mut bytes).ok()?;
    Some(bytes.len())
}
"""


def build(work):
    crate = work / "crates" / "speed_state"
    (crate / "src").mkdir(parents=True)
    for name in CRATES:
        shutil.copytree(TOP / "crates" / name, work / "crates" / name, ignore=shutil.ignore_patterns("out", "*.log"))
    lines = [it for it in (TOP / "crates.txt").read_text().splitlines() if it.partition(":")[0] in CRATES]
    (work / "crates.txt").write_text("\n".join([*lines, "speed_state: carte_io carte_journal", ""]))
    shutil.copy(TOP / "HANDLES", work)
    (crate / "src" / "main.rt").write_text(MAIN.lstrip())
    # without words the program does nothing, and `rt run` leaves it proved and built
    done = subprocess.run(["rt", "run", "--jobs", "1"], cwd=crate, stdin=subprocess.DEVNULL, stdout=subprocess.PIPE,
                          stderr=subprocess.STDOUT, text=True, start_new_session=True)
    if done.returncode:
        sys.exit(done.stdout[-2_000:] + "state_speed: the program can't be built")
    return crate / "out" / "speed_state"


def run(program, mode, path):
    start = time.monotonic()
    child = os.fork()
    if child == 0:
        os.dup2(os.open("/dev/null", os.O_WRONLY), 1)
        os.execv(program, [program, mode, path])
    _, status, usage = os.wait4(child, 0)
    assert status == 0, mode
    return usage.ru_utime + usage.ru_stime, usage.ru_maxrss * 1024, time.monotonic() - start


def pair(program, one, other, path, fresh):
    best = {}
    for _ in range(ROUNDS):
        for mode in (one, other):
            if fresh and os.path.exists(path):
                os.remove(path)
            got = run(program, mode, path)
            best[mode] = min(best.get(mode, got), got)
    for mode in (one, other):
        print(f"{mode}: {best[mode][0] * 1000:.1f} ms of user and system time, {best[mode][2] * 1000:.1f} ms by the clock, {best[mode][1] >> 10} KB")
    ratio = best[one][0] / best[other][0]
    print(f"{one} / {other}: {ratio:.2f}")
    return ratio, best[one][1]


def journal(path):
    body = bytes(range(256)) * (SIZE // FRAMES // 256 + 1)
    body = body[: SIZE // FRAMES - 5]
    with open(path, "wb") as file:
        file.write(b"CARTE01\n")
        for _ in range(FRAMES):
            file.write(b"\x01" + len(body).to_bytes(4, "big") + body)
        file.write(b"\x00")
    return FRAMES * len(body)


def measure(program, folder):
    path = os.path.join(folder, "commit")
    commit, _ = pair(program, "commit", "bare", path, True)
    framed, _ = pair(program, "framed", "copied", path, True)
    os.remove(path)
    path = os.path.join(folder, "journal")
    bodies = journal(path)
    load, memory = pair(program, "load", "read", path, False)
    os.remove(path)
    print(f"memory of a load: {memory / bodies:.3f} x the {bodies} bytes of its bodies")
    return commit <= 1.3 and framed <= 1.3 and load <= 2 and memory <= 1.2 * bodies + (16 << 20)


if __name__ == "__main__":
    with tempfile.TemporaryDirectory() as work:
        sys.exit(0 if measure(build(pathlib.Path(work)), sys.argv[1] if sys.argv[1:] else work) else 1)

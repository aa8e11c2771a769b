// The state of the plain programs that build (plain_build.rs), over any kind of book: what is kept, in slices of the state's
// bytes, and the batches that a build adds, in the program's own format (docs/STATE-BATCHES.md) with its own syncs. It reads
// batches of version 2 over books in which no name becomes an input or a rule that was the other, rewrites no file, and checks
// no state that another program wrote.
use crate::plain_book::HashMap;
use crate::plain_sha256::{Digest, task};
use std::fs::File;
use std::mem::replace;
use std::os::unix::fs::FileExt;

const HEADER: &[u8] = b"CARTE01\n\0";
pub const NONE: u32 = u32::MAX;

/// A book as far as a build needs one. Names have numbers from 0 on.
pub trait Book<'a> {
    type Value: Copy;
    fn kind(&self) -> u8; // in front of a formula, under the digest of its task
    fn count(&self) -> usize;
    fn number(&self, name: &[u8]) -> u32;
    fn name(&self, key: u32) -> &'a [u8];
    fn input(&self, key: u32) -> Option<Self::Value>;
    fn formula(&self, key: u32) -> &'a [u8];
    /// The names in a rule's formula, each once; of an input none.
    fn needs(&self, key: u32) -> &[u32];
    fn worked_out(&self, key: u32, values: &[Self::Value], stack: &mut Vec<Self::Value>) -> Self::Value;
    fn read(bytes: &mut Bytes<'a>) -> Self::Value;
    fn spell(value: Self::Value, bytes: &mut Vec<u8>);
    fn digest(value: Self::Value) -> Digest;
}

// What is kept

/// In slices of the state's bytes. Traces of a key are a chain, the newest first.
pub struct Kept<'s, V> {
    pub seen: Vec<Option<&'s Digest>>,
    pub entries: Vec<Option<Entry<'s>>>,
    pub stale: Vec<bool>,
    pub needs: Vec<u32>,
    pub newest: Vec<u32>,
    pub traces: Vec<Trace<'s>>,
    pub links: Vec<(u32, &'s Digest)>,
    pub values: HashMap<&'s [u8], V>,
}

#[derive(Clone, Copy)]
pub struct Entry<'s> {
    pub task: &'s Digest,
    pub result: &'s Digest,
    pub from: u32,
    pub end: u32,
}

pub struct Trace<'s> {
    pub older: u32,
    pub task: &'s Digest,
    pub from: u32,
    pub end: u32,
    pub result: &'s Digest,
}

impl<'s, V: Copy> Kept<'s, V> {
    pub fn new(count: usize) -> Kept<'s, V> {
        Kept {
            seen: vec![None; count],
            entries: vec![None; count],
            stale: vec![false; count],
            needs: Vec::new(),
            newest: vec![NONE; count],
            traces: Vec::new(),
            links: Vec::new(),
            values: HashMap::default(),
        }
    }

    pub fn needs(&self, entry: &Entry) -> &[u32] {
        &self.needs[entry.from as usize..entry.end as usize]
    }

    pub fn value(&self, digest: &Digest) -> Option<V> {
        self.values.get(&digest[..]).copied()
    }
}

pub struct Bytes<'s>(pub &'s [u8]);

impl<'s> Bytes<'s> {
    pub fn take<const N: usize>(&mut self) -> &'s [u8; N] {
        let (front, rest) = self.0.split_first_chunk().expect("a whole state");
        self.0 = rest;
        front
    }
    pub fn byte(&mut self) -> u8 {
        self.take::<1>()[0]
    }
    pub fn count(&mut self) -> usize {
        u32::from_be_bytes(*self.take()) as usize
    }
    fn name<'a>(&mut self, book: &impl Book<'a>) -> u32 {
        let (name, rest) = self.0[1..].split_at(self.0[0] as usize);
        self.0 = rest;
        book.number(name)
    }
}

pub fn apply<'a: 's, 's, B: Book<'a>>(kept: &mut Kept<'s, B::Value>, digests: &'s [Digest], book: &B, body: &'a [u8]) {
    let mut body = Bytes(body);
    assert_eq!(body.take(), b"\x04\0", "a batch of version 2 that goes on");
    let count = body.count();
    kept.values.reserve(count);
    for digest in digests {
        kept.values.insert(digest, B::read(&mut body));
    }
    assert_eq!(body.count(), 0, "names that stay what they are");
    for _ in 0..body.count() {
        let name = body.name(book);
        kept.seen[name as usize] = Some(body.take());
    }
    for _ in 0..body.count() {
        let (key, task, result) = (body.name(book), body.take(), body.take());
        body.byte();
        let from = kept.needs.len() as u32;
        for _ in 0..body.count() {
            kept.needs.push(body.name(book));
        }
        kept.entries[key as usize] = Some(Entry { task, result, from, end: kept.needs.len() as u32 });
        kept.stale[key as usize] = false;
    }
    for _ in 0..body.count() {
        kept.stale[body.name(book) as usize] = true;
    }
    for _ in 0..body.count() {
        let (key, task, from) = (body.name(book), body.take(), kept.links.len() as u32);
        for _ in 0..body.count() {
            kept.links.push((body.name(book), body.take()));
        }
        let (older, end) = (kept.newest[key as usize], kept.links.len() as u32);
        kept.newest[key as usize] = kept.traces.len() as u32;
        kept.traces.push(Trace { older, task, from, end, result: body.take() });
    }
}

/// The bodies of a state and the offset of the gate behind them.
pub fn bodies(bytes: &[u8]) -> (Vec<&[u8]>, u64) {
    let (mut bodies, mut gate) = (Vec::new(), 8);
    while bytes.len() > 9 && bytes[gate] == 1 {
        let length = u32::from_be_bytes(bytes[gate + 1..gate + 5].try_into().unwrap()) as usize;
        bodies.push(&bytes[gate + 5..gate + 5 + length]);
        gate += 5 + length;
    }
    (bodies, gate as u64)
}

/// The digests of a body's values.
pub fn digests_in<'a, B: Book<'a>>(body: &'a [u8]) -> Vec<Digest> {
    let mut body = Bytes(&body[2..]);
    (0..body.count()).map(|_| B::digest(B::read(&mut body))).collect()
}

// What the names have now

pub struct Now<V> {
    pub values: Vec<V>,
    pub digests: Vec<Digest>,
    pub known: Vec<bool>,
    pub tasks: Vec<Digest>,
    pub has_task: Vec<bool>,
}

impl<V: Copy> Now<V> {
    pub fn new(count: usize, value: V) -> Now<V> {
        let (digests, tasks) = (vec![[0; 32]; count], vec![[0; 32]; count]);
        Now { values: vec![value; count], digests, known: vec![false; count], tasks, has_task: vec![false; count] }
    }

    /// Takes an input in, once.
    pub fn take_in<'a, B: Book<'a, Value = V>>(&mut self, book: &B, at: usize) {
        if let (Some(value), false) = (book.input(at as u32), self.known[at]) {
            (self.values[at], self.digests[at], self.known[at]) = (value, B::digest(value), true);
        }
    }

    /// The digest of a rule's task, worked out once.
    pub fn task<'a, B: Book<'a, Value = V>>(&mut self, book: &B, at: usize) -> &Digest {
        if !replace(&mut self.has_task[at], true) {
            self.tasks[at] = task(book.kind(), book.formula(at as u32));
        }
        &self.tasks[at]
    }
}

// What a build adds

#[derive(Default)]
pub struct Part {
    pub count: u32,
    pub bytes: Vec<u8>,
}

impl Part {
    pub fn name(&mut self, name: &[u8]) {
        self.bytes.push(name.len() as u8);
        self.bytes.extend_from_slice(name);
    }

    pub fn count(&mut self, count: usize) {
        self.bytes.extend_from_slice(&(count as u32).to_be_bytes());
    }

    pub fn digest(&mut self, digest: &Digest) {
        self.bytes.extend_from_slice(digest);
    }
}

#[derive(Default)]
pub struct Batch {
    pub values: Part,
    pub seen: Part,
    pub entries: Part,
    pub stale: Part,
    pub traces: Part,
}

impl Batch {
    pub fn trace<'a, B: Book<'a>>(&mut self, book: &B, key: u32, now: &Now<B::Value>) {
        let needs = book.needs(key);
        self.traces.count += 1;
        self.traces.name(book.name(key));
        self.traces.digest(&now.tasks[key as usize]);
        self.traces.count(needs.len());
        for need in needs {
            self.traces.name(book.name(*need));
            self.traces.digest(&now.digests[*need as usize]);
        }
        self.traces.digest(&now.digests[key as usize]);
    }

    pub fn entry<'a, B: Book<'a>>(&mut self, book: &B, key: u32, now: &Now<B::Value>) {
        let needs = book.needs(key);
        self.entries.count += 1;
        self.entries.name(book.name(key));
        self.entries.digest(&now.tasks[key as usize]);
        self.entries.digest(&now.digests[key as usize]);
        self.entries.bytes.push(0);
        self.entries.count(needs.len());
        for need in needs {
            self.entries.name(book.name(*need));
        }
    }

    /// The frame of this batch behind its gate; none where it is empty.
    pub fn frame(&self) -> Option<Vec<u8>> {
        let none = Part::default();
        let parts = [&self.values, &none, &self.seen, &self.entries, &self.stale, &self.traces, &none, &none];
        if parts.iter().all(|part| part.count == 0) {
            return None;
        }
        let length = parts.iter().map(|part| 4 + part.bytes.len()).sum::<usize>() + 3;
        let mut frame = Vec::with_capacity(length + 5);
        frame.extend_from_slice(&(length as u32).to_be_bytes());
        frame.extend_from_slice(&[4, 0]);
        for part in parts {
            frame.extend_from_slice(&part.count.to_be_bytes());
            frame.extend_from_slice(&part.bytes);
        }
        frame.extend_from_slice(&[0, 0]); // the chain stays, and the next gate is shut
        Some(frame)
    }
}

pub fn commit(file: &File, mut gate: u64, frames: &[Vec<u8>]) {
    if gate == 8 && !frames.is_empty() {
        file.write_all_at(HEADER, 0).unwrap();
        file.sync_all().unwrap();
    }
    for frame in frames {
        file.write_all_at(frame, gate + 1).unwrap();
        file.sync_all().unwrap();
        file.write_all_at(&[1], gate).unwrap();
        file.sync_all().unwrap();
        gate += frame.len() as u64;
    }
}

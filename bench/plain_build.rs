// Builds of the plain programs (plain_builds.rs, plain_shapes.rs) over any kind of book and a state (plain_state.rs): names are
// numbers, and the digest of a rule's task is taken once. A build checks verifying traces, runs what isn't held, and adds a
// batch for each 256 finished keys.
use crate::plain_book::HashMap;
use crate::plain_sha256::Digest;
use crate::plain_state::{Batch, Book, Entry, Kept, NONE, Now, apply, bodies, commit, digests_in};
use std::fs::OpenOptions;
use std::mem::{replace, take};

const PART: usize = 256;

/// The inputs that were seen with another digest than they have now, and the rules with an entry of another task.
fn changed<'a, B: Book<'a>>(book: &B, kept: &Kept<B::Value>, now: &mut Now<B::Value>) -> Vec<u32> {
    let mut changed = Vec::new();
    for at in 0..book.count() {
        if let Some(seen) = kept.seen[at] {
            now.take_in(book, at);
            if now.digests[at] != *seen {
                changed.push(at as u32);
            }
        } else if kept.entries[at].is_some_and(|entry| now.task(book, at) != entry.task) {
            changed.push(at as u32);
        }
    }
    changed
}

/// These names and the keys whose entries lead to one.
fn marked<V: Copy>(kept: &Kept<V>, mut ahead: Vec<u32>) -> Vec<bool> {
    let count = kept.entries.len();
    let mut marks = vec![false; count];
    if ahead.is_empty() {
        return marks;
    }
    let mut starts = vec![0u32; count + 1];
    for need in kept.entries.iter().flatten().flat_map(|entry| kept.needs(entry)) {
        starts[*need as usize] += 1;
    }
    for at in 0..count {
        starts[at + 1] += starts[at];
    }
    let mut users = vec![0; starts[count] as usize];
    for (key, entry) in kept.entries.iter().enumerate() {
        for need in entry.iter().flat_map(|entry| kept.needs(entry)) {
            starts[*need as usize] -= 1;
            users[starts[*need as usize] as usize] = key as u32;
        }
    }
    ahead.iter().for_each(|name| marks[*name as usize] = true);
    while let Some(name) = ahead.pop() {
        for user in &users[starts[name as usize] as usize..starts[name as usize + 1] as usize] {
            if !replace(&mut marks[*user as usize], true) {
                ahead.push(*user);
            }
        }
    }
    marks
}

/// The reached rules, each behind those that it names.
fn order<'a>(book: &impl Book<'a>, targets: &[u32]) -> Vec<u32> {
    let (mut order, mut stack, mut met) = (Vec::new(), Vec::new(), vec![false; book.count()]);
    for target in targets {
        if book.input(*target).is_none() && !replace(&mut met[*target as usize], true) {
            stack.push((*target, 0));
        }
        while let Some((key, at)) = stack.last_mut() {
            let Some(need) = book.needs(*key).get(*at) else {
                order.push(*key);
                stack.pop();
                continue;
            };
            *at += 1;
            if book.input(*need).is_none() && !replace(&mut met[*need as usize], true) {
                stack.push((*need, 0));
            }
        }
    }
    order
}

/// The value of a trace that holds.
fn held<'s, V: Copy>(kept: &Kept<'s, V>, now: &Now<V>, at: usize) -> Option<&'s Digest> {
    let (entry, mut place) = (kept.entries[at]?, kept.newest[at]);
    while place != NONE {
        let trace = &kept.traces[place as usize];
        let links = &kept.links[trace.from as usize..trace.end as usize];
        let is_now = |(name, seen): &(u32, &Digest)| now.known[*name as usize] && now.digests[*name as usize] == **seen;
        if entry.result == trace.result && *trace.task == now.tasks[at] && links.iter().all(is_now) {
            return Some(trace.result);
        }
        place = trace.older;
    }
    None
}

/// A build in progress: what it adds, and how many rules ran and were reused.
struct Build<'k, 's, V> {
    kept: &'k Kept<'s, V>,
    now: Now<V>,
    marks: Vec<bool>, // keys to be marked, or marked already, that aren't finished
    first: bool,
    batch: Batch,
    frames: Vec<Vec<u8>>,
    new_values: HashMap<Digest, ()>,
    is_seen: Vec<bool>,
    ran: usize,
    reused: usize,
}

impl<V: Copy> Build<'_, '_, V> {
    fn value<'a, B: Book<'a, Value = V>>(&mut self, book: &B, key: u32, stack: &mut Vec<V>) {
        let at = key as usize;
        if let Some(result) = held(self.kept, &self.now, at) {
            self.reused += 1;
            (self.now.values[at], self.now.digests[at]) = (self.kept.value(result).expect("a kept value"), *result);
            return;
        }
        self.ran += 1;
        self.now.values[at] = book.worked_out(key, &self.now.values, stack);
        self.now.digests[at] = B::digest(self.now.values[at]);
        if self.kept.value(&self.now.digests[at]).is_none() && self.new_values.insert(self.now.digests[at], ()).is_none() {
            self.batch.values.count += 1;
            B::spell(self.now.values[at], &mut self.batch.values.bytes);
        }
        self.batch.trace(book, key, &self.now);
    }

    fn finish<'a, B: Book<'a, Value = V>>(&mut self, book: &B, key: u32, stack: &mut Vec<V>) {
        let (at, needs) = (key as usize, book.needs(key));
        needs.iter().for_each(|need| self.now.take_in(book, *need as usize));
        self.now.task(book, at);
        self.value(book, key, stack);
        self.now.known[at] = true;
        let is_kept = |entry: Entry| *entry.task == self.now.tasks[at] && *entry.result == self.now.digests[at] && self.kept.needs(&entry) == needs;
        if replace(&mut self.marks[at], false) || !self.kept.entries[at].is_some_and(is_kept) {
            self.batch.entry(book, key, &self.now);
            needs.iter().for_each(|need| self.see(book, *need));
        }
        if (self.ran + self.reused) % PART == 0 {
            self.part(book);
        }
    }

    fn see<'a, B: Book<'a, Value = V>>(&mut self, book: &B, need: u32) {
        let (at, digest) = (need as usize, &self.now.digests[need as usize]);
        if book.input(need).is_some() && self.kept.seen[at] != Some(digest) && !replace(&mut self.is_seen[at], true) {
            self.batch.seen.count += 1;
            self.batch.seen.name(book.name(need));
            self.batch.seen.digest(digest);
        }
    }

    /// Ends a part. The first one has the marks of what it doesn't finish.
    fn part<'a, B: Book<'a, Value = V>>(&mut self, book: &B) {
        if replace(&mut self.first, false) {
            let newly = |key: &usize| self.marks[*key] && !self.kept.stale[*key] && self.kept.entries[*key].is_some();
            let mut names: Vec<&[u8]> = (0..book.count()).filter(newly).map(|key| book.name(key as u32)).collect();
            names.sort_unstable();
            self.batch.stale.count = names.len() as u32;
            names.iter().for_each(|name| self.batch.stale.name(name));
        }
        self.frames.extend(take(&mut self.batch).frame());
    }
}

/// Builds the targets over a state's file: their values, and how many rules ran and were reused.
pub fn build<'a, B: Book<'a>>(book: &B, path: &str, bytes: &'a mut Vec<u8>, targets: &[u32], nothing: B::Value) -> (Vec<B::Value>, usize, usize) {
    let file = OpenOptions::new().read(true).write(true).create(true).truncate(false).open(path).expect("a state");
    file.sync_all().unwrap();
    *bytes = std::fs::read(path).expect("a readable state");
    let (bodies, gate) = bodies(bytes);
    let digests: Vec<Vec<Digest>> = bodies.iter().map(|body| digests_in::<B>(body)).collect();
    let (count, mut kept) = (book.count(), Kept::new(book.count()));
    for (body, digests) in bodies.into_iter().zip(&digests) {
        apply(&mut kept, digests, book, body);
    }
    let mut now = Now::new(count, nothing);
    let mut marks = marked(&kept, changed(book, &kept, &mut now));
    marks.iter_mut().zip(&kept.stale).for_each(|(mark, stale)| *mark |= stale);
    let (frames, new_values, is_seen) = (Vec::new(), HashMap::default(), vec![false; count]);
    let mut build = Build { kept: &kept, now, marks, first: true, batch: Batch::default(), frames, new_values, is_seen, ran: 0, reused: 0 };
    let mut stack = Vec::new();
    for key in order(book, targets) {
        build.finish(book, key, &mut stack);
    }
    build.part(book);
    commit(&file, gate, &build.frames);
    targets.iter().for_each(|target| build.now.take_in(book, *target as usize));
    (targets.iter().map(|target| build.now.values[*target as usize]).collect(), build.ran, build.reused)
}

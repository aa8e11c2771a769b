// Reading the books of bench/generated.py, and no other TOML, as the plain programs of the measurements do: names are slices
// of the book's bytes, and numbers by one hash map with a fast hash.
use std::collections::HashMap as Map;
use std::hash::{BuildHasherDefault, Hasher};

// A fast hash of short keys, as compilers use it: eight bytes at a time, multiplied and turned.
#[derive(Default, Clone, Copy)]
pub struct Fast(u64);

impl Fast {
    fn mix(&mut self, word: u64) {
        self.0 = (self.0.rotate_left(5) ^ word).wrapping_mul(0x517cc1b727220a95);
    }
}

/// The first eight bytes as a number, the first one highest; zeros stand for those that aren't there.
#[inline(always)]
pub fn front(bytes: &[u8]) -> u64 {
    match (bytes.first_chunk::<8>(), bytes.first_chunk::<4>(), bytes.last_chunk::<4>()) {
        (Some(word), ..) => u64::from_be_bytes(*word),
        (_, Some(first), Some(last)) => (u32::from_be_bytes(*first) as u64) << 32 | (u32::from_be_bytes(*last) as u64) << (64 - 8 * bytes.len()),
        _ => bytes.iter().zip([56, 48, 40]).fold(0, |word, (byte, places)| word | u64::from(*byte) << places),
    }
}

impl Hasher for Fast {
    #[inline(always)]
    fn write(&mut self, bytes: &[u8]) {
        let mut rest = bytes;
        while rest.len() > 8 {
            self.mix(front(rest));
            rest = &rest[8..];
        }
        self.mix(front(rest) ^ bytes.len() as u64);
    }
    fn write_usize(&mut self, _: usize) {}
    fn write_i64(&mut self, number: i64) {
        self.mix(number as u64);
    }
    fn finish(&self) -> u64 {
        self.0.rotate_left(26)
    }
}

pub type HashMap<K, V> = Map<K, V, BuildHasherDefault<Fast>>;

#[derive(Clone, Copy)]
pub enum Item {
    Input(i64),
    Rule([u32; 2]), // of near and far MAX(near,far)-MIN(near,far)
}

pub struct Book<'a> {
    pub names: Vec<&'a [u8]>,
    pub items: Vec<Item>,
    pub numbers: HashMap<&'a [u8], u32>,
    pub formulas: Vec<&'a [u8]>, // of an input no bytes
}

/// A text before the first such byte, and behind it.
fn split(text: &[u8], byte: u8) -> (&[u8], &[u8]) {
    let at = text.iter().position(|other| *other == byte).expect("a book as it is generated");
    (&text[..at], &text[at + 1..])
}

/// The keys in the order of the book, with what stands behind ` = `.
fn lines(mut text: &[u8]) -> Vec<(&[u8], &[u8])> {
    let mut found = Vec::with_capacity(text.len() / 32);
    while !text.is_empty() {
        let (line, rest) = split(text, b'\n');
        text = rest;
        if line[0] != b'[' {
            let (name, value) = split(line, b' ');
            found.push((name, &value[2..]));
        }
    }
    found
}

fn number(text: &[u8]) -> i64 {
    text.iter().fold(0, |number, digit| number * 10 + i64::from(digit - b'0'))
}

/// The two names of a formula.
fn names_of(formula: &[u8]) -> (&[u8], &[u8]) {
    let (near, rest) = split(formula.strip_prefix(b"MAX(").expect("a greatest"), b',');
    let (far, least) = split(rest, b')');
    assert!(least.starts_with(b"-MIN(") && least[5..least.len() - 1] == formula[4..4 + near.len() + 1 + far.len()], "a difference");
    (near, far)
}

pub fn read(text: &[u8]) -> Book<'_> {
    let lines = lines(text);
    let names: Vec<&[u8]> = lines.iter().map(|line| line.0).collect();
    let mut numbers = HashMap::with_capacity_and_hasher(names.len(), Default::default());
    for (at, name) in names.iter().enumerate() {
        assert!(numbers.insert(*name, at as u32).is_none(), "a key twice");
    }
    let mut formulas = Vec::with_capacity(names.len());
    let items = lines.iter().map(|(_, value)| match value {
        [b'"', formula @ .., b'"'] => {
            formulas.push(formula);
            let (near, far) = names_of(formula);
            Item::Rule([numbers[near], numbers[far]])
        }
        _ => {
            formulas.push(&[]);
            Item::Input(number(value))
        }
    });
    let items = items.collect();
    Book { names, items, numbers, formulas }
}

// An incremental build of a generated book as a plain Rust program without contracts, to measure `carte` beside it:
//     rustc -O --edition 2021 -o /tmp/plain_builds bench/plain_builds.rs; /tmp/plain_builds book.toml state k65535
// It reads the books of bench/generated.py and no other TOML. Names are slices of the book's bytes and numbers by one hash
// map with a fast hash; the state is read in place, in the program's own format, and kept with the program's own syncs
// (plain_build.rs, plain_state.rs). It prints the same reply. It checks neither names, nor states that another program wrote.
mod plain_book;
mod plain_build;
mod plain_sha256;
mod plain_state;

use plain_book::{Book, Item, read};
use plain_build::build;
use plain_sha256::{Digest, digest, spelled};
use plain_state::Bytes;
use std::io::Write;

impl<'a> plain_state::Book<'a> for Book<'a> {
    type Value = i64;
    fn kind(&self) -> u8 {
        2
    }
    fn count(&self) -> usize {
        self.names.len()
    }
    fn number(&self, name: &[u8]) -> u32 {
        self.numbers[name]
    }
    fn name(&self, key: u32) -> &'a [u8] {
        self.names[key as usize]
    }
    fn input(&self, key: u32) -> Option<i64> {
        if let Item::Input(number) = self.items[key as usize] { Some(number) } else { None }
    }
    fn formula(&self, key: u32) -> &'a [u8] {
        self.formulas[key as usize]
    }
    fn needs(&self, key: u32) -> &[u32] {
        match &self.items[key as usize] {
            Item::Rule(names) => if names[0] == names[1] { &names[..1] } else { names },
            Item::Input(_) => &[],
        }
    }
    fn worked_out(&self, key: u32, values: &[i64], _: &mut Vec<i64>) -> i64 {
        let Item::Rule(names) = self.items[key as usize] else { panic!("a rule") };
        let [a, b] = names.map(|name| values[name as usize]);
        a.max(b).checked_sub(a.min(b)).expect("no overflow")
    }
    fn read(bytes: &mut Bytes<'a>) -> i64 {
        assert_eq!(bytes.byte(), 1, "a number");
        i64::from_be_bytes(*bytes.take())
    }
    fn spell(value: i64, bytes: &mut Vec<u8>) {
        bytes.extend_from_slice(&spelled(value));
    }
    fn digest(value: i64) -> Digest {
        digest(value)
    }
}

fn main() {
    let words: Vec<String> = std::env::args().collect();
    let (text, mut bytes) = (std::fs::read(&words[1]).expect("a readable book"), Vec::new());
    let book = read(&text);
    let target = book.numbers[words[3].as_bytes()];
    let (values, ran, reused) = build(&book, &words[2], &mut bytes, &[target], 0);
    let reply = format!("{} = {}\nran {ran}, given up 0, reused {reused}\n", words[3], values[0]);
    std::io::stdout().write_all(reply.as_bytes()).unwrap();
}

// Incremental builds of the books of bench/shapes.py as a plain Rust program without contracts, to measure `carte` beside it:
//     rustc -O --edition 2021 -o /tmp/plain_shapes bench/plain_shapes.rs; /tmp/plain_shapes book.toml state k16383
// It does what plain_builds.rs does, over formulas and values of more kinds: it reads them into flat code, checks verifying
// traces, works out what isn't held on a stack of values, and keeps the state in the program's own format with its own syncs
// (plain_build.rs, plain_state.rs). Texts that are made stay until the end.
#[allow(dead_code)]
mod plain_book;
mod plain_build;
#[allow(dead_code)]
mod plain_sha256;
mod plain_shapes_book;
mod plain_shapes_values;
mod plain_state;

use plain_build::build;
use plain_sha256::Digest;
use plain_shapes_book::{Book, Item, Value, read};
use plain_shapes_values::{digest, spell, worked_out};
use plain_state::Bytes;
use std::io::Write;

impl<'a> plain_state::Book<'a> for Book<'a> {
    type Value = Value<'a>;
    fn kind(&self) -> u8 {
        if self.columns == 0 { 2 } else { 3 }
    }
    fn count(&self) -> usize {
        self.names.len()
    }
    fn number(&self, name: &[u8]) -> u32 {
        Book::number(self, name)
    }
    fn name(&self, key: u32) -> &'a [u8] {
        self.names[key as usize]
    }
    fn input(&self, key: u32) -> Option<Value<'a>> {
        if let Item::Input(value) = self.items[key as usize] { Some(value) } else { None }
    }
    fn formula(&self, key: u32) -> &'a [u8] {
        self.formulas[key as usize]
    }
    fn needs(&self, key: u32) -> &[u32] {
        Book::needs(self, key)
    }
    fn worked_out(&self, key: u32, values: &[Value<'a>], stack: &mut Vec<Value<'a>>) -> Value<'a> {
        let Item::Rule { code, .. } = self.items[key as usize] else { panic!("a rule") };
        worked_out(self, self.code(code), values, stack)
    }
    fn read(bytes: &mut Bytes<'a>) -> Value<'a> {
        if bytes.byte() == 1 {
            return Value::Number(i64::from_be_bytes(*bytes.take()));
        }
        let (text, rest) = bytes.0[4..].split_at(u32::from_be_bytes(bytes.0[..4].try_into().unwrap()) as usize);
        bytes.0 = rest;
        Value::Text(text)
    }
    fn spell(value: Value<'a>, bytes: &mut Vec<u8>) {
        spell(value, bytes);
    }
    fn digest(value: Value<'a>) -> Digest {
        digest(value)
    }
}

fn main() {
    let words: Vec<String> = std::env::args().collect();
    let (text, mut bytes) = (std::fs::read(&words[1]).expect("a readable book"), Vec::new());
    let book = read(&text, words[1].ends_with(".csv"));
    let targets: Vec<u32> = words[3..].iter().map(|word| book.number(word.as_bytes())).collect();
    let (values, ran, reused) = build(&book, &words[2], &mut bytes, &targets, Value::Number(0));
    let mut reply = Vec::new();
    for (word, value) in words[3..].iter().zip(values) {
        match value {
            Value::Number(number) => writeln!(reply, "{word} = {number}").unwrap(),
            Value::Text(text) => writeln!(reply, "{word} = \"{}\"", String::from_utf8_lossy(text)).unwrap(),
        }
    }
    writeln!(reply, "ran {ran}, given up 0, reused {reused}").unwrap();
    std::io::stdout().write_all(&reply).unwrap();
}

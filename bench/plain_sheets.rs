// What `carte build` does with a sheet and a cell that needs nothing, as a plain Rust program without contracts, to measure beside it:
//     rustc -O --edition 2021 -o /tmp/plain_sheets bench/plain_sheets.rs; /tmp/plain_sheets sheet.csv A1 map
// It splits records and fields by hand, tells numbers from texts, reads each formula into a tree by precedence, with
// cells as numbers, keeps what it read by place, and prints the same reply. With `map` a BTreeMap keeps it, as in the
// program, and with `list` a list in the order of the file. It takes what bench/sheets.py writes and ends at the first
// fault; it says no place of a fault, and has no limits but those of its numbers.
use std::collections::BTreeMap;
use std::{env, fs, str};

/// Row by row: the row, counted from 1, times `COLUMNS`, and the column, counted from 0.
type Place = u32;

const COLUMNS: u32 = 702;

enum Expr {
    Number(i64),
    Text(String),
    Cell(Place),
    Neg(Box<Expr>),
    Chain(Box<Expr>, Vec<(u8, Expr)>),
    Call(Function, Vec<Argument>),
}

enum Argument {
    One(Expr),
    Range(Place, Place),
}

enum Function {
    Sum,
    Min,
    Max,
    If,
}

enum Item {
    Number(i64),
    Text(String),
    Rule(Expr),
}

fn cell(word: &[u8]) -> Option<Place> {
    let letters = word.iter().take_while(|byte| byte.is_ascii_alphabetic()).count();
    let column = word[..letters].iter().fold(0, |sum, byte| sum * 26 + u32::from(byte.to_ascii_uppercase() - b'A' + 1));
    let row: u32 = str::from_utf8(&word[letters..]).ok()?.parse().ok()?;
    let is_cell = (1..=2).contains(&letters) && (1..=9999).contains(&row) && word[letters] != b'0';
    is_cell.then(|| row * COLUMNS + column - 1)
}

fn function(word: &[u8]) -> Function {
    match word.to_ascii_uppercase().as_slice() {
        b"SUM" => Function::Sum,
        b"MIN" => Function::Min,
        b"MAX" => Function::Max,
        b"IF" => Function::If,
        _ => panic!("a cell or a function"),
    }
}

/// A formula's bytes from the next token on.
struct Reader<'t> {
    rest: &'t [u8],
}

/// The operators of each level, from the loosest.
const LEVELS: [&[u8]; 4] = [b"=<>", b"&", b"+-", b"*/"];

impl<'t> Reader<'t> {
    fn next(&mut self) -> Option<u8> {
        while let [b' ' | b'\t' | b'\n' | b'\r', rest @ ..] = self.rest {
            self.rest = rest;
        }
        self.rest.first().copied()
    }

    fn takes(&mut self, byte: u8) -> bool {
        let is_there = self.next() == Some(byte);
        if is_there {
            self.rest = &self.rest[1..];
        }
        is_there
    }

    fn word(&mut self) -> &'t [u8] {
        let length = self.rest.iter().take_while(|byte| byte.is_ascii_alphanumeric()).count();
        let (word, rest) = self.rest.split_at(length);
        self.rest = rest;
        word
    }

    /// The operator of a level that stands next; `<=`, `>=` and `<>` are told by a letter.
    fn operator(&mut self, level: &[u8]) -> Option<u8> {
        let first = self.next().filter(|byte| level.contains(byte))?;
        self.rest = &self.rest[1..];
        match (first, self.rest.first()) {
            (b'<', Some(b'=')) => self.second(b'l'),
            (b'>', Some(b'=')) => self.second(b'g'),
            (b'<', Some(b'>')) => self.second(b'n'),
            _ => Some(first),
        }
    }

    fn second(&mut self, letter: u8) -> Option<u8> {
        self.rest = &self.rest[1..];
        Some(letter)
    }

    fn chain(&mut self, level: usize) -> Expr {
        if level == LEVELS.len() {
            return self.unary();
        }
        let first = self.chain(level + 1);
        let mut rest = Vec::new();
        while let Some(operator) = self.operator(LEVELS[level]) {
            rest.push((operator, self.chain(level + 1)));
        }
        if rest.is_empty() {
            first
        } else {
            Expr::Chain(Box::new(first), rest)
        }
    }

    fn unary(&mut self) -> Expr {
        match self.next() {
            Some(b'-') if self.takes(b'-') => Expr::Neg(Box::new(self.unary())),
            Some(b'+') if self.takes(b'+') => self.unary(),
            _ => self.primary(),
        }
    }

    fn primary(&mut self) -> Expr {
        match self.next() {
            Some(b'0'..=b'9') => Expr::Number(str::from_utf8(self.word()).expect("digits").parse().expect("a number")),
            Some(b'"') => Expr::Text(self.text()),
            Some(b'(') if self.takes(b'(') => {
                let inner = self.chain(0);
                assert!(self.takes(b')'), "a closing bracket");
                inner
            }
            _ => self.name(),
        }
    }

    fn text(&mut self) -> String {
        let mut found = Vec::new();
        loop {
            let length = self.rest[1..].iter().position(|byte| *byte == b'"').expect("a closing quote");
            found.extend_from_slice(&self.rest[1..=length]);
            self.rest = &self.rest[length + 2..];
            if self.rest.first() != Some(&b'"') {
                return String::from_utf8(found).expect("UTF-8");
            }
            found.push(b'"');
        }
    }

    fn name(&mut self) -> Expr {
        let word = self.word();
        match cell(word) {
            Some(place) => Expr::Cell(place),
            None => self.call(function(word)),
        }
    }

    fn call(&mut self, function: Function) -> Expr {
        assert!(self.takes(b'('), "an opening bracket");
        let mut arguments = vec![self.argument()];
        while self.takes(b',') {
            arguments.push(self.argument());
        }
        assert!(self.takes(b')'), "a closing bracket");
        Expr::Call(function, arguments)
    }

    fn argument(&mut self) -> Argument {
        match self.chain(0) {
            Expr::Cell(first) if self.takes(b':') => {
                self.next();
                Argument::Range(first, cell(self.word()).expect("a cell"))
            }
            expr => Argument::One(expr),
        }
    }
}

fn formula(text: &[u8]) -> Expr {
    let mut reader = Reader { rest: text };
    let expr = reader.chain(0);
    assert!(reader.next().is_none(), "the formula's end");
    expr
}

fn number(text: &str) -> Option<i64> {
    let digits = text.strip_prefix(['+', '-']).unwrap_or(text);
    (!digits.is_empty() && digits.bytes().all(|byte| byte.is_ascii_digit())).then(|| text.parse().ok())?
}

fn item(field: &[u8]) -> Item {
    let text = str::from_utf8(field).expect("UTF-8");
    match field.strip_prefix(b"=") {
        Some(rule) => Item::Rule(formula(rule)),
        None => number(text).map_or_else(|| Item::Text(text.to_string()), Item::Number),
    }
}

/// One field into `field`, and what stands behind it.
fn split<'t>(text: &'t [u8], field: &mut Vec<u8>) -> &'t [u8] {
    field.clear();
    let Some(mut rest) = text.strip_prefix(b"\"") else {
        let length = text.iter().position(|byte| matches!(byte, b',' | b'\n' | b'\r')).unwrap_or(text.len());
        field.extend_from_slice(&text[..length]);
        return &text[length..];
    };
    loop {
        let length = rest.iter().position(|byte| *byte == b'"').expect("a closing quote");
        field.extend_from_slice(&rest[..length]);
        rest = &rest[length + 1..];
        match rest.strip_prefix(b"\"") {
            Some(behind) => rest = behind,
            None => return rest,
        }
        field.push(b'"');
    }
}

fn read(mut text: &[u8], mut keep: impl FnMut(Place, Item)) {
    let mut field = Vec::new();
    let mut row = 1;
    while !text.is_empty() {
        let mut column = 0;
        loop {
            text = split(text, &mut field);
            if !field.is_empty() {
                keep(row * COLUMNS + column, item(&field));
            }
            match text.strip_prefix(b",") {
                Some(rest) => text = rest,
                None => break,
            }
            column += 1;
        }
        while let [b'\n' | b'\r', rest @ ..] = text {
            text = rest;
        }
        row += 1;
    }
}

fn cells(expr: &Expr) -> usize {
    match expr {
        Expr::Number(number) => *number as usize,
        Expr::Text(text) => text.len(),
        Expr::Cell(place) => *place as usize,
        Expr::Neg(operand) => cells(operand),
        Expr::Chain(first, rest) => cells(first) + rest.iter().map(|(sign, operand)| *sign as usize + cells(operand)).sum::<usize>(),
        Expr::Call(function, arguments) => matches!(function, Function::If) as usize + arguments.iter().map(in_argument).sum::<usize>(),
    }
}

fn in_argument(argument: &Argument) -> usize {
    match argument {
        Argument::One(expr) => cells(expr),
        Argument::Range(first, last) => (first + last) as usize,
    }
}

fn reply(target: &str, found: Option<&Item>) {
    match found {
        Some(Item::Number(number)) => println!("{target} = {number}"),
        Some(Item::Text(text)) => println!("{target} = \"{text}\""),
        Some(Item::Rule(rule)) => panic!("{target} isn't an input, but a rule of {}", cells(rule)),
        None => println!("{target} = empty"),
    }
    println!("ran 0, given up 0, reused 0");
}

fn main() {
    let words: Vec<String> = env::args().collect();
    let text = fs::read(&words[1]).expect("a readable sheet");
    let text = text.strip_prefix(b"\xEF\xBB\xBF").unwrap_or(&text);
    let target = cell(words[2].as_bytes()).expect("a cell");
    if words[3] == "map" {
        let mut book = BTreeMap::new();
        read(text, |place, item| drop(book.insert(place, item)));
        reply(&words[2], book.get(&target));
    } else {
        let mut book = Vec::new();
        read(text, |place, item| book.push((place, item)));
        let at = book.binary_search_by_key(&target, |(place, _)| *place);
        reply(&words[2], at.ok().map(|at| &book[at].1));
    }
}

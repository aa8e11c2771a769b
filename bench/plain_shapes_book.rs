// Reading the books of bench/shapes.py, and no others, as plain_shapes.rs does: rule files of numbers, texts without escapes and
// formulas, and sheets that are a full rectangle without quotes. Formulas are written in their printed form. They are read by
// precedence into flat code, with names as numbers; each rule has its needs in the order in which they are written, each once.
use crate::plain_book::HashMap;

#[derive(Clone, Copy, PartialEq)]
pub enum Value<'a> {
    Number(i64),
    Text(&'a [u8]),
}

#[derive(Clone, Copy)]
pub enum Func {
    Sum,
    Max,
    Len,
    Upper,
}

#[derive(Clone, Copy)]
pub enum Op {
    Number(i64),
    Name(u32),
    Area(u32, u32, u32), // the first cell, columns and rows
    Add,
    Sub,
    Mul,
    Join,
    Call(Func, u32), // over so many values
}

#[derive(Clone, Copy)]
pub enum Item<'a> {
    Input(Value<'a>),
    Rule { code: (u32, u32), needs: (u32, u32) },
}

#[derive(Default)]
pub struct Book<'a> {
    pub names: Vec<&'a [u8]>,
    pub items: Vec<Item<'a>>,
    pub formulas: Vec<&'a [u8]>, // of an input no bytes
    code: Vec<Op>,
    needs: Vec<u32>,
    numbers: HashMap<&'a [u8], u32>,
    pub columns: u32, // of a sheet, whose cells are numbered row by row
    met: Vec<u32>,
}

impl<'a> Book<'a> {
    pub fn number(&self, name: &[u8]) -> u32 {
        if self.columns == 0 { self.numbers[name] } else { self.cell(name) }
    }

    fn cell(&self, name: &[u8]) -> u32 {
        let letters = name.iter().take_while(|byte| byte.is_ascii_uppercase()).count();
        let column = name[..letters].iter().fold(0, |column, letter| column * 26 + u32::from(letter - b'A' + 1));
        (number(&name[letters..]) as u32 - 1) * self.columns + column - 1
    }

    pub fn needs(&self, key: u32) -> &[u32] {
        match self.items[key as usize] {
            Item::Rule { needs, .. } => &self.needs[needs.0 as usize..needs.1 as usize],
            Item::Input(_) => &[],
        }
    }

    pub fn code(&self, code: (u32, u32)) -> &[Op] {
        &self.code[code.0 as usize..code.1 as usize]
    }

    fn rule(&mut self, key: u32, formula: &[u8]) -> Item<'a> {
        let (code, needs) = (self.code.len() as u32, self.needs.len() as u32);
        let mut reader = Reader { book: self, key, rest: formula };
        reader.joined();
        assert!(reader.rest.is_empty(), "a formula as it is generated");
        Item::Rule { code: (code, self.code.len() as u32), needs: (needs, self.needs.len() as u32) }
    }
}

struct Reader<'b, 'a, 'f> {
    book: &'b mut Book<'a>,
    key: u32,
    rest: &'f [u8],
}

impl<'f> Reader<'_, '_, 'f> {
    fn skip(&mut self, byte: u8) -> bool {
        let is_there = self.rest.first() == Some(&byte);
        self.rest = &self.rest[usize::from(is_there)..];
        is_there
    }

    fn word(&mut self) -> &'f [u8] {
        let length = self.rest.iter().take_while(|byte| byte.is_ascii_alphanumeric()).count();
        let (word, rest) = self.rest.split_at(length);
        self.rest = rest;
        word
    }

    fn joined(&mut self) {
        self.sum();
        while self.skip(b'&') {
            self.sum();
            self.book.code.push(Op::Join);
        }
    }

    fn sum(&mut self) {
        self.product();
        loop {
            let op = if self.skip(b'+') { Op::Add } else if self.skip(b'-') { Op::Sub } else { return };
            self.product();
            self.book.code.push(op);
        }
    }

    fn product(&mut self) {
        self.primary();
        while self.skip(b'*') {
            self.primary();
            self.book.code.push(Op::Mul);
        }
    }

    fn primary(&mut self) {
        let word = self.word();
        if word[0].is_ascii_digit() {
            self.book.code.push(Op::Number(number(word)));
        } else if self.skip(b'(') {
            let mut count = self.argument();
            while self.skip(b',') {
                count += self.argument();
            }
            assert!(self.skip(b')'), "a call as it is generated");
            let func = match word {
                b"SUM" => Func::Sum,
                b"MAX" => Func::Max,
                b"LEN" => Func::Len,
                _ => Func::Upper,
            };
            self.book.code.push(Op::Call(func, count));
        } else {
            let name = self.book.number(word);
            self.book.code.push(Op::Name(name));
            self.need(name);
        }
    }

    /// Reads an argument, and tells how many values it is.
    fn argument(&mut self) -> u32 {
        let begin = self.rest;
        let word = self.word();
        if !self.skip(b':') {
            self.rest = begin;
            self.joined();
            return 1;
        }
        let (first, last, columns) = (self.book.cell(word), self.word(), self.book.columns);
        let last = self.book.cell(last);
        let (width, height) = (last % columns - first % columns + 1, last / columns - first / columns + 1);
        for row in 0..height {
            for column in 0..width {
                self.need(first + row * columns + column);
            }
        }
        self.book.code.push(Op::Area(first, width, height));
        width * height
    }

    fn need(&mut self, name: u32) {
        if std::mem::replace(&mut self.book.met[name as usize], self.key) != self.key {
            self.book.needs.push(name);
        }
    }
}

pub fn number(text: &[u8]) -> i64 {
    text.iter().fold(0, |number, digit| number * 10 + i64::from(digit - b'0'))
}

/// Keys with what stands there: whether it is a rule, and its text.
type Lines<'a> = Vec<(&'a [u8], bool, &'a [u8])>;

fn lines(text: &[u8]) -> Lines<'_> {
    let (mut found, mut in_rules) = (Vec::with_capacity(text.len() / 32), false);
    for line in text.split(|byte| *byte == b'\n').filter(|line| !line.is_empty()) {
        if line[0] == b'[' {
            in_rules = line == b"[rules]";
            continue;
        }
        let end = line.iter().position(|byte| *byte == b' ').expect("a key");
        found.push((&line[..end], in_rules, &line[end + 3..]));
    }
    found
}

/// The cells of a sheet row by row. Their names are made, and stay.
fn cells<'a>(text: &'a [u8]) -> (Lines<'a>, u32) {
    let (mut found, mut columns) = (Vec::with_capacity(text.len() / 16), 0);
    for (row, line) in text.split(|byte| *byte == b'\n').filter(|line| !line.is_empty()).enumerate() {
        for (column, field) in line.split(|byte| *byte == b',').enumerate() {
            let high = if column < 26 { String::new() } else { char::from(64 + (column / 26) as u8).to_string() };
            let name = format!("{high}{}{}", char::from(65 + (column % 26) as u8), row + 1);
            let is_rule = field[0] == b'=';
            found.push((&*name.leak().as_bytes(), is_rule, &field[usize::from(is_rule)..]));
            columns = columns.max(column as u32 + 1);
        }
    }
    (found, columns)
}

pub fn read(text: &[u8], is_sheet: bool) -> Book<'_> {
    let (lines, columns) = if is_sheet { cells(text) } else { (lines(text), 0) };
    let names: Vec<&[u8]> = lines.iter().map(|line| line.0).collect();
    let mut book = Book { met: vec![u32::MAX; names.len()], columns, ..Book::default() };
    if !is_sheet {
        book.numbers = names.iter().zip(0..).map(|(name, at)| (*name, at)).collect();
    }
    book.items.reserve(names.len());
    for (at, (_, is_rule, text)) in lines.iter().enumerate() {
        let formula = text.strip_prefix(b"\"").map_or(*text, |text| &text[..text.len() - 1]);
        let item = if *is_rule {
            book.rule(at as u32, formula)
        } else if text[0] == b'"' || !text[0].is_ascii_digit() {
            Item::Input(Value::Text(formula))
        } else {
            Item::Input(Value::Number(number(text)))
        };
        book.items.push(item);
        book.formulas.push(if *is_rule { formula } else { &[] });
    }
    book.names = names;
    book
}

// The formula of main.rt as a plain Rust tree walk, to be measured beside it: `plain N` with N walks.
use std::collections::HashMap;
use std::env;

#[derive(Clone)]
enum Value {
    Number(i64),
    #[allow(dead_code)]
    Text(String),
    Bad(&'static str),
}

use Value::{Bad, Number, Text};

enum Expr {
    Number(i64),
    Ref(String),
    Neg(Box<Expr>),
    Chain(Box<Expr>, Vec<(u8, Expr)>),
    Call(String, Vec<Expr>),
}

struct Reader<'a> {
    text: &'a [u8],
    at: usize,
}

impl Reader<'_> {
    fn peek(&self) -> u8 {
        *self.text.get(self.at).unwrap_or(&0)
    }

    fn chain(&mut self, ops: &[u8], operand: fn(&mut Self) -> Expr) -> Expr {
        let first = operand(self);
        let mut rest = Vec::new();
        while ops.contains(&self.peek()) {
            let op = self.peek();
            self.at += 1;
            rest.push((op, operand(self)));
        }
        if rest.is_empty() { first } else { Expr::Chain(Box::new(first), rest) }
    }

    fn compare(&mut self) -> Expr {
        self.chain(b"<>=", Self::sum)
    }

    fn sum(&mut self) -> Expr {
        self.chain(b"+-", Self::product)
    }

    fn product(&mut self) -> Expr {
        self.chain(b"*/", Self::unary)
    }

    fn unary(&mut self) -> Expr {
        if self.peek() == b'-' {
            self.at += 1;
            return Expr::Neg(Box::new(self.unary()));
        }
        if self.peek() == b'(' {
            self.at += 1;
            let inner = self.compare();
            self.at += 1;
            return inner;
        }
        let from = self.at;
        while self.peek().is_ascii_alphanumeric() {
            self.at += 1;
        }
        let word = std::str::from_utf8(&self.text[from..self.at]).unwrap().to_string();
        if let Ok(number) = word.parse() {
            return Expr::Number(number);
        }
        if self.peek() != b'(' {
            return Expr::Ref(word);
        }
        let mut args = Vec::new();
        while self.peek() != b')' {
            self.at += 1;
            args.push(self.compare());
        }
        self.at += 1;
        Expr::Call(word, args)
    }
}

fn number(value: &Value) -> Result<i64, Value> {
    match value {
        Number(number) => Ok(*number),
        Text(_) => Err(Bad("#VALUE!")),
        Bad(bad) => Err(Bad(bad)),
    }
}

fn apply(op: u8, left: Value, right: Value) -> Value {
    let (left, right) = match (number(&left), number(&right)) {
        (Ok(left), Ok(right)) => (left, right),
        (Err(bad), _) | (_, Err(bad)) => return bad,
    };
    let result = match op {
        b'+' => left.checked_add(right),
        b'-' => left.checked_sub(right),
        b'*' => left.checked_mul(right),
        b'/' if right == 0 => return Bad("#DIV/0!"),
        b'/' => left.checked_div(right),
        b'<' => Some((left < right) as i64),
        b'>' => Some((left > right) as i64),
        _ => Some((left == right) as i64),
    };
    result.map_or(Bad("#NUM!"), Number)
}

struct Walk<'a> {
    book: &'a HashMap<String, Value>,
    answers: HashMap<String, Value>,
}

impl Walk<'_> {
    fn value(&mut self, expr: &Expr) -> Value {
        match expr {
            Expr::Number(number) => Number(*number),
            Expr::Ref(name) => {
                if let Some(value) = self.answers.get(name) {
                    return value.clone();
                }
                let value = self.book[name].clone();
                self.answers.insert(name.clone(), value.clone());
                value
            }
            Expr::Neg(operand) => apply(b'-', Number(0), self.value(operand)),
            Expr::Chain(first, rest) => {
                let mut value = self.value(first);
                for (op, operand) in rest {
                    let right = self.value(operand);
                    value = apply(*op, value, right);
                }
                value
            }
            Expr::Call(func, args) if func == "IF" => match self.value(&args[0]) {
                Number(0) => self.value(&args[2]),
                Number(_) => self.value(&args[1]),
                other => other,
            },
            Expr::Call(func, args) => {
                let mut best: Option<i64> = None;
                for arg in args {
                    let next = match self.value(arg) {
                        Number(next) => next,
                        Text(_) => continue,
                        bad => return bad,
                    };
                    best = match best {
                        None => Some(next),
                        Some(best) if func == "SUM" => match best.checked_add(next) {
                            Some(sum) => Some(sum),
                            None => return Bad("#NUM!"),
                        },
                        Some(best) => Some(best.max(next)),
                    };
                }
                Number(best.unwrap_or(0))
            }
        }
    }
}

fn main() {
    let times: u32 = env::args().nth(1).unwrap().parse().unwrap();
    let text = format!("0{}", "+IF(a>3,b*2,c-1)-SUM(d,e,7)*(f-g)+MAX(h,-2,i)".repeat(91));
    let tree = Reader { text: text.as_bytes(), at: 0 }.compare();
    let mut book = HashMap::new();
    let mut value = 1;
    for name in ["a", "b", "c", "d", "e", "f", "g", "h", "i"] {
        book.insert(name.to_string(), Number(value));
        value = 7 - value;
    }
    let mut last = String::new();
    for _ in 0..times {
        let mut walk = Walk { book: &book, answers: HashMap::new() };
        last = match walk.value(&tree) {
            Number(number) => number.to_string(),
            Text(text) => text,
            Bad(bad) => bad.to_string(),
        };
    }
    println!("{last}");
}

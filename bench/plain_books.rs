// What `carte build` does with a generated book, as a plain Rust program without contracts, to measure beside it:
//     rustc -O --edition 2021 -o /tmp/plain_books bench/plain_books.rs; /tmp/plain_books book.toml k65535
// It reads the books of bench/generated.py and no other TOML, keeps the keys in a BTreeMap by name, as the program
// does, evaluates each rule once, and prints the same reply.
use std::collections::BTreeMap;
use std::{env, fs};

/// `MAX(near,far)-MIN(near,far)`
struct Formula {
    near: String,
    far: String,
}

enum Item {
    Input(i64),
    Rule(Formula),
}

type Book = BTreeMap<String, Item>;
type Values = BTreeMap<String, i64>;

fn formula(text: &str) -> Formula {
    let pairs = text.strip_prefix("MAX(").and_then(|rest| rest.strip_suffix(')'));
    let (greatest, least) = pairs.and_then(|rest| rest.split_once(")-MIN(")).expect("a difference");
    let (near, far) = greatest.split_once(',').expect("two names");
    assert_eq!(greatest, least, "the same names twice");
    Formula { near: near.to_string(), far: far.to_string() }
}

fn item(is_rule: bool, value: &str) -> Item {
    if is_rule {
        let text = value.strip_prefix('"').and_then(|rest| rest.strip_suffix('"'));
        return Item::Rule(formula(text.expect("a text")));
    }
    Item::Input(value.parse().expect("an integer"))
}

fn read(text: &str) -> Book {
    let mut book = Book::new();
    let mut is_rule = false;
    for line in text.lines() {
        match line.split_once(" = ") {
            Some((name, value)) => assert!(book.insert(name.to_string(), item(is_rule, value)).is_none(), "a key twice"),
            None => is_rule = line == "[rules]",
        }
    }
    book
}

fn value(book: &Book, done: &Values, name: &str) -> Option<i64> {
    match book.get(name).expect("a key of the book") {
        Item::Input(number) => Some(*number),
        Item::Rule(_) => done.get(name).copied(),
    }
}

/// The first name of the formula that has no value yet.
fn open<'b>(book: &Book, done: &Values, rule: &'b Formula) -> Option<&'b str> {
    [&rule.near, &rule.far].iter().find(|name| value(book, done, name).is_none()).map(|name| name.as_str())
}

fn evaluate(book: &Book, done: &Values, rule: &Formula) -> i64 {
    let near = value(book, done, &rule.near).expect("a value");
    let far = value(book, done, &rule.far).expect("a value");
    near.max(far).checked_sub(near.min(far)).expect("no overflow")
}

/// Depth first with a stack of its own, each rule after those that it names.
fn build(book: &Book, target: &str) -> Values {
    let mut done = Values::new();
    let mut path = vec![target];
    while let Some(name) = path.last().copied() {
        let Some((key, Item::Rule(rule))) = book.get_key_value(name) else {
            path.pop();
            continue;
        };
        match open(book, &done, rule) {
            Some(need) => path.push(need),
            None => {
                let found = evaluate(book, &done, rule);
                done.insert(key.clone(), found);
                path.pop();
            }
        }
    }
    done
}

fn main() {
    let words: Vec<String> = env::args().collect();
    let text = fs::read_to_string(&words[1]).expect("a readable book");
    let book = read(&text);
    let target = &words[2];
    let done = build(&book, target);
    let found = value(&book, &done, target).expect("a value");
    println!("{target} = {found}\nran {}, given up 0, reused 0", done.len());
}

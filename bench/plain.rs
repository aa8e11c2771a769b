// What `carte build` does, as a plain Rust program without contracts, to measure beside it:
//     rustc -O -o /tmp/plain bench/plain.rs; /tmp/plain book.toml total
// It reads the lines that bench/books.py writes, and no other TOML.
use std::collections::BTreeMap;
use std::fs;

enum Term {
    Number(i64),
    Ref(String),
}

enum Item {
    Input(i64),
    Rule(Vec<Term>),
}

fn term(text: &str) -> Term {
    let word = text.trim();
    match word.parse() {
        Ok(number) => Term::Number(number),
        Err(_) => Term::Ref(word.to_string()),
    }
}

fn read(text: &str) -> BTreeMap<String, Item> {
    let mut book = BTreeMap::new();
    for line in text.lines() {
        if let Some((name, value)) = line.split_once(" = ") {
            let item = match value.strip_prefix('"') {
                Some(formula) => Item::Rule(formula.trim_end_matches('"').split('+').map(term).collect()),
                None => Item::Input(value.parse().unwrap()),
            };
            book.insert(name.to_string(), item);
        }
    }
    book
}

fn value(book: &BTreeMap<String, Item>, done: &BTreeMap<String, i64>, name: &str) -> Option<i64> {
    match &book[name] {
        Item::Input(number) => Some(*number),
        Item::Rule(_) => done.get(name).copied(),
    }
}

fn main() {
    let words: Vec<String> = std::env::args().collect();
    let text = fs::read_to_string(&words[1]).unwrap();
    let book = read(&text);
    let mut done = BTreeMap::new();
    let mut path = vec![(words[2].clone(), 0)];
    while let Some((name, place)) = path.pop() {
        let terms = match &book[&name] {
            Item::Rule(terms) => terms,
            Item::Input(_) => continue,
        };
        let open = terms[place..].iter().position(|term| match term {
            Term::Number(_) => false,
            Term::Ref(need) => value(&book, &done, need).is_none(),
        });
        match open {
            Some(at) => {
                if let Term::Ref(need) = &terms[place + at] {
                    path.push((name, place + at));
                    path.push((need.clone(), 0));
                }
            }
            None => {
                let sum = terms
                    .iter()
                    .map(|term| match term {
                        Term::Number(number) => *number,
                        Term::Ref(need) => value(&book, &done, need).unwrap(),
                    })
                    .sum();
                done.insert(name, sum);
            }
        }
    }
    println!("{} = {}\nran {}, given up 0, reused 0", words[2], value(&book, &done, &words[2]).unwrap(), done.len());
}

// Names, or numbers, that collide in the hash tables of a program whose hash is fixed, as one who means harm would search for
// them:
//     rustc -O --edition 2021 -o /tmp/colliding bench/colliding.rs; /tmp/colliding names 16384 12
// It prints so many names of 8 letters whose hashes have one tag and the same low bits, here 12 of them: they begin to be looked
// for at one place of every table of at most 2^12 groups, and none is told from another before the names themselves are
// compared. `numbers` does so for integers of 18 digits. What is printed hangs on the words alone, however many threads there are.
//
// The hash is the kit's: `FoldHasher` over the 16 bytes that a name has in front, or the 8 of a number. Of its 64 bits a table
// takes the halves joined by xor, of these the highest 8 bits as the tag, and as many low bits as tell its groups of 12 apart.
use std::io::Write;
use std::sync::Mutex;
use std::sync::atomic::{AtomicBool, AtomicUsize, Ordering::Relaxed};

const START: u64 = 0x243f_6a88_85a3_08d3;
const MULTIPLIER: u64 = 0x9e37_79b9_7f4a_7c15;

fn folded_multiply(a: u64, b: u64) -> u64 {
    let product = u128::from(a) * u128::from(b);
    product as u64 ^ (product >> 64) as u64
}

fn halves(hash: u64) -> u32 {
    (hash ^ hash >> 32) as u32
}

/// The hash of a name of 8 letters: 16 bytes are written, of which the last 8 are zeros.
fn of_name(letters: u64) -> u32 {
    halves(folded_multiply(letters ^ START.wrapping_add(16), MULTIPLIER))
}

/// The hash of a number: 8 bytes are written.
fn of_number(number: u64) -> u32 {
    halves(folded_multiply(number ^ START, MULTIPLIER ^ 16))
}

/// The bits of a hash that say where it is looked for first: the tag and the low ones. A tag of 0 counts as 1, so none is sought.
fn mask(bits: u32) -> u32 {
    0xff00_0000 | ((1 << bits) - 1)
}

/// The letters of a number as a part of a name, from this byte on.
fn letters(mut number: u64, count: u32, from: u32) -> u64 {
    let mut text = 0;
    for at in from..from + count {
        text |= (u64::from(b'a') + number % 26) << (8 * at);
        number /= 26;
    }
    text
}

/// The names of this part that collide: of its eight letters four are given, and all others tried.
fn names(part: u64, wanted: u32, mask: u32, found: &mut Vec<u64>) {
    let pairs: Vec<u64> = (0..26 * 26).map(|pair| letters(pair, 2, 0)).collect();
    let given = letters(part, 4, 4);
    for behind in &pairs {
        for front in &pairs {
            let name = given | behind << 16 | front;
            if (of_name(name) ^ wanted) & mask == 0 {
                found.push(name);
            }
        }
    }
}

/// The numbers of this part that collide: half a million are tried.
fn numbers(part: u64, wanted: u32, mask: u32, found: &mut Vec<u64>) {
    let first = 100_000_000_000_000_000 + part * 500_000;
    found.extend((first..first + 500_000).filter(|number| (of_number(*number) ^ wanted) & mask == 0));
}

fn main() {
    let words: Vec<String> = std::env::args().collect();
    let (count, bits): (usize, u32) = (words[2].parse().expect("a count"), words[3].parse().expect("a number of bits"));
    let is_names = words[1] == "names";
    let wanted = if is_names { of_name(u64::from_le_bytes(*b"quadrati")) } else { of_number(123_456_789) };
    assert!(wanted >> 24 > 1, "a tag of its own");
    let (next, is_done, all) = (AtomicUsize::new(0), AtomicBool::new(false), Mutex::new(Vec::<(usize, Vec<u64>)>::new()));
    let threads = std::thread::available_parallelism().map_or(1, |it| it.get());
    std::thread::scope(|scope| {
        for _ in 0..threads {
            scope.spawn(|| {
                while !is_done.load(Relaxed) {
                    let (part, mut found) = (next.fetch_add(1, Relaxed), Vec::new());
                    let search = if is_names { names } else { numbers };
                    search(part as u64, wanted, mask(bits), &mut found);
                    let mut all = all.lock().unwrap();
                    all.push((part, found));
                    is_done.store(all.iter().map(|(_, found)| found.len()).sum::<usize>() >= count || part >= 26 * 26 * 26 * 26, Relaxed);
                }
            });
        }
    });
    // The parts that were begun are all at hand, and are the first ones: in order they are the same each time.
    let mut all = all.into_inner().unwrap();
    all.sort();
    let mut said = Vec::new();
    for found in all.into_iter().flat_map(|(_, found)| found).take(count) {
        if is_names {
            said.extend_from_slice(&found.to_le_bytes());
            said.push(b'\n');
        } else {
            said.extend_from_slice(format!("{found}\n").as_bytes());
        }
    }
    std::io::stdout().write_all(&said).unwrap();
}

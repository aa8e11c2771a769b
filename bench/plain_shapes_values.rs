// The values of the books of bench/shapes.py, for plain_shapes.rs: their spelling, their digests, and what the code of a rule
// gives. Texts that are made stay until the end.
use crate::plain_sha256::{Digest, digest_of};
use crate::plain_shapes_book::{Book, Func, Op, Value};

/// Puts the spelling of a value in states and under digests behind these bytes.
pub fn spell(value: Value, bytes: &mut Vec<u8>) {
    match value {
        Value::Number(number) => {
            bytes.push(1);
            bytes.extend_from_slice(&number.to_be_bytes());
        }
        Value::Text(text) => {
            bytes.push(2);
            bytes.extend_from_slice(&(text.len() as u32).to_be_bytes());
            bytes.extend_from_slice(text);
        }
    }
}

pub fn digest(value: Value) -> Digest {
    let mut bytes = Vec::with_capacity(16);
    spell(value, &mut bytes);
    digest_of(&bytes)
}

fn called<'a>(func: Func, values: &[Value<'a>]) -> Value<'a> {
    let numbers = values.iter().filter_map(|value| if let Value::Number(number) = value { Some(*number) } else { None });
    match (func, values[0]) {
        (Func::Sum, _) => Value::Number(numbers.sum()),
        (Func::Max, _) => Value::Number(numbers.max().unwrap_or(0)),
        (Func::Len, Value::Text(text)) => Value::Number(text.len() as i64),
        (Func::Upper, Value::Text(text)) => Value::Text(text.to_ascii_uppercase().leak()),
        _ => panic!("a text as it is generated"),
    }
}

fn applied<'a>(op: Op, a: Value<'a>, b: Value<'a>) -> Value<'a> {
    match (op, a, b) {
        (Op::Add, Value::Number(a), Value::Number(b)) => Value::Number(a.checked_add(b).expect("no overflow")),
        (Op::Sub, Value::Number(a), Value::Number(b)) => Value::Number(a.checked_sub(b).expect("no overflow")),
        (Op::Mul, Value::Number(a), Value::Number(b)) => Value::Number(a.checked_mul(b).expect("no overflow")),
        (Op::Join, Value::Text(a), Value::Text(b)) => Value::Text([a, b].concat().leak()),
        _ => panic!("operands as they are generated"),
    }
}

/// What the code of a rule gives, on a stack that is empty before and after.
pub fn worked_out<'a>(book: &Book, code: &[Op], values: &[Value<'a>], stack: &mut Vec<Value<'a>>) -> Value<'a> {
    for op in code {
        match *op {
            Op::Number(number) => stack.push(Value::Number(number)),
            Op::Name(name) => stack.push(values[name as usize]),
            Op::Area(first, columns, rows) => {
                for row in 0..rows {
                    let from = (first + row * book.columns) as usize;
                    stack.extend_from_slice(&values[from..from + columns as usize]);
                }
            }
            Op::Call(func, count) => {
                let from = stack.len() - count as usize;
                let value = called(func, &stack[from..]);
                stack.truncate(from);
                stack.push(value);
            }
            _ => {
                let (b, a) = (stack.pop().unwrap(), stack.pop().unwrap());
                stack.push(applied(*op, a, b));
            }
        }
    }
    stack.pop().unwrap()
}

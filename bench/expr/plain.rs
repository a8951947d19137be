//! Expressions over rows of bytes as a Rust programmer would write them: a tree of boxes, evaluated on one row again
//! and again. Argument: how often.
use std::env;
use std::hint::black_box;
use std::time::Instant;

#[derive(Clone, Copy)]
enum Kind {
    Int,
    Text,
}

enum Field<'a> {
    Int(u64),
    Text(&'a [u8]),
}

struct Row<'a> {
    kinds: &'a [Kind],
    bytes: &'a [u8],
}

impl<'a> Row<'a> {
    fn field(&self, column: usize) -> Field<'a> {
        let mut rest = self.bytes;
        for (i, kind) in self.kinds.iter().enumerate() {
            let (head, after) = rest.split_at(match kind {
                Kind::Int => 8,
                Kind::Text => 4,
            });
            match kind {
                Kind::Int if i == column => return Field::Int(u64::from_le_bytes(head.try_into().unwrap())),
                Kind::Int => rest = after,
                Kind::Text => {
                    let length = u32::from_le_bytes(head.try_into().unwrap()) as usize;
                    let (text, after) = after.split_at(length);
                    if i == column {
                        return Field::Text(text);
                    }
                    rest = after;
                }
            }
        }
        panic!("no such column")
    }
}

enum Expr {
    Column(usize),
    Number(u64),
    Add(Box<Expr>, Box<Expr>),
    Mul(Box<Expr>, Box<Expr>),
    Word(Box<Expr>, Box<Expr>),
}

fn int(expr: &Expr, row: &Row<'_>) -> u64 {
    match expr {
        Expr::Number(n) => *n,
        Expr::Add(a, b) => int(a, row).wrapping_add(int(b, row)),
        Expr::Mul(a, b) => int(a, row).wrapping_mul(int(b, row)),
        Expr::Column(i) => match row.field(*i) {
            Field::Int(n) => n,
            Field::Text(_) => panic!("not a number"),
        },
        Expr::Word(..) => panic!("not a number"),
    }
}

fn text<'a>(expr: &Expr, row: &Row<'a>) -> &'a [u8] {
    match expr {
        Expr::Column(i) => match row.field(*i) {
            Field::Text(text) => text,
            Field::Int(_) => panic!("not a text"),
        },
        Expr::Word(n, t) => text(t, row)
            .split(|b| matches!(b, b' ' | b'\t' | b'\r'))
            .filter(|word| !word.is_empty())
            .nth(int(n, row) as usize)
            .unwrap_or(&[]),
        _ => panic!("not a text"),
    }
}

fn main() {
    let count: u32 = env::args().nth(1).and_then(|word| word.parse().ok()).unwrap_or(1);
    let line = b"the quick  brown fox jumps over";
    let mut bytes = Vec::new();
    bytes.extend((line.len() as u32).to_le_bytes());
    bytes.extend(line);
    bytes.extend(12345u64.to_le_bytes());
    let row = Row { kinds: &[Kind::Text, Kind::Int], bytes: &bytes };

    let column = |i| Box::new(Expr::Column(i));
    let number = |n| Box::new(Expr::Number(n));
    let sum_expr = Expr::Add(column(1), Box::new(Expr::Mul(column(1), number(3))));
    let word_expr = Expr::Word(number(2), column(0));

    let start = Instant::now();
    let mut sum = 0u64;
    for _ in 0..count {
        sum = sum.wrapping_add(int(black_box(&sum_expr), black_box(&row)));
    }
    let first = start.elapsed().as_micros();

    let start = Instant::now();
    let mut into: Vec<u8> = Vec::with_capacity(400_000);
    let mut total = 0u64;
    for _ in 0..count {
        into.clear();
        let word = text(black_box(&word_expr), black_box(&row));
        into.extend_from_slice(&(word.len() as u32).to_le_bytes());
        into.extend_from_slice(word);
        total += black_box(&into).len() as u64;
    }
    let second = start.elapsed().as_micros();
    println!("{sum} {total}\n{first} {second}");
}

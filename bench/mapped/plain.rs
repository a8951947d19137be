//! A map over plain structs, as a Rust programmer would write it: lines of a script with trees of boxes, each row a
//! struct on the stack, pushed from line to line. Argument: how many numbers. The last number printed is the time of the
//! same line written out as code.
use std::env;
use std::hint::black_box;
use std::time::Instant;

#[derive(Clone, Copy)]
struct Row {
    columns: [u64; 6],
    count: usize,
}

impl Row {
    const EMPTY: Row = Row { columns: [0; 6], count: 0 };

    fn push(&mut self, n: u64) {
        self.columns[self.count] = n;
        self.count += 1;
    }
}

enum Expr {
    Column(usize),
    Number(u64),
    Mul(Box<Expr>, Box<Expr>),
    Mod(Box<Expr>, Box<Expr>),
}

fn eval(expr: &Expr, row: &Row) -> u64 {
    match expr {
        Expr::Column(i) => row.columns[*i],
        Expr::Number(n) => *n,
        Expr::Mul(a, b) => eval(a, row).wrapping_mul(eval(b, row)),
        Expr::Mod(a, b) => match eval(b, row) {
            0 => 0,
            b => eval(a, row) % b,
        },
    }
}

enum Op {
    Map(Vec<Expr>),
}

#[derive(Default)]
struct Tally {
    rows: u64,
    sum: u64,
}

impl Tally {
    fn take(&mut self, row: &Row) {
        self.rows += 1;
        self.sum = self.sum.wrapping_add(row.columns[0]);
    }
}

fn push(ops: &[Op], row: &Row, into: &mut Tally) {
    let Some((op, rest)) = ops.split_first() else {
        return into.take(row);
    };
    match op {
        Op::Map(exprs) => {
            let mut made = Row::EMPTY;
            for expr in exprs {
                made.push(eval(expr, row));
            }
            push(rest, &made, into);
        }
    }
}

fn main() {
    let count: u64 = env::args().nth(1).and_then(|word| word.parse().ok()).unwrap_or(1);
    let column = || Box::new(Expr::Column(0));
    let number = |n| Box::new(Expr::Number(n));
    let product = Box::new(Expr::Mul(column(), number(7919)));
    let ops = [Op::Map(vec![Expr::Mod(product, number(1000003))])];

    let start = Instant::now();
    let mut into = Tally::default();
    for n in 0..count {
        let mut row = Row::EMPTY;
        row.push(n);
        push(black_box(&ops), &row, &mut into);
    }
    let by_lines = start.elapsed().as_micros();

    let start = Instant::now();
    let mut code = Tally::default();
    for n in 0..count {
        let mut row = Row::EMPTY;
        row.push(black_box(n).wrapping_mul(7919) % 1000003);
        code.take(&row);
    }
    let by_code = start.elapsed().as_micros();
    assert!(code.sum == into.sum && code.rows == into.rows);
    println!("{} {}\n{by_lines} {by_code}", into.rows, into.sum);
}

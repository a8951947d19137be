//! A map, a filter and a map over plain structs, as a Rust programmer would write them: lines of a script with trees of
//! boxes, each row a struct on the stack, pushed from line to line. Argument: how many numbers. The last number printed
//! is the time of the same three lines written out as code.
use std::env;
use std::hint::black_box;
use std::time::Instant;

#[derive(Clone, Copy)]
struct Row {
    columns: [u64; 6],
    count: usize,
}

impl Row {
    const EMPTY: Row = Row { columns: [0; 6], count: 0 };

    fn push(&mut self, n: u64) {
        self.columns[self.count] = n;
        self.count += 1;
    }
}

enum Expr {
    Column(usize),
    Number(u64),
    Add(Box<Expr>, Box<Expr>),
    Mul(Box<Expr>, Box<Expr>),
    Mod(Box<Expr>, Box<Expr>),
}

fn eval(expr: &Expr, row: &Row) -> u64 {
    match expr {
        Expr::Column(i) => row.columns[*i],
        Expr::Number(n) => *n,
        Expr::Add(a, b) => eval(a, row).wrapping_add(eval(b, row)),
        Expr::Mul(a, b) => eval(a, row).wrapping_mul(eval(b, row)),
        Expr::Mod(a, b) => match eval(b, row) {
            0 => 0,
            b => eval(a, row) % b,
        },
    }
}

enum Op {
    Map(Vec<Expr>),
    Filter(Expr),
}

#[derive(Default)]
struct Tally {
    rows: u64,
    sum: u64,
}

impl Tally {
    fn take(&mut self, row: &Row) {
        self.rows += 1;
        self.sum = self.sum.wrapping_add(row.columns[0]);
    }
}

fn push(ops: &[Op], row: &Row, into: &mut Tally) {
    let Some((op, rest)) = ops.split_first() else {
        return into.take(row);
    };
    match op {
        Op::Map(exprs) => {
            let mut made = Row::EMPTY;
            for expr in exprs {
                made.push(eval(expr, row));
            }
            push(rest, &made, into);
        }
        Op::Filter(expr) => {
            if eval(expr, row) != 0 {
                push(rest, row, into);
            }
        }
    }
}

fn main() {
    let count: u64 = env::args().nth(1).and_then(|word| word.parse().ok()).unwrap_or(1);
    let column = || Box::new(Expr::Column(0));
    let number = |n| Box::new(Expr::Number(n));
    let ops = [
        Op::Map(vec![Expr::Mul(column(), number(3))]),
        Op::Filter(Expr::Mod(column(), number(7))),
        Op::Map(vec![Expr::Add(column(), number(5))]),
    ];

    let start = Instant::now();
    let mut into = Tally::default();
    for n in 0..count {
        let mut row = Row::EMPTY;
        row.push(n);
        push(black_box(&ops), &row, &mut into);
    }
    let by_lines = start.elapsed().as_micros();

    let start = Instant::now();
    let mut code = Tally::default();
    for n in 0..count {
        let mut row = Row::EMPTY;
        row.push(black_box(n).wrapping_mul(3));
        if row.columns[0] % 7 != 0 {
            row.columns[0] = row.columns[0].wrapping_add(5);
            code.take(&row);
        }
    }
    let by_code = start.elapsed().as_micros();
    assert!(code.sum == into.sum && code.rows == into.rows);
    println!("{} {}\n{by_lines} {by_code}", into.rows, into.sum);
}

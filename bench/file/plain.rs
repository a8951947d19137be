//! Rows of one number, and rows of a text of 40 bytes and a number, copied into blocks of 64 KiB and read back one by one.
//! Written, a line for each: the sum of what was read, and microseconds of the pushes and of the reads.
use std::hint::black_box;
use std::time::Instant;

const BLOCK: usize = 65_536;

fn push_rows(blocks: &mut Vec<Vec<u8>>, row: &[u8], count: usize) {
    let mut open = Vec::with_capacity(BLOCK);
    for _ in 0..count {
        let row = black_box(row);
        if open.len() + row.len() > BLOCK {
            blocks.push(std::mem::replace(&mut open, Vec::with_capacity(BLOCK)));
        }
        open.extend_from_slice(row);
    }
    blocks.push(open);
}

fn number(bytes: &[u8]) -> u64 {
    u64::from_le_bytes(bytes[..8].try_into().unwrap())
}

fn sum_numbers(blocks: &[Vec<u8>]) -> u64 {
    let mut sum = 0u64;
    for block in blocks {
        let mut rest = &block[..];
        while !rest.is_empty() {
            sum = sum.wrapping_add(black_box(number(rest)));
            rest = &rest[8..];
        }
    }
    sum
}

fn sum_pairs(blocks: &[Vec<u8>]) -> u64 {
    let mut sum = 0u64;
    for block in blocks {
        let mut rest = &block[..];
        while !rest.is_empty() {
            let len = u32::from_le_bytes(rest[..4].try_into().unwrap()) as usize;
            let text = &rest[4..4 + len];
            black_box(text);
            rest = &rest[4 + len..];
            sum = sum.wrapping_add(black_box(number(rest)));
            rest = &rest[8..];
        }
    }
    sum
}

fn by_the_clock(row: &[u8], count: usize, sum: fn(&[Vec<u8>]) -> u64) {
    let start = Instant::now();
    let mut blocks = Vec::new();
    push_rows(&mut blocks, row, count);
    let pushed = start.elapsed().as_micros();
    let start = Instant::now();
    let sum = sum(&blocks);
    drop(blocks);
    println!("{sum} {pushed} {}", start.elapsed().as_micros());
}

fn main() {
    let seven = 7u64.to_le_bytes();
    by_the_clock(&seven, 20_000_000, sum_numbers);
    let mut pair = 40u32.to_le_bytes().to_vec();
    pair.extend([97; 40]);
    pair.extend(seven);
    by_the_clock(&pair, 5_000_000, sum_pairs);
}

//! Rows of a text and a number, read and compared as a Rust programmer would do it.
//!
//! Arguments: `make FILE COUNT` writes rows; `run FILE ROUNDS` goes over them again and again, and compares each
//! with the one before. A row has the length of the text in 4 bytes, the text, and the number in 8 bytes.
use std::cmp::Ordering;
use std::time::Instant;
use std::{env, fs};

const LONGEST_TEXT: usize = 65_536;

#[derive(Clone, Copy)]
struct Row<'a> {
    text: &'a [u8],
    number: u64,
}

/// The row at the front and how many bytes it has; None where there is none.
fn read_row(bytes: &[u8]) -> Option<(Row<'_>, usize)> {
    let (length, rest) = bytes.split_first_chunk::<4>()?;
    let length = u32::from_le_bytes(*length) as usize;
    if length > LONGEST_TEXT || rest.len() < length {
        return None;
    }
    let (text, rest) = rest.split_at(length);
    let (number, _) = rest.split_first_chunk::<8>()?;
    let number = u64::from_le_bytes(*number);
    Some((Row { text, number }, 4 + length + 8))
}

fn compare(a: Row<'_>, b: Row<'_>) -> Ordering {
    a.text.cmp(b.text).then(a.number.cmp(&b.number))
}

#[derive(Default)]
struct Tally {
    less: u64,
    equal: u64,
    greater: u64,
    bytes: u64,
}

fn go_over(bytes: &[u8], tally: &mut Tally) {
    let Some((mut before, first)) = read_row(bytes) else {
        return;
    };
    let mut rest = &bytes[first..];
    while let Some((row, n)) = read_row(rest) {
        match compare(before, row) {
            Ordering::Less => tally.less += 1,
            Ordering::Equal => tally.equal += 1,
            Ordering::Greater => tally.greater += 1,
        }
        tally.bytes += n as u64;
        before = row;
        rest = &rest[n..];
    }
}

/// Texts of 4 to 27 letters, of which every other one is that of the row before, so that the number decides.
fn make(path: &str, count: usize) {
    let mut bytes = Vec::new();
    let mut state = 88_172_645_463_325_252u64;
    let mut random = || {
        state ^= state << 13;
        state ^= state >> 7;
        state ^= state << 17;
        state
    };
    let mut text = b"row".to_vec();
    for _ in 0..count {
        if random() % 2 == 0 {
            text.truncate(3);
            text.extend((0..1 + random() % 24).map(|_| b'a' + (random() % 26) as u8));
        }
        bytes.extend((text.len() as u32).to_le_bytes());
        bytes.extend(&text);
        bytes.extend((random() % 1000).to_le_bytes());
    }
    fs::write(path, bytes).expect("the file can be written");
}

fn main() {
    let words: Vec<String> = env::args().skip(1).collect();
    let [what, path, number] = &words[..] else {
        panic!("usage: plain make FILE COUNT | run FILE ROUNDS");
    };
    let number: usize = number.parse().expect("a number");
    if what == "make" {
        return make(path, number);
    }
    let bytes = fs::read(path).expect("the file can be read");
    let mut tally = Tally::default();
    let start = Instant::now();
    for _ in 0..number {
        go_over(std::hint::black_box(&bytes), &mut tally);
    }
    let took = start.elapsed().as_micros();
    println!(
        "{} {} {} {}",
        tally.less, tally.equal, tally.greater, tally.bytes
    );
    println!("{took}");
}

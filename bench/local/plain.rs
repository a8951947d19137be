//! The three jobs of bench/local.sh in plain Rust: `plain JOB FILE`.
use std::io::{self, BufWriter, Write};
use std::{env, fs};

fn is_space(b: u8) -> bool {
    b == b' ' || b == b'\t'
}

fn words(line: &[u8]) -> impl Iterator<Item = &[u8]> {
    line.split(|b| is_space(*b)).filter(|word| !word.is_empty())
}

/// The lines, without the one behind the last LF where that is empty.
fn lines(bytes: &[u8]) -> impl Iterator<Item = &[u8]> {
    let end = bytes.strip_suffix(b"\n").unwrap_or(bytes);
    let some = !bytes.is_empty();
    end.split(|b| *b == b'\n').filter(move |_| some)
}

fn number(word: &[u8]) -> u64 {
    let mut n = 0u64;
    for b in word {
        if !b.is_ascii_digit() {
            return 0;
        }
        let Some(more) = n.checked_mul(10).and_then(|n| n.checked_add(u64::from(b - b'0'))) else {
            return 0;
        };
        n = more;
    }
    n
}

fn main() -> io::Result<()> {
    let words_given: Vec<String> = env::args().collect();
    let bytes = fs::read(&words_given[2])?;
    let mut out = BufWriter::with_capacity(1 << 16, io::stdout().lock());
    match words_given[1].as_str() {
        "filter" => {
            for line in lines(&bytes).filter(|line| line.len() < 40) {
                out.write_all(line)?;
                out.write_all(b"\n")?;
            }
        }
        "words" => writeln!(out, "{}", lines(&bytes).map(|line| words(line).count()).sum::<usize>())?,
        _ => {
            let sum = lines(&bytes).fold(0u64, |sum, line| {
                sum.wrapping_add(words(line).nth(2).map_or(0, number))
            });
            writeln!(out, "{sum}")?;
        }
    }
    out.flush()
}

//! A pool of plain Rust behind a `Mutex`: a block framed, filled, sealed, pinned, unpinned and freed, a million times by one
//! thread, and a million times by each of four threads at once. Written: microseconds of one, then of four.
use std::hint::black_box;
use std::sync::Mutex;
use std::thread;
use std::time::Instant;

const BLOCK: usize = 4096;
const FRAMES: usize = 64;
const ROUNDS: usize = 1_000_000;

enum Block {
    Gone,
    Out,
    Cached(Vec<u8>),
}

#[derive(Default)]
struct Pool {
    free: Vec<Vec<u8>>,
    blocks: Vec<Block>,
    ids: Vec<usize>,
}

fn one_block(pool: &Mutex<Pool>, bytes: &[u8]) {
    let mut frame = pool.lock().unwrap().free.pop().unwrap();
    frame.clear();
    frame.extend_from_slice(bytes);
    let id = {
        let mut pool = pool.lock().unwrap();
        let id = pool.ids.pop().unwrap_or(pool.blocks.len());
        if id == pool.blocks.len() {
            pool.blocks.push(Block::Gone);
        }
        pool.blocks[id] = Block::Cached(frame);
        id
    };
    let pinned = std::mem::replace(&mut pool.lock().unwrap().blocks[id], Block::Out);
    black_box(&pinned);
    pool.lock().unwrap().blocks[id] = pinned;
    let mut pool = pool.lock().unwrap();
    if let Block::Cached(frame) = std::mem::replace(&mut pool.blocks[id], Block::Gone) {
        pool.free.push(frame);
    }
    pool.ids.push(id);
}

fn go(pool: &Mutex<Pool>) {
    let bytes = [7u8; BLOCK];
    for _ in 0..ROUNDS {
        one_block(pool, black_box(&bytes));
    }
}

fn main() {
    let free = (0..FRAMES).map(|_| Vec::with_capacity(BLOCK)).collect();
    let pool = Mutex::new(Pool { free, ..Pool::default() });
    let start = Instant::now();
    go(&pool);
    let alone = start.elapsed().as_micros();
    let start = Instant::now();
    thread::scope(|scope| {
        for _ in 0..4 {
            scope.spawn(|| go(&pool));
        }
    });
    println!("rounds {alone} {}", start.elapsed().as_micros());
}

//! A million packets sent through a `Mutex` over a `VecDeque` and taken from it, a thousand at a time.
//! Written: how many came, and microseconds.
use std::collections::VecDeque;
use std::hint::black_box;
use std::sync::Mutex;
use std::time::Instant;

struct Packet {
    from: u32,
    seq: u64,
    block: u64,
}

const AT_ONCE: usize = 1000;
const ROUNDS: u64 = 1000;

fn send_all(queue: &Mutex<VecDeque<Packet>>, next: &mut u64, blocks: &mut Vec<u64>) {
    while let Some(block) = blocks.pop() {
        let packet = Packet { from: 0, seq: *next, block };
        *next += 1;
        queue.lock().unwrap().push_back(packet);
    }
}

fn take_all(queue: &Mutex<VecDeque<Packet>>, blocks: &mut Vec<u64>) -> u64 {
    let mut came = 0;
    for _ in 0..AT_ONCE {
        if let Some(packet) = queue.lock().unwrap().pop_front() {
            black_box((packet.from, packet.seq));
            blocks.push(packet.block);
            came += 1;
        }
    }
    came
}

fn main() {
    let queue = Mutex::new(VecDeque::new());
    let queue = black_box(&queue);
    let mut blocks: Vec<u64> = (0..AT_ONCE as u64).collect();
    let (mut next, mut came) = (0, 0);
    let start = Instant::now();
    for _ in 0..ROUNDS {
        send_all(queue, &mut next, &mut blocks);
        came += take_all(queue, &mut blocks);
    }
    println!("{came} {}", start.elapsed().as_micros());
}

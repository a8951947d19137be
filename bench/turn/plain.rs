//! A counter behind a `Mutex`: a million locks by one thread, and a million by each of four threads at once.
//! Written: microseconds of one, then of four, then the total.
use std::hint::black_box;
use std::sync::Mutex;
use std::thread;
use std::time::Instant;

fn go(counter: &Mutex<u64>) {
    for _ in 0..1_000_000 {
        *black_box(counter).lock().unwrap() += 1;
    }
}

fn main() {
    let counter = Mutex::new(0);
    let start = Instant::now();
    go(&counter);
    let alone = start.elapsed().as_micros();
    let start = Instant::now();
    thread::scope(|scope| {
        for _ in 0..4 {
            scope.spawn(|| go(&counter));
        }
    });
    let together = start.elapsed().as_micros();
    println!("turns {alone} {together} {}", counter.into_inner().unwrap());
}

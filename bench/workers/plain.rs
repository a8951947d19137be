//! A thousand phases of four empty tasks by scoped threads: three threads, and the caller does a task itself.
//! Written: microseconds of all, then how many steps were made.
use std::hint::black_box;
use std::thread;
use std::time::Instant;

const PHASES: u32 = 1_000;

struct Empty {
    steps: u64,
}

impl Empty {
    fn step(&mut self) -> Result<(), ()> {
        let task = black_box(self);
        task.steps = task.steps.wrapping_add(1);
        Ok(())
    }
}

fn phase(tasks: &mut [Empty]) -> Result<(), ()> {
    let Some((last, rest)) = tasks.split_last_mut() else {
        return Ok(());
    };
    thread::scope(|scope| {
        let threads: Vec<_> = rest.iter_mut().map(|task| scope.spawn(|| task.step())).collect();
        let own = last.step();
        for thread in threads {
            thread.join().unwrap()?;
        }
        own
    })
}

fn main() {
    let mut tasks = [0, 0, 0, 0].map(|steps| Empty { steps });
    let start = Instant::now();
    for _ in 0..PHASES {
        if phase(&mut tasks).is_err() {
            break;
        }
    }
    let time = start.elapsed().as_micros();
    println!("phases {time} {}", tasks.iter().map(|task| task.steps).sum::<u64>());
}

// What threads that share nothing do at once on this machine: the same number of steps of eight generators of random bits,
// in equal parts by THREADS threads, without a part that one thread does alone.
// With 0 threads it takes no step.
//     rustc --edition 2021 -O loop.rs && ./loop THREADS
#![forbid(unsafe_code)]
use std::hint::black_box;
use std::thread;

/// Some 20 milliseconds of one processor, as long as a census of 4,000 small objects takes with one worker.
const STEPS: u64 = 5_500_000;

fn turn(steps: u64) -> u64 {
    let mut states = [1, 2, 3, 4, 5, 6, 7, 8u64];
    for _ in 0..steps {
        for state in &mut states {
            *state ^= *state << 13;
            *state ^= *state >> 7;
            *state ^= *state << 17;
        }
        black_box(&mut states[0]);
    }
    states.iter().fold(0, |all, state| all ^ state)
}

fn main() {
    let threads: u64 = std::env::args().nth(1).and_then(|word| word.parse().ok()).unwrap_or(1);
    thread::scope(|scope| {
        for _ in 0..threads {
            scope.spawn(move || black_box(turn(STEPS / threads)));
        }
    });
}

// The steps of bench/hub in plain Rust: a list of AtomicU64, with no test, no pass and no slot.
use std::sync::atomic::{AtomicU64, Ordering::SeqCst};
use std::time::Instant;

const WORDS: usize = 16 * 64;
const ROUNDS: u64 = 4_000;

fn silences(words: &[AtomicU64]) -> u64 {
    for round in 1..=ROUNDS {
        for word in words {
            word.fetch_max(round, SeqCst);
        }
    }
    ROUNDS * WORDS as u64
}

fn edges(words: &[AtomicU64]) -> u64 {
    for _ in 0..ROUNDS {
        for word in words {
            if let Err(found) = word.compare_exchange(0, 2, SeqCst, SeqCst) {
                if found != 2 && found != u64::MAX {
                    word.fetch_max(u64::MAX, SeqCst);
                }
            }
        }
    }
    ROUNDS * WORDS as u64
}

fn looks(words: &[AtomicU64]) -> u64 {
    let mut sum = 0u64;
    for _ in 0..ROUNDS {
        for word in words {
            sum = sum.wrapping_add(word.load(SeqCst));
        }
    }
    sum
}

fn main() {
    let kinds: [(&str, fn(&[AtomicU64]) -> u64); 3] = [("silences", silences), ("edges", edges), ("looks", looks)];
    for (name, run) in kinds {
        let words: Vec<AtomicU64> = (0..WORDS).map(|_| AtomicU64::new(0)).collect();
        let steps = ROUNDS * WORDS as u64;
        let start = Instant::now();
        let sum = run(&words);
        println!("{name} 1 {steps} {} {sum}", start.elapsed().as_nanos());
        let start = Instant::now();
        let (left, right) = std::thread::scope(|scope| {
            let other = scope.spawn(|| run(&words));
            (run(&words), other.join().unwrap())
        });
        println!("{name} 2 {} {} {}", 2 * steps, start.elapsed().as_nanos(), left.wrapping_add(right));
    }
}

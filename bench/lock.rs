// Locks and unlocks a Mutex that nobody else has, n times.
use std::hint::black_box;
use std::sync::Mutex;

fn main() {
    let count: u64 = std::env::args().nth(1).and_then(|n| n.parse().ok()).unwrap_or(0);
    let mutex = Mutex::new(0_u64);
    for _ in 0..count {
        *black_box(&mutex).lock().unwrap() += 1;
    }
    black_box(&mutex);
}

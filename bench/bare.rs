// A bare loop of fetch_add, to hold a draw against: bare THREADS DRAWS.
use std::hint::black_box;
use std::sync::atomic::{AtomicU64, Ordering};
use std::thread;

fn main() {
    let mut words = std::env::args().skip(1).map(|word| word.parse::<u64>().unwrap());
    let threads = words.next().unwrap();
    let draws = words.next().unwrap();
    let drawn = AtomicU64::new(0);
    thread::scope(|scope| {
        for _ in 0..threads {
            scope.spawn(|| {
                for _ in 0..draws {
                    black_box(drawn.fetch_add(1, Ordering::SeqCst));
                }
            });
        }
    });
    println!("{}", drawn.into_inner());
}

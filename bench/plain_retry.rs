// Retries as a Rust programmer would write them by hand, to hold Hikebox's against: plain_retry WHAT ON CALLS, with the
// words of `bench call`. A budget is a counter, a quota a window under a mutex.
use std::hint::black_box;
use std::sync::atomic::{AtomicU64, Ordering};
use std::sync::Mutex;

/// What retries draw on.
trait Draw {
    fn request(&self) {}
    fn draw(&self) -> bool;
}

struct Nothing;

impl Draw for Nothing {
    fn draw(&self) -> bool {
        true
    }
}

struct Budget {
    drawn: AtomicU64,
    limit: u64,
}

impl Draw for Budget {
    fn draw(&self) -> bool {
        self.drawn.fetch_add(1, Ordering::SeqCst) < self.limit
    }
}

#[derive(Default)]
struct Window {
    number: u64,
    asked: u64,
    given: u64,
}

struct Quota {
    reserve: u64,
    share: u64,
    period: u64,
    now: u64,
    latest: Mutex<Window>,
}

impl Quota {
    fn turn(&self, latest: &mut Window) {
        let number = self.now / self.period;
        if number > latest.number {
            *latest = Window { number, asked: 0, given: 0 };
        }
    }
}

impl Draw for Quota {
    fn request(&self) {
        let mut latest = self.latest.lock().unwrap();
        self.turn(&mut latest);
        latest.asked += 1;
    }

    fn draw(&self) -> bool {
        let mut latest = self.latest.lock().unwrap();
        self.turn(&mut latest);
        if latest.given >= self.reserve + self.share * latest.asked / 1000 {
            return false;
        }
        latest.given += 1;
        true
    }
}

/// An attempt: it succeeds where none is to fail any more.
#[inline(never)]
fn attempt(state: &mut u64, left: u64) -> Result<u64, u64> {
    *state = state.wrapping_mul(6364136223846793005).wrapping_add(1442695040888963407);
    if left == 0 {
        Ok(*state)
    } else {
        Err(*state)
    }
}

/// One call, again after each failure while there is a ticket.
fn call(on: &impl Draw, state: &mut u64, mut left: u64) -> Result<u64, u64> {
    loop {
        match attempt(state, left) {
            Ok(given) => return Ok(given),
            Err(fault) if !on.draw() => return Err(fault),
            Err(_) => left = left.saturating_sub(1),
        }
    }
}

fn calls(on: &impl Draw, what: &str, calls: u64) -> u64 {
    let (mut state, mut sum) = (1, 0u64);
    let mut add = |given: Result<u64, u64>| sum = sum.wrapping_add(given.unwrap_or_else(|fault| fault));
    match what {
        "call" => (0..calls).for_each(|_| add(attempt(&mut state, 0))),
        "granted" => {
            on.request();
            add(call(on, &mut state, black_box(calls)));
        }
        _ => {
            for _ in 0..calls {
                on.request();
                add(call(on, &mut state, black_box((what == "refused") as u64)));
            }
        }
    }
    sum
}

fn main() {
    let words: Vec<String> = std::env::args().skip(1).collect();
    let (what, count) = (words[0].as_str(), words[2].parse().unwrap());
    let limit = if what == "refused" { 0 } else { 1 << 32 };
    let sum = match words[1].as_str() {
        "budget" => calls(&black_box(Budget { drawn: AtomicU64::new(0), limit }), what, count),
        "quota" => {
            let latest = Mutex::new(Window::default());
            calls(&black_box(Quota { reserve: limit, share: 0, period: 1000, now: 500, latest }), what, count)
        }
        _ => calls(&black_box(Nothing), what, count),
    };
    println!("{sum}");
}

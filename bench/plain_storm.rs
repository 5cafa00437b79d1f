// A storm as a Rust programmer would write it, for the benchmark: requests under eight retries with an exponential back-off
// and full jitter, on a peer that is down for a while, with the numbers of `zsched storm`'s defaults but those of the words:
//     plain_storm RATE SECONDS CAPACITY
// prints the requests, how many were won, and the calls.
use std::cmp::Reverse;
use std::collections::BinaryHeap;

struct Words([u32; 4]);

impl Words {
    fn seeded(mut seed: u64) -> Words {
        let mut next = || {
            seed = seed.wrapping_add(0x9e37_79b9_7f4a_7c15);
            let mixed = (seed ^ (seed >> 30)).wrapping_mul(0xbf58_476d_1ce4_e5b9);
            let mixed = (mixed ^ (mixed >> 27)).wrapping_mul(0x94d0_49bb_1331_11eb);
            mixed ^ (mixed >> 31)
        };
        let (low, high) = (next(), next());
        Words([low as u32, (low >> 32) as u32, high as u32, (high >> 32) as u32])
    }

    fn next(&mut self) -> u32 {
        let [a, b, c, d] = &mut self.0;
        let word = a.wrapping_add(*d).rotate_left(7).wrapping_add(*a);
        let shifted = *b << 9;
        *c ^= *a;
        *d ^= *b;
        *b ^= *c;
        *a ^= *d;
        *c ^= shifted;
        *d = d.rotate_left(11);
        word
    }
}

#[derive(Clone, Copy, PartialEq, Eq, PartialOrd, Ord)]
enum What {
    Retry,
    Won,
    Failed,
}

#[derive(Clone, Copy, Default)]
struct Window {
    requests: u64,
    won: u64,
    retries: u64,
    ended: [u64; 4],
    waiting: u64,
}

const CALL: u64 = 100_000;

fn main() {
    let numbers: Vec<u64> = std::env::args().skip(1).map(|word| word.parse().unwrap()).collect();
    let (rate, seconds, capacity) = (numbers[0], numbers[1], numbers[2]);
    let (patience, queue, outage, until) = (500, 5000, 10_000..20_000, seconds * 1000 + 60_000);
    let comes_at = |request: u64| request * 1000 / rate;
    let mut words = Words::seeded(0);
    let mut failures = vec![0u8; (rate * seconds) as usize];
    let mut windows = vec![Window::default()];
    let mut took = Vec::new();
    let (mut busy, mut fresh, mut calls) = (0, 0, 0u64);
    let mut pending = BinaryHeap::new();
    loop {
        let first = (fresh < rate * seconds && comes_at(fresh) <= until).then(|| (comes_at(fresh), fresh));
        let (at, request, what) = match (first, pending.peek()) {
            (Some((at, request)), Some(Reverse((other, number, _)))) if (at, request) < (*other, *number) => {
                (at, request, None)
            }
            (Some((at, request)), None) => (at, request, None),
            (_, Some(_)) => {
                let Reverse((at, request, what)) = pending.pop().unwrap();
                (at, request, Some(what))
            }
            (None, None) => break,
        };
        while windows.len() as u64 * 1000 <= at {
            let end = windows.len() as u64 * 1000;
            windows.last_mut().unwrap().waiting = (busy as u64).saturating_sub(capacity * 100 * end) / CALL;
            windows.push(Window::default());
        }
        let here = windows.last_mut().unwrap();
        match what {
            None | Some(What::Retry) => {
                calls += 1;
                if what.is_none() {
                    fresh += 1;
                    here.requests += 1;
                } else {
                    here.retries += 1;
                }
                let done = capacity * 100 * at;
                let ends = if outage.contains(&at) {
                    (at, request, What::Failed)
                } else if busy.max(done) - done >= queue * CALL {
                    (at, request, What::Failed)
                } else {
                    busy = busy.max(done) + CALL;
                    let ends = busy.div_ceil(capacity * 100);
                    if ends > at + patience {
                        (at + patience, request, What::Failed)
                    } else {
                        (ends, request, What::Won)
                    }
                };
                if ends.0 <= until {
                    pending.push(Reverse(ends));
                }
            }
            Some(What::Won) => {
                here.ended[0] += 1;
                windows[(comes_at(request) / 1000) as usize].won += 1;
                took.push(at - comes_at(request));
            }
            Some(What::Failed) => {
                here.ended[1] += 1;
                let (word, _, _, _) = (words.next(), words.next(), words.next(), words.next());
                let failed = &mut failures[request as usize];
                *failed += 1;
                if *failed <= 8 {
                    let delay = (100u64 << (*failed - 1)).min(10_000);
                    let start = at + ((delay * word as u64) >> 32);
                    if start <= until {
                        pending.push(Reverse((start, request, What::Retry)));
                    }
                }
            }
        }
    }
    took.sort_unstable();
    let won: u64 = windows.iter().map(|window| window.won).sum();
    println!("{fresh} requests, {won} won, {calls} calls");
}

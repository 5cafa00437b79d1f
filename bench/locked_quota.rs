// The same arithmetic as a quota's, under a mutex, to hold the quota's calls against: locked_quota CALL THREADS CALLS.
use std::hint::black_box;
use std::sync::Mutex;
use std::thread;

struct Terms {
    reserve: u64,
    share: u64,
    period: u64,
}

#[derive(Default)]
struct Window {
    number: u64,
    asked: u64,
    given: u64,
}

struct Quota {
    terms: Terms,
    latest: Mutex<Window>,
}

impl Quota {
    // Comes to the window of this moment, where that is later.
    fn turn(&self, latest: &mut Window, now: u64) {
        let number = now / self.terms.period;
        if number > latest.number {
            *latest = Window { number, asked: 0, given: 0 };
        }
    }

    fn deposit(&self, now: u64) {
        let mut latest = self.latest.lock().unwrap();
        self.turn(&mut latest, now);
        latest.asked += 1;
    }

    fn draw(&self, now: u64) -> Option<u64> {
        let mut latest = self.latest.lock().unwrap();
        self.turn(&mut latest, now);
        if latest.given >= self.terms.reserve + self.terms.share * latest.asked / 1000 {
            return None;
        }
        latest.given += 1;
        Some(latest.given)
    }
}

fn main() {
    let mut words = std::env::args().skip(1);
    let call = words.next().unwrap();
    let threads: u64 = words.next().unwrap().parse().unwrap();
    let calls: u64 = words.next().unwrap().parse().unwrap();
    let reserve = if call == "refused" { 0 } else { 4294967296 };
    let terms = black_box(Terms { reserve, share: 0, period: 1000 });
    let quota = Quota { terms, latest: Mutex::new(Window::default()) };
    thread::scope(|scope| {
        for _ in 0..threads {
            scope.spawn(|| {
                for _ in 0..calls {
                    if call == "deposit" {
                        quota.deposit(black_box(500));
                    } else {
                        black_box(quota.draw(black_box(500)));
                    }
                }
            });
        }
    });
    let latest = quota.latest.into_inner().unwrap();
    println!("{} tickets for {} requests", latest.given, latest.asked);
}

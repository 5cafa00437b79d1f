// The steps of schedules as one would write them by hand, in place and with nothing proved, to hold those of the library
// against: plain_steps PLAN EVENTS, where PLAN is pair, fixed, tree, crossed, exponential, retry or rounds, steps one so
// often; with a further word it keeps a journal of the events and the last output, as a driver does, and begins anew
// after 65,536; plain_steps print PLAN EVENTS writes the lines that zsched plan prints of it.
use std::hint::black_box;
use std::io::Write;

const MAX_NUMBER: u64 = (1 << 62) - 1;

fn plus(a: u64, b: u64) -> u64 {
    (a + b).min(MAX_NUMBER)
}

#[derive(Clone)]
enum Value {
    Unit,
    Num(u64),
    Pair(Box<(Value, Value)>),
    List(Vec<Value>),
}

enum Schedule {
    Recurs { count: u64, most: u64 },
    Spaced { count: u64, delay: u64 },
    Fixed { count: u64, length: u64, planned: Option<(u64, u64)> },
    Exponential { first: u64, delay: u64, factor: u64 },
    Meet(Box<(Schedule, Schedule)>),
    Follow { crossed: bool, both: Box<(Schedule, Schedule)> },
    Add { more: u64, inner: Box<Schedule> },
    Cap { most: u64, inner: Box<Schedule> },
    Jitter { lane: usize, least: u64, most: u64, inner: Box<Schedule> },
    Within { length: u64, first: Option<u64>, inner: Box<Schedule> },
    Second(Box<Schedule>),
    Renew { length: u64, since: Option<u64>, inner: Box<Schedule> },
    Gather { items: Vec<Value>, inner: Box<Schedule> },
}

struct Tick {
    now: u64,
    words: [u32; 4],
}

fn fixed_next(length: u64, planned: Option<(u64, u64)>, now: u64) -> (u64, u64) {
    match planned {
        None => (now, plus(now, length)),
        Some((first, start)) if plus(start, length) < now => (first, now),
        Some((first, _)) => (first, plus(now, length - (now - first) % length)),
    }
}

fn jittered(delay: u64, least: u64, most: u64, word: u32) -> u64 {
    let word = u128::from(word);
    let weight = u128::from(least) * ((1 << 32) - word) + u128::from(most) * word;
    (u128::from(delay) * weight / (1000 << 32)).min(u128::from(MAX_NUMBER)) as u64
}

impl Schedule {
    // The output, and the next start where it goes on.
    fn step(&mut self, tick: &Tick) -> (Value, Option<u64>) {
        let now = tick.now;
        match self {
            Schedule::Recurs { count, most } => {
                let n = *count;
                *count = plus(n, 1);
                (Value::Num(n), if n < *most { Some(now) } else { None })
            }
            Schedule::Spaced { count, delay } => {
                let n = *count;
                *count = plus(n, 1);
                (Value::Num(n), Some(plus(now, *delay)))
            }
            Schedule::Fixed { count, length, planned } => {
                let n = *count;
                *count = plus(n, 1);
                let next = fixed_next(*length, *planned, now);
                *planned = Some(next);
                (Value::Num(n), Some(next.1))
            }
            Schedule::Exponential { delay, factor, .. } => {
                let wait = *delay;
                *delay = wait.saturating_mul(*factor).min(MAX_NUMBER);
                (Value::Num(wait), Some(plus(now, wait)))
            }
            Schedule::Meet(both) => {
                let (first, start) = both.0.step(tick);
                let (second, other) = both.1.step(tick);
                let later = match (start, other) {
                    (Some(a), Some(b)) => Some(a.max(b)),
                    _ => None,
                };
                (Value::Pair(Box::new((first, second))), later)
            }
            Schedule::Follow { crossed, both } => {
                if !*crossed {
                    let answer = both.0.step(tick);
                    if answer.1.is_some() {
                        return answer;
                    }
                    *crossed = true;
                }
                both.1.step(tick)
            }
            Schedule::Add { more, inner } => {
                let (output, start) = inner.step(tick);
                (output, start.map(|start| plus(now, plus(start - now, *more))))
            }
            Schedule::Cap { most, inner } => {
                let (output, start) = inner.step(tick);
                (output, start.map(|start| plus(now, (start - now).min(*most))))
            }
            Schedule::Jitter { lane, least, most, inner } => {
                let (output, start) = inner.step(tick);
                let word = tick.words[*lane];
                (output, start.map(|start| plus(now, jittered(start - now, *least, *most, word))))
            }
            Schedule::Within { length, first, inner } => {
                let (output, start) = inner.step(tick);
                let first = *first.get_or_insert(now);
                (output, if now - first < *length { start } else { None })
            }
            Schedule::Second(inner) => {
                let (output, start) = inner.step(tick);
                match output {
                    Value::Pair(both) => (both.1, start),
                    _ => (Value::Unit, start),
                }
            }
            Schedule::Renew { length, since, inner } => {
                if since.is_none_or(|since| now - since >= *length) {
                    *since = Some(now);
                    inner.reset();
                }
                inner.step(tick)
            }
            Schedule::Gather { items, inner } => {
                let (output, start) = inner.step(tick);
                let shown = Value::List(items.clone());
                if start.is_some() {
                    items.push(output);
                }
                (shown, start)
            }
        }
    }

    fn reset(&mut self) {
        match self {
            Schedule::Recurs { count, .. } | Schedule::Spaced { count, .. } => *count = 0,
            Schedule::Fixed { count, planned, .. } => {
                *count = 0;
                *planned = None;
            }
            Schedule::Exponential { first, delay, .. } => *delay = *first,
            Schedule::Meet(both) => {
                both.0.reset();
                both.1.reset();
            }
            Schedule::Follow { crossed, both } => {
                *crossed = false;
                both.0.reset();
                both.1.reset();
            }
            Schedule::Within { first, inner, .. } => {
                *first = None;
                inner.reset();
            }
            Schedule::Renew { since, inner, .. } => {
                *since = None;
                inner.reset();
            }
            Schedule::Gather { items, inner } => {
                items.clear();
                inner.reset();
            }
            Schedule::Add { inner, .. }
            | Schedule::Cap { inner, .. }
            | Schedule::Jitter { inner, .. }
            | Schedule::Second(inner) => inner.reset(),
        }
    }
}

fn recurs(most: u64) -> Schedule {
    Schedule::Recurs { count: 0, most }
}

fn spaced(delay: u64) -> Schedule {
    Schedule::Spaced { count: 0, delay }
}

fn exponential(first: u64, factor: u64) -> Schedule {
    Schedule::Exponential { first, delay: first, factor }
}

fn meet(first: Schedule, second: Schedule) -> Schedule {
    Schedule::Meet(Box::new((first, second)))
}

// A full tree of meets with a leaf at each end, 2 to the power of `depth` of them, that goes on or is done at once.
fn tree(depth: u32, goes_on: bool) -> Schedule {
    if depth == 0 {
        return if goes_on { spaced(1) } else { recurs(0) };
    }
    meet(tree(depth - 1, goes_on), tree(depth - 1, goes_on))
}

fn retry() -> Schedule {
    let waits = Schedule::Add { more: 5, inner: Box::new(exponential(100, 2)) };
    let waits = Schedule::Cap { most: 1000, inner: Box::new(waits) };
    let waits = Schedule::Jitter { lane: 0, least: 800, most: 1200, inner: Box::new(waits) };
    let waits = Schedule::Within { length: MAX_NUMBER, first: None, inner: Box::new(waits) };
    Schedule::Second(Box::new(meet(recurs(MAX_NUMBER), waits)))
}

fn rounds() -> Schedule {
    let gathered = Schedule::Gather { items: Vec::new(), inner: Box::new(spaced(1)) };
    Schedule::Renew { length: 16, since: None, inner: Box::new(gathered) }
}

fn named(plan: &str) -> Schedule {
    match plan {
        "pair" => meet(recurs(MAX_NUMBER), spaced(1)),
        "fixed" => Schedule::Fixed { count: 0, length: 3, planned: None },
        "crossed" => Schedule::Follow { crossed: false, both: Box::new((tree(6, false), spaced(1))) },
        "exponential" => exponential(1, 1),
        "retry" => retry(),
        "rounds" => rounds(),
        _ => tree(7, true),
    }
}

fn write_value(out: &mut impl Write, value: &Value) -> std::io::Result<()> {
    match value {
        Value::Unit => write!(out, "()"),
        Value::Num(number) => write!(out, "{number}"),
        Value::Pair(both) => {
            write!(out, "(")?;
            write_value(out, &both.0)?;
            write!(out, ", ")?;
            write_value(out, &both.1)?;
            write!(out, ")")
        }
        Value::List(items) => {
            write!(out, "[")?;
            for (at, item) in items.iter().enumerate() {
                if at > 0 {
                    write!(out, ", ")?;
                }
                write_value(out, item)?;
            }
            write!(out, "]")
        }
    }
}

// The lines of so many events at most, each at the start planned before.
fn print(mut schedule: Schedule, events: u64) -> std::io::Result<()> {
    let mut out = std::io::BufWriter::new(std::io::stdout().lock());
    let mut now = 0;
    for _ in 0..events {
        let (output, start) = schedule.step(&Tick { now, words: [1 << 31; 4] });
        write!(out, "{now}: ")?;
        write_value(&mut out, &output)?;
        let Some(start) = start else {
            writeln!(out, " done")?;
            break;
        };
        writeln!(out, " next {start}")?;
        now = start;
    }
    out.flush()
}

// An event, as a journal keeps it.
struct Event {
    _tick: Tick,
    _input: Value,
}

// The same with a journal and the last output; it answers where it ended.
fn drive(plan: &str, events: u64) -> u64 {
    let mut schedule = named(plan);
    let mut journal = Vec::new();
    let mut last = None;
    let mut now = 0;
    for _ in 0..events {
        if journal.len() == 65536 {
            journal = Vec::new();
            schedule = named(plan);
        }
        let tick = black_box(Tick { now, words: [0; 4] });
        let answer = black_box(schedule.step(&tick));
        journal.push(Event { _tick: tick, _input: Value::Unit });
        now = answer.1.unwrap_or(now);
        last = Some(answer);
    }
    black_box(&last);
    now
}

fn main() -> std::io::Result<()> {
    let mut words = std::env::args().skip(1);
    let mut plan = words.next().unwrap();
    let prints = plan == "print";
    if prints {
        plan = words.next().unwrap();
    }
    let events: u64 = words.next().unwrap().parse().unwrap();
    let mut schedule = named(&plan);
    if prints {
        return print(schedule, events);
    }
    if words.next().is_some() {
        println!("{plan}: {events} events, at {}", drive(&plan, events));
        return Ok(());
    }
    let mut now = 0;
    for _ in 0..events {
        let tick = black_box(Tick { now, words: [0; 4] });
        let (_output, start) = black_box(schedule.step(&tick));
        now = start.unwrap_or(now);
    }
    println!("{plan}: {events} events, at {now}");
    Ok(())
}

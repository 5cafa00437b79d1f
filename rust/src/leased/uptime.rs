//! The machine's uptime, as all its processes see it, and the windows that it is cut into.

use crate::clock::whole_millis;
use crate::system::{boot, boottime, generation};
use std::fs;
use std::io;
use std::sync::atomic::{AtomicI64, AtomicU64, Ordering};
use std::time::Duration;

/// A window of the machine's uptime: which start of the machine it is of, its number, and its length in milliseconds.
#[derive(Clone, Copy, Debug)]
pub(crate) struct Window {
    pub(crate) boot: Boot,
    pub(crate) number: u64,
    period: u64,
}

/// The name of a start of the machine.
pub(crate) type Boot = [u8; 36];

impl Window {
    /// The present one of so many milliseconds, in a process that may know its machine's start already: that is read once.
    pub(crate) fn present(period: u64, known: &mut Option<Boot>) -> io::Result<Self> {
        let boot = match *known {
            Some(boot) => boot,
            None => *known.insert(boot()?),
        };
        Ok(Self { number: now()? / period, boot, period })
    }

    /// The one of this number, of no start of the machine.
    #[cfg(all(test, unix))]
    pub(crate) fn of_number(number: u64, period: u64) -> Self {
        Self { boot: [0; 36], number, period }
    }

    /// Its first moment.
    pub(crate) fn begins(&self) -> u64 {
        self.number.saturating_mul(self.period)
    }

    /// The first moment of the next one.
    pub(crate) fn ends(&self) -> u64 {
        (self.number + 1).saturating_mul(self.period)
    }
}

/// The present moment in milliseconds.
pub(crate) fn now() -> io::Result<u64> {
    Ok(whole_millis(uptime()?))
}

/// How long ago the machine started, which is the same in all its time namespaces.
fn uptime() -> io::Result<Duration> {
    let offset = offset();
    let (now, by) = (boottime()?, Duration::from_nanos(offset.unsigned_abs()));
    Ok(if offset < 0 { now + by } else { now.saturating_sub(by) })
}

/// By how many nanoseconds this process's uptime is ahead of the machine's. A process keeps its time namespace, and a
/// child may be in another one.
fn offset() -> i64 {
    static OFFSET: AtomicI64 = AtomicI64::new(0);
    static KNOWN_TO: AtomicU64 = AtomicU64::new(u64::MAX);
    let generation = generation();
    if KNOWN_TO.load(Ordering::Acquire) != generation {
        let offsets = fs::read_to_string("/proc/self/timens_offsets").unwrap_or_default();
        OFFSET.store(offset_of(&offsets), Ordering::Relaxed);
        KNOWN_TO.store(generation, Ordering::Release);
    }
    OFFSET.load(Ordering::Relaxed)
}

/// The offset of `boottime` that this text tells, as seconds and nanoseconds to add to them, or 0 where it has none.
fn offset_of(offsets: &str) -> i64 {
    let numbers = |line: &str| {
        let mut words = line.split_whitespace();
        // (the first kernels with time namespaces wrote the clock's number)
        let is_boottime = matches!(words.next()?, "boottime" | "7");
        let (seconds, nanos): (i64, i64) = (words.next()?.parse().ok()?, words.next()?.parse().ok()?);
        is_boottime.then(|| seconds.saturating_mul(1_000_000_000).saturating_add(nanos))
    };
    offsets.lines().find_map(numbers).unwrap_or(0)
}

#[cfg(test)]
mod tests {
    use super::offset_of;

    #[cfg(unix)]
    #[test]
    fn the_start_of_the_machine_is_read_once() {
        use super::Window;
        let mut known = None;
        let read = Window::present(1, &mut known).unwrap().boot;
        assert_eq!(known, Some(read));
        assert_eq!(Window::present(1, &mut Some([7; 36])).unwrap().boot, [7; 36]);
    }

    #[test]
    fn the_offset_is_that_of_boottime() {
        let offsets = "monotonic           5         6\nboottime         3600         7\n";
        assert_eq!(offset_of(offsets), 3_600_000_000_007);
        assert_eq!(offset_of("1  5  6\n7  -2  500000000\n"), -1_500_000_000);
        assert_eq!(offset_of(""), 0);
        assert_eq!(offset_of("monotonic 5 6\nboottime ? 0\n"), 0);
    }
}

//! Instants as numbers: the standard library subtracts two in some sixty instructions, and tells their seconds and
//! nanoseconds to a hasher.

use std::hash::{Hash, Hasher};
use std::sync::atomic::{AtomicU8, Ordering};
use std::time::{Duration, Instant};

const NANOS_A_SECOND: u64 = 1_000_000_000;
/// Some 270 years: so many seconds are less than 2^63 nanoseconds.
const MAX_SECONDS: u64 = 1 << 33;

/// The nanoseconds from one instant to another, or none where that is earlier; `None` where they are centuries apart, or
/// this standard library does not tell the parts of an instant.
#[inline]
pub(crate) fn nanos_between(earlier: Instant, later: Instant) -> Option<u64> {
    if !parts_are_told() {
        return None;
    }
    between(Parts::of(earlier), Parts::of(later))
}

/// The same, if these are their parts.
#[inline]
fn between(earlier: Parts, later: Parts) -> Option<u64> {
    let seconds = later.seconds.wrapping_sub(earlier.seconds) as u64;
    if seconds > MAX_SECONDS || earlier.told != 2 || later.told != 2 {
        return None;
    }
    Some((seconds * NANOS_A_SECOND + later.nanos).saturating_sub(earlier.nanos))
}

/// What an instant tells a hasher: its seconds, and then its nanoseconds, in 32 bits, or by Debian's Rust in 64.
#[derive(Default)]
struct Parts {
    seconds: i64,
    nanos: u64,
    /// How many numbers it told.
    told: u32,
}

impl Parts {
    #[inline]
    fn of(instant: Instant) -> Self {
        let mut parts = Self::default();
        instant.hash(&mut parts);
        parts
    }
}

impl Hasher for Parts {
    #[inline]
    fn write_i64(&mut self, number: i64) {
        match self.told {
            0 => self.seconds = number,
            _ => self.nanos = number as u64,
        }
        self.told += 1;
    }

    #[inline]
    fn write_u32(&mut self, nanos: u32) {
        self.nanos = nanos.into();
        self.told += 1;
    }

    /// What is told in another way is none of them.
    #[inline]
    fn write(&mut self, _: &[u8]) {
        self.told += 3;
    }

    fn finish(&self) -> u64 {
        0
    }
}

/// Whether the parts of instants are what they are taken for, which is tried once.
#[inline]
fn parts_are_told() -> bool {
    match TOLD.load(Ordering::Relaxed) {
        UNTRIED => try_parts(),
        told => told == TRUE,
    }
}

static TOLD: AtomicU8 = AtomicU8::new(UNTRIED);
const UNTRIED: u8 = 0;
const TRUE: u8 = 1;
const FALSE: u8 = 2;

/// Tries it with instants of which it is known how far they are apart.
#[cold]
fn try_parts() -> bool {
    let now = Instant::now();
    let is_told = |nanos: u64| {
        let later = now + Duration::from_nanos(nanos);
        between(Parts::of(now), Parts::of(later)) == Some(nanos)
    };
    let told = [0, 1, NANOS_A_SECOND - 1, NANOS_A_SECOND, 5 * NANOS_A_SECOND + 7].into_iter().all(is_told);
    TOLD.store(if told { TRUE } else { FALSE }, Ordering::Relaxed);
    told
}

#[cfg(test)]
mod tests {
    use super::{between, nanos_between, Parts, NANOS_A_SECOND};
    use std::hash::{Hash, Hasher};
    use std::time::{Duration, Instant};

    #[test]
    fn instants_are_as_far_apart_as_the_standard_library_says() {
        let now = Instant::now();
        for nanos in [0, 1, 999_999_999, NANOS_A_SECOND, NANOS_A_SECOND + 1, 86_400_000_000_123, 1 << 62] {
            let later = now + Duration::from_nanos(nanos);
            assert_eq!(nanos_between(now, later), Some(nanos));
            assert_eq!(later.duration_since(now), Duration::from_nanos(nanos));
            // none is between one and an earlier one of the same second, and others are left to the standard library
            assert!([Some(0), None].contains(&nanos_between(later, now)), "{nanos}");
        }
        assert_eq!(nanos_between(now, now + Duration::from_secs(1 << 34)), None);
    }

    #[test]
    fn parts_of_another_kind_are_not_taken() {
        let of = |parts: &[&dyn Fn(&mut Parts)]| {
            let mut told = Parts::default();
            parts.iter().for_each(|part| part(&mut told));
            told
        };
        let (seconds, nanos) = (|parts: &mut Parts| 5_i64.hash(parts), |parts: &mut Parts| 7_u32.hash(parts));
        let zero = || of(&[&|parts| 0_i64.hash(parts), &|parts| 0_i64.hash(parts)]);
        assert_eq!(between(zero(), of(&[&seconds, &nanos])), Some(5 * NANOS_A_SECOND + 7));
        assert_eq!(between(zero(), of(&[&seconds, &nanos, &|parts| 1_u8.hash(parts)])), None);
        for other in [of(&[]), of(&[&seconds]), of(&[&|parts| parts.write_u64(0)])] {
            assert_eq!(between(other, of(&[&seconds, &nanos])), None);
        }
    }
}

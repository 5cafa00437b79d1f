//! Where a retry takes its clock, its waits and its random words from.

use crate::clock::SystemClock;
use crate::random;
use std::fmt;
use std::thread;
use std::time::Duration;

/// Where a retry takes its clock, its waits and its random words from.
#[derive(Clone, Copy)]
pub struct Host<K, S, R, T = ()> {
    pub(crate) clock: K,
    pub(crate) sleep: S,
    pub(crate) random: R,
    /// How long its runs may take, where they are timed.
    pub(crate) timed: T,
}

/// The system's clock, waits and random words; with the feature `tokio` tokio's clock, and its waits in futures.
pub type SystemHost<T = ()> = Host<SystemClock, SystemSleep, SystemRandom, T>;

/// Blocks the thread, or with the feature `tokio` lets the task wait.
#[derive(Clone, Copy, Debug, Default)]
pub struct SystemSleep;

/// Random words of the thread, seeded by the system's random bytes.
#[derive(Clone, Copy, Debug, Default)]
pub struct SystemRandom;

impl<K, S, R, T> Host<K, S, R, T> {
    pub(crate) fn with_clock<X>(self, clock: X) -> Host<X, S, R, T> {
        Host { clock, sleep: self.sleep, random: self.random, timed: self.timed }
    }

    pub(crate) fn with_sleep<X>(self, sleep: X) -> Host<K, X, R, T> {
        Host { clock: self.clock, sleep, random: self.random, timed: self.timed }
    }

    pub(crate) fn with_random<X>(self, random: X) -> Host<K, S, X, T> {
        Host { clock: self.clock, sleep: self.sleep, random, timed: self.timed }
    }

    pub(crate) fn with_timed<X>(self, timed: impl FnOnce(T) -> X) -> Host<K, S, R, X> {
        Host { clock: self.clock, sleep: self.sleep, random: self.random, timed: timed(self.timed) }
    }
}

impl<K, S, R, T> fmt::Debug for Host<K, S, R, T> {
    fn fmt(&self, f: &mut fmt::Formatter<'_>) -> fmt::Result {
        f.debug_struct("Host").finish_non_exhaustive()
    }
}

/// A way to block: any function of a [`Duration`].
pub trait Sleep {
    /// Blocks for this long, or longer.
    fn sleep(&self, wait: Duration);
}

/// Random words: any function that returns four.
pub trait Random {
    /// The next four words.
    fn draw(&self) -> [u32; 4];
}

impl SystemHost {
    #[inline]
    pub(crate) fn system() -> Self {
        Self { clock: SystemClock, sleep: SystemSleep, random: SystemRandom, timed: () }
    }
}

impl Sleep for SystemSleep {
    fn sleep(&self, wait: Duration) {
        thread::sleep(wait);
    }
}

impl<F: Fn(Duration)> Sleep for F {
    fn sleep(&self, wait: Duration) {
        self(wait);
    }
}

impl Random for SystemRandom {
    #[inline]
    fn draw(&self) -> [u32; 4] {
        random::next()
    }
}

impl<F: Fn() -> [u32; 4]> Random for F {
    fn draw(&self) -> [u32; 4] {
        self()
    }
}

//! Random words of a thread.

use crate::system::{generation, is_generation};
use std::cell::Cell;
use std::collections::hash_map::RandomState;
use std::hash::{BuildHasher, Hasher};
use std::time::SystemTime;

/// A generator `SplitMix64`, and the process that began it.
struct Stream {
    state: Cell<u64>,
    generation: Cell<u64>,
}

thread_local! {
    /// The thread's own, which no process has begun yet.
    static STREAM: Stream = const { Stream { state: Cell::new(0), generation: Cell::new(u64::MAX) } };
}

/// A state from the system's random bytes. In a forked child these are the parent's, so the process and the time count
/// too.
fn seed() -> u64 {
    let mut hasher = RandomState::new().build_hasher();
    let now = SystemTime::now().duration_since(SystemTime::UNIX_EPOCH).unwrap_or_default();
    hasher.write_u32(std::process::id());
    hasher.write_u128(now.as_nanos());
    hasher.finish()
}

/// The next four of this thread.
#[inline]
pub(crate) fn next() -> [u32; 4] {
    STREAM.with(|stream| {
        if !is_generation(stream.generation.get()) {
            stream.begin();
        }
        let (first, second) = (stream.next_half(), stream.next_half());
        [first as u32, (first >> 32) as u32, second as u32, (second >> 32) as u32]
    })
}

impl Stream {
    /// Begins it in this process.
    #[cold]
    fn begin(&self) {
        self.state.set(seed());
        self.generation.set(generation());
    }

    /// The next two words.
    #[inline]
    fn next_half(&self) -> u64 {
        let mut word = self.state.get().wrapping_add(0x9E37_79B9_7F4A_7C15);
        self.state.set(word);
        word = (word ^ (word >> 30)).wrapping_mul(0xBF58_476D_1CE4_E5B9);
        word = (word ^ (word >> 27)).wrapping_mul(0x94D0_49BB_1331_11EB);
        word ^ (word >> 31)
    }
}

#[cfg(test)]
mod tests {
    use super::{Cell, Stream};

    #[test]
    fn halves_are_those_of_splitmix64() {
        // the first three of the generator's own test, from 1234567 on
        let stream = Stream { state: Cell::new(1_234_567), generation: Cell::new(0) };
        let halves = [stream.next_half(), stream.next_half(), stream.next_half()];
        assert_eq!(halves, [6_457_827_717_110_365_317, 3_203_168_211_198_807_973, 9_817_491_932_198_370_423]);
    }

    #[test]
    fn two_threads_have_words_of_their_own() {
        let other = std::thread::spawn(super::next).join().unwrap();
        assert_ne!(super::next(), other);
    }
}

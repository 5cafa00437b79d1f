//! Values of which each is for some of the threads, so that none waits for another.

use crate::system::TryLock;
use std::array;
use std::cell::Cell;
use std::hint::spin_loop;
use std::sync::atomic::{AtomicUsize, Ordering};

/// How many there are, which threads take in turn.
const SHARDS: usize = 16;

pub(crate) struct Shards<T>([Shard<T>; SHARDS]);

/// One, on cache lines of its own; it is empty until a thread fills it.
#[repr(align(128))]
struct Shard<T>(TryLock<Option<T>>);

thread_local! {
    /// The thread's, or [`SHARDS`] before it has one.
    static SHARD: Cell<usize> = const { Cell::new(SHARDS) };
}

/// One for this thread, which has none yet.
#[cold]
fn next_shard() -> usize {
    static NEXT: AtomicUsize = AtomicUsize::new(0);
    let shard = NEXT.fetch_add(1, Ordering::Relaxed) % SHARDS;
    SHARD.with(|own| own.set(shard));
    shard
}

impl<T> Shards<T> {
    /// What the call gives, which has the one of this thread; `None` where another thread uses that.
    #[inline]
    pub(crate) fn own<R>(&self, call: impl FnOnce(&mut Option<T>) -> R) -> Option<R> {
        let Shard(shard) = self.0.get(SHARD.with(Cell::get)).unwrap_or_else(|| &self.0[next_shard()]);
        shard.try_with(call)
    }

    /// The sum of this number of each value. It waits for a thread that uses one.
    pub(crate) fn sum(&self, number: impl Fn(&mut T) -> u64) -> u64 {
        let of = |shard: &mut Option<T>| shard.as_mut().map_or(0, &number);
        let waited = |Shard(shard): &Shard<T>| loop {
            match shard.try_with(of) {
                Some(number) => break number,
                None => spin_loop(),
            }
        };
        self.0.iter().map(waited).sum()
    }

    /// All values.
    pub(crate) fn into_values(self) -> impl Iterator<Item = T> {
        self.0.into_iter().filter_map(|Shard(shard)| shard.into_inner())
    }
}

impl<T> Default for Shards<T> {
    fn default() -> Self {
        Self(array::from_fn(|_| Shard(TryLock::default())))
    }
}

#[cfg(test)]
mod tests {
    use super::Shards;
    use std::thread;

    #[test]
    fn a_thread_has_its_value_and_all_are_counted() {
        let shards = Shards::default();
        let count = || {
            for _ in 0..100 {
                while shards.own(|shard: &mut Option<u64>| *shard.get_or_insert(0) += 1).is_none() {
                    thread::yield_now();
                }
            }
        };
        thread::scope(|scope| (0..20).for_each(|_| drop(scope.spawn(count))));
        assert_eq!(shards.sum(|count| *count), 2000);
        assert_eq!(shards.own(|_| shards.own(|_| ())), Some(None));
        assert_eq!(shards.into_values().sum::<u64>(), 2000);
    }
}

//! A value that is made once, and for which nobody waits.

use std::ptr;
use std::sync::atomic::{AtomicPtr, Ordering};

/// A value of the whole program, which the first who asks for it makes. It takes no lock, so that a forked child gets it
/// whatever another thread did at the fork. It is never freed.
pub(crate) struct MadeOnce<T> {
    value: AtomicPtr<T>,
}

impl<T> MadeOnce<T> {
    pub(crate) const fn new() -> Self {
        Self { value: AtomicPtr::new(ptr::null_mut()) }
    }
}

impl<T: Copy + Send + Sync> MadeOnce<T> {
    /// The value, if it was made.
    #[cfg(feature = "prometheus")]
    pub(crate) fn made(&self) -> Option<T> {
        // SAFETY: the pointer is null, or to a value that is never freed, nor changed.
        unsafe { self.value.load(Ordering::Acquire).as_ref() }.copied()
    }

    /// The value: the same each time, also where several threads make one at once.
    #[inline]
    pub(crate) fn get(&self, make: impl FnOnce() -> T) -> T {
        let value = self.value.load(Ordering::Acquire);
        if value.is_null() {
            return self.set(make());
        }
        // SAFETY: the pointer is to a value that is never freed, nor changed.
        unsafe { *value }
    }

    #[cold]
    fn set(&self, value: T) -> T {
        let made = Box::into_raw(Box::new(value));
        match self.value.compare_exchange(ptr::null_mut(), made, Ordering::AcqRel, Ordering::Acquire) {
            Ok(_) => value,
            // SAFETY: nobody else has the one pointer, and the other is as in `get`.
            Err(others) => unsafe {
                drop(Box::from_raw(made));
                *others
            },
        }
    }
}

#[cfg(test)]
mod tests {
    use super::MadeOnce;
    use std::sync::Barrier;
    use std::thread;

    #[test]
    fn eight_threads_that_make_it_at_once_get_one() {
        for _ in 0..100 {
            let (value, barrier) = (MadeOnce::new(), Barrier::new(8));
            let (value, barrier) = (&value, &barrier);
            let get = |number| {
                barrier.wait();
                value.get(|| number)
            };
            let got: Vec<usize> = thread::scope(|scope| {
                let threads: Vec<_> = (0..8).map(|number| scope.spawn(move || get(number))).collect();
                threads.into_iter().map(|thread| thread.join().unwrap()).collect()
            });
            assert!(got.iter().all(|number| *number == got[0]), "{got:?}");
            assert_eq!(value.get(|| 9), got[0]);
        }
    }
}

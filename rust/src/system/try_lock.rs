//! A lock for which nobody waits.

use std::cell::UnsafeCell;
use std::sync::atomic::{AtomicBool, Ordering};

/// A value that one thread at a time uses, and for which none waits.
#[derive(Default)]
pub(crate) struct TryLock<T> {
    is_used: AtomicBool,
    value: UnsafeCell<T>,
}

// SAFETY: it lends its value to one thread at a time.
unsafe impl<T: Send> Sync for TryLock<T> {}

impl<T> TryLock<T> {
    /// What the call gives, which has the value meanwhile; `None` where another thread uses it.
    #[inline]
    pub(crate) fn try_with<R>(&self, call: impl FnOnce(&mut T) -> R) -> Option<R> {
        if self.is_used.swap(true, Ordering::Acquire) {
            return None;
        }
        let _release = Release(&self.is_used);
        // SAFETY: nobody else found the flag unset, before it is unset again after this call.
        Some(call(unsafe { &mut *self.value.get() }))
    }

    pub(crate) fn into_inner(self) -> T {
        self.value.into_inner()
    }
}

/// Unsets the flag when it is dropped, also where a call panicked.
struct Release<'a>(&'a AtomicBool);

impl Drop for Release<'_> {
    #[inline]
    fn drop(&mut self) {
        self.0.store(false, Ordering::Release);
    }
}

#[cfg(test)]
mod tests {
    use super::TryLock;
    use std::panic::{catch_unwind, AssertUnwindSafe};

    #[test]
    fn a_value_that_is_used_is_refused_and_one_whose_call_panicked_is_not() {
        let lock = TryLock::<u32>::default();
        let inner = lock.try_with(|value| {
            *value += 1;
            lock.try_with(|value| *value)
        });
        assert_eq!(inner, Some(None));
        assert!(catch_unwind(AssertUnwindSafe(|| lock.try_with(|_| panic!("a call that panics")))).is_err());
        assert_eq!(lock.try_with(|value| *value), Some(1));
        assert_eq!(lock.into_inner(), 1);
    }
}

//! The functions that a retry calls at each failure.

use std::fmt;
use std::marker::PhantomData;
use std::sync::Arc;
use std::time::Duration;

/// The functions that a retry calls at each failure.
#[derive(Clone, Copy)]
pub struct Hooks<W, C, A, N> {
    pub(crate) when: W,
    pub(crate) code: C,
    pub(crate) retry_after: A,
    pub(crate) notify: N,
}

/// Hooks that retry every error, by the code 0.
pub type PlainHooks<E> = Hooks<NoHook<E>, NoHook<E>, NoHook<E>, NoHook<E>>;

/// In the place of a function that is not given: nothing is called.
pub struct NoHook<E>(PhantomData<fn(&E)>);

/// Hooks behind one pointer, so that you can name their type: see [`Retrying::shared`](crate::Retrying::shared).
pub struct SharedHooks<E>(Arc<dyn Hooked<E> + Send + Sync>);

/// Hooks for errors of this type.
pub trait Hooked<E>: sealed::Hooks {
    #[doc(hidden)]
    fn when(&self, error: &E) -> bool;
    #[doc(hidden)]
    fn code(&self, error: &E) -> u64;
    #[doc(hidden)]
    fn retry_after(&self, error: &E) -> Option<Duration>;
    #[doc(hidden)]
    fn notify(&self, error: &E, wait: Duration);
}

impl<E> NoHook<E> {
    const NONE: Self = Self(PhantomData);
}

impl<E> Clone for NoHook<E> {
    fn clone(&self) -> Self {
        *self
    }
}

impl<E> Copy for NoHook<E> {}

impl<E> PlainHooks<E> {
    #[inline]
    pub(crate) fn plain() -> Self {
        Self { when: NoHook::NONE, code: NoHook::NONE, retry_after: NoHook::NONE, notify: NoHook::NONE }
    }
}

/// What a hook answers: a function what it says, and a hook that is not given this.
macro_rules! hook {
    ($hook:ident: $call:ident($($name:ident: $of:ty),+) $(-> $answer:ty)?, $plain:expr) => {
        impl<E, F: Fn($($of),+) $(-> $answer)?> sealed::$hook<E> for F {
            #[inline]
            fn $call(&self, $($name: $of),+) $(-> $answer)? {
                self($($name),+)
            }
        }

        impl<E> sealed::$hook<E> for NoHook<E> {
            #[inline]
            fn $call(&self, $(_: $of),+) $(-> $answer)? {
                $plain
            }
        }
    };
}

hook!(When: when(error: &E) -> bool, true);
hook!(Code: code(error: &E) -> u64, 0);
hook!(RetryAfter: retry_after(error: &E) -> Option<Duration>, None);
hook!(Notify: notify(error: &E, wait: Duration), ());

impl<E, W, C, A, N> Hooked<E> for Hooks<W, C, A, N>
where
    W: sealed::When<E>,
    C: sealed::Code<E>,
    A: sealed::RetryAfter<E>,
    N: sealed::Notify<E>,
{
    #[inline]
    fn when(&self, error: &E) -> bool {
        self.when.when(error)
    }

    #[inline]
    fn code(&self, error: &E) -> u64 {
        self.code.code(error)
    }

    #[inline]
    fn retry_after(&self, error: &E) -> Option<Duration> {
        self.retry_after.retry_after(error)
    }

    #[inline]
    fn notify(&self, error: &E, wait: Duration) {
        self.notify.notify(error, wait);
    }
}

impl<E> SharedHooks<E> {
    pub(crate) fn new(hooks: impl Hooked<E> + Send + Sync + 'static) -> Self {
        Self(Arc::new(hooks))
    }
}

impl<E> Hooked<E> for SharedHooks<E> {
    fn when(&self, error: &E) -> bool {
        self.0.when(error)
    }

    fn code(&self, error: &E) -> u64 {
        self.0.code(error)
    }

    fn retry_after(&self, error: &E) -> Option<Duration> {
        self.0.retry_after(error)
    }

    fn notify(&self, error: &E, wait: Duration) {
        self.0.notify(error, wait);
    }
}

impl<E> Clone for SharedHooks<E> {
    fn clone(&self) -> Self {
        Self(self.0.clone())
    }
}

impl<W, C, A, N> fmt::Debug for Hooks<W, C, A, N> {
    fn fmt(&self, f: &mut fmt::Formatter<'_>) -> fmt::Result {
        f.debug_struct("Hooks").finish_non_exhaustive()
    }
}

impl<E> fmt::Debug for NoHook<E> {
    fn fmt(&self, f: &mut fmt::Formatter<'_>) -> fmt::Result {
        f.write_str("NoHook")
    }
}

impl<E> fmt::Debug for SharedHooks<E> {
    fn fmt(&self, f: &mut fmt::Formatter<'_>) -> fmt::Result {
        f.debug_struct("SharedHooks").finish_non_exhaustive()
    }
}

mod sealed {
    use std::time::Duration;

    /// Whether an error is retried.
    pub trait When<E> {
        fn when(&self, error: &E) -> bool;
    }

    /// The number of an error.
    pub trait Code<E> {
        fn code(&self, error: &E) -> u64;
    }

    /// How long an error asks to wait.
    pub trait RetryAfter<E> {
        fn retry_after(&self, error: &E) -> Option<Duration>;
    }

    /// Learns of an error that is retried after this wait.
    pub trait Notify<E> {
        fn notify(&self, error: &E, wait: Duration);
    }

    pub trait Hooks {}
    impl<W, C, A, N> Hooks for super::Hooks<W, C, A, N> {}
    impl<E> Hooks for super::SharedHooks<E> {}
}

//! Runs that follow each other without a wait.

use std::future::Future;
use std::pin::Pin;
use std::task::{Context, Poll};

/// After how many waits of zero the task lets others run.
const IN_A_ROW: u32 = 64;

/// Counts waits of zero. After each [`IN_A_ROW`] of them the task lets its executor run others, or end it: if all its
/// runs fail at once, nothing else would.
#[derive(Debug, Default)]
pub(crate) struct InARow(u32);

impl InARow {
    /// One more: whether others run first.
    #[inline]
    pub(crate) fn is_over(&mut self) -> bool {
        self.0 = (self.0 + 1) % IN_A_ROW;
        self.0 == 0
    }
}

/// Lets others run.
pub(crate) fn yields() -> Yields {
    Yields { has_yielded: false }
}

/// The future of [`yields`].
pub(crate) struct Yields {
    has_yielded: bool,
}

impl Future for Yields {
    type Output = ();

    fn poll(mut self: Pin<&mut Self>, cx: &mut Context<'_>) -> Poll<()> {
        if self.has_yielded {
            return Poll::Ready(());
        }
        self.has_yielded = true;
        cx.waker().wake_by_ref();
        Poll::Pending
    }
}

//! What a call tells of its course, where nobody hears it: nothing.

use crate::limits::grants::Limit;
use crate::retry::machine::Ending;
use crate::retry::options::Options;
use crate::retry::progress::Progress;
use std::future::Future;
use std::time::Duration;

/// Nothing.
pub(crate) struct Course;

impl Course {
    #[inline(always)]
    pub(crate) fn begun(_: &Options) -> Self {
        Self
    }

    #[cfg(feature = "tower")]
    #[inline(always)]
    pub(crate) fn within<T>(&self, part: impl FnOnce() -> T) -> T {
        part()
    }

    #[inline(always)]
    pub(crate) fn run<T>(&mut self, run: impl FnOnce() -> T) -> T {
        run()
    }

    #[inline(always)]
    pub(crate) fn run_of<P: Future>(&mut self, run: P) -> impl Future<Output = P::Output> {
        run
    }

    #[inline(always)]
    pub(crate) fn waits(&self, _: Duration) {}

    #[inline(always)]
    pub(crate) fn is_late(&self, _: Duration) {}

    #[inline(always)]
    pub(crate) fn won(&mut self) {}

    #[inline(always)]
    pub(crate) fn gave_up(&mut self, _: Ending, _: &Progress<'_>, _: &dyn Limit) {}

    #[inline(always)]
    pub(crate) fn not_admitted(&mut self, _: &'static str, _: &dyn Limit) {}
}

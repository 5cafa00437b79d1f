//! What a call holds of a limit that it asked before its first run.

use crate::engine::Seen;
use crate::limits::call_limit::{Admitted, CallLimit, Request};
use crate::limits::grants::{Held, Limit};
use crate::limits::refused::Refused;
use crate::system::{generation, is_generation};
use std::sync::Arc;

/// What a call holds of a limit that it asked before its first run.
#[derive(Debug, Default)]
pub enum Holding {
    /// Nothing, of a limit that is not asked.
    #[default]
    Nothing,
    /// The limit was quiet.
    Quiet(Quiet),
    /// A request.
    Admitted(Request),
}

/// What a look saw that found the limit quiet, which admits a call, and the process that looked.
#[derive(Clone, Copy, Debug)]
pub struct Quiet {
    pub(crate) seen: Seen,
    generation: u64,
}

impl Quiet {
    #[inline]
    pub(crate) fn of(seen: Seen) -> Self {
        Self { seen, generation: generation() }
    }

    #[inline]
    pub(crate) fn is_of_this_process(&self) -> bool {
        is_generation(self.generation)
    }
}

impl Holding {
    /// Looks at the limit, and asks it where it is not quiet.
    #[inline]
    pub(crate) fn ask(&mut self, limit: &CallLimit) -> Result<(), Refused> {
        match limit.look() {
            Some(quiet) => {
                *self = Self::Quiet(quiet);
                Ok(())
            }
            None => self.ask_for_a_request(limit),
        }
    }

    #[inline(never)]
    fn ask_for_a_request(&mut self, limit: &CallLimit) -> Result<(), Refused> {
        *self = Self::Admitted(limit.admitted()?);
        Ok(())
    }
}

impl Held for Holding {
    #[inline]
    fn succeeded(&mut self, limit: &(impl Limit + ?Sized)) -> bool {
        match (self, limit.call_limit()) {
            (Self::Quiet(quiet), Some(limit)) => limit.settle(quiet),
            (Self::Admitted(request), _) => request.succeeded(),
            (Self::Quiet(_) | Self::Nothing, _) => return false,
        }
        true
    }

    fn parted(self) -> (Option<Quiet>, Option<Arc<Admitted>>) {
        match self {
            Self::Nothing => (None, None),
            Self::Quiet(quiet) => (Some(quiet), None),
            Self::Admitted(request) => (None, Some(Admitted::of(request))),
        }
    }
}

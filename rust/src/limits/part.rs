//! The passes of a budget or a quota: the first one, and those that are split off it.

use crate::engine::{Handle, PassKind, Status};
use crate::limits::error::LimitError;
use crate::limits::lender::Lender;
use crate::limits::shards::Shards;
use crate::limits::ticket::Drawer;
use crate::system::{generation, lock};
use std::sync::{Mutex, MutexGuard, PoisonError};

/// The passes of a budget or a quota in one process.
pub(crate) struct Passes<T> {
    /// The first one, which others are split off and joined into.
    root: Mutex<Lender>,
    /// What threads have of it, each for some of them.
    pub(crate) own: Shards<T>,
}

impl<T> Passes<T> {
    pub(crate) fn of(root: Handle<PassKind>) -> Self {
        Self { root: Mutex::new(Lender::of(root)), own: Shards::default() }
    }

    #[inline]
    pub(crate) fn root(&self) -> MutexGuard<'_, Lender> {
        lock(&self.root)
    }

    /// The first one, with all that threads have.
    pub(crate) fn joined(self, pass_of: impl Fn(T) -> Handle<PassKind>) -> Handle<PassKind> {
        let mut root = self.root.into_inner().unwrap_or_else(PoisonError::into_inner).into_pass();
        self.own.into_values().for_each(|own| root.join(pass_of(own)));
        root
    }
}

/// A limit that has a first pass, which others are split off and joined into.
pub(crate) trait Root {
    /// Lends the first pass to one call.
    fn with<T>(&self, call: impl FnOnce(&mut Handle<PassKind>) -> T) -> T;
}

/// A pass that was split off a limit's first one. Dropped, it is joined into that again.
#[derive(Debug)]
pub(crate) struct Part<R: Root> {
    pub(crate) limit: R,
    /// `None` only while it is dropped.
    handle: Option<Handle<PassKind>>,
    /// By which its tickets are known.
    pub(crate) drawer: Drawer,
    /// The tickets that it drew, and that did not come back.
    pub(crate) tickets: u64,
    /// The process that it is of.
    generation: u64,
}

impl<R: Root> Part<R> {
    pub(crate) fn new(limit: R) -> Result<Self, LimitError> {
        let handle = Some(split(&limit).map_err(LimitError::of)?);
        Ok(Self { limit, handle, drawer: Drawer::new(), tickets: 0, generation: generation() })
    }

    /// The pass of this process: in a forked child a new one, with nothing drawn.
    pub(crate) fn handle(&mut self) -> &mut Handle<PassKind> {
        if !self.is_of_this_process() {
            std::mem::forget(self.handle.take());
            self.handle = Some(split(&self.limit).expect("memory for a pass"));
            (self.drawer, self.tickets, self.generation) = (Drawer::new(), 0, generation());
        }
        self.handle.as_mut().expect("a pass has its handle until it is dropped")
    }

    /// Whether its tickets were drawn by this process.
    pub(crate) fn is_of_this_process(&self) -> bool {
        self.generation == generation()
    }
}

fn split(limit: &impl Root) -> Result<Handle<PassKind>, Status> {
    limit.with(Handle::<PassKind>::split)
}

impl<R: Root> Drop for Part<R> {
    fn drop(&mut self) {
        match self.handle.take() {
            Some(handle) if self.is_of_this_process() => self.limit.with(|root| root.join(handle)),
            // (in a forked child it is the parent's)
            handle => std::mem::forget(handle),
        }
    }
}

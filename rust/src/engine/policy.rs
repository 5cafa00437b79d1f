//! Policies of the engine, and the storms that they play.

use super::sys::*;
use super::{text, Handle, Kind, Status};
use std::{iter, mem};

/// The kind of a policy.
#[derive(Debug)]
pub(crate) enum PolicyKind {}

impl Kind for PolicyKind {
    const FREE: unsafe extern "C" fn(*mut Raw) -> u32 = hikebox_policy_free;
}

impl Handle<PolicyKind> {
    /// The policy that the text spells, or its first fault, and where that is if the text is not JSON.
    pub(crate) fn read(json: &str) -> Result<Self, (Status, Place)> {
        let mut place = Place::default();
        let read = Self::filled(|policy| unsafe { hikebox_policy_read(json.as_ptr(), json.len(), policy, &mut place) });
        read.map_err(|status| (status, place))
    }

    /// The policy of the node of this name with these numbers, over these policies, of which there are two at most.
    pub(crate) fn node(name: &str, numbers: &[u64], over: &mut [Self]) -> Result<Self, Status> {
        let (mut none, mut neither, mut over) = (Raw::EMPTY, Raw::EMPTY, over.iter_mut().map(Self::raw));
        let first = over.next().unwrap_or(&mut none);
        let second = over.next().unwrap_or(&mut neither);
        Self::filled(|made| unsafe {
            hikebox_policy_node(name.as_ptr(), name.len(), numbers.as_ptr(), numbers.len(), first, second, made)
        })
    }

    /// A second handle to the same policy.
    pub(crate) fn share(&mut self) -> Result<Self, Status> {
        Self::filled(|other| unsafe { hikebox_policy_share(self.raw(), other) })
    }

    /// Its JSON, without spaces.
    pub(crate) fn json(&mut self) -> Result<String, Status> {
        text(64, |text, room, length| unsafe { hikebox_policy_json(self.raw(), text, room, length) })
    }

    pub(crate) fn size(&mut self) -> Size {
        let (mut nodes, mut depth, mut most) = (0, 0, 0);
        let status = unsafe { hikebox_policy_size(self.raw(), &mut nodes, &mut depth, &mut most) };
        debug_assert_eq!(status, OK);
        Size { nodes, depth, most: (most != NO_BOUND).then_some(most) }
    }

    /// Whether a node of it reads a random word.
    pub(crate) fn reads_words(&mut self) -> bool {
        let mut reads = 0;
        let status = unsafe { hikebox_policy_reads(self.raw(), &mut reads) };
        debug_assert_eq!(status, OK);
        reads & !READS_INPUT != 0
    }

    /// What it does along a course.
    pub(crate) fn course(&mut self, course: &Course, events: &[Event]) -> Result<Vec<Line>, Status> {
        let (mut lines, mut told) = (vec![Line::default(); course.steps as usize], 0);
        let (given, count) = (events.as_ptr(), events.len());
        Status::of(unsafe {
            hikebox_policy_course(self.raw(), course, given, count, lines.as_mut_ptr(), lines.len(), &mut told)
        })?;
        lines.truncate(told);
        Ok(lines)
    }

    /// The outputs of these lines of it, one after another. The engine computes the course again.
    pub(crate) fn outputs(&mut self, course: &Course, events: &[Event], lines: &[Line]) -> Result<String, Status> {
        let bytes = lines.last().map_or(1, |line| line.text_to as usize);
        text(bytes, |text, room, length| unsafe {
            hikebox_policy_outputs(self.raw(), course, events.as_ptr(), events.len(), text, room, length)
        })
    }

    /// Plays a storm under it, and under these policies of the populations beside the first one, of which there are three
    /// at most. Requests come at these moments, or by the storm's rates where there are none. Its report is of at most so
    /// many windows. What it answers is the windows that there are, and the totals.
    pub(crate) fn play(
        &mut self,
        others: &mut [Self],
        storm: &Storm,
        arrivals: &[u64],
        room: usize,
    ) -> Result<(Vec<Window>, Totals), Status> {
        let mut totals = Totals { size: mem::size_of::<Totals>(), ..Totals::default() };
        let mut windows = vec![Window::default(); room];
        let mut policies = [Raw::EMPTY; 4];
        let mut exchange = |policies: &mut Policies| {
            for (policy, held) in policies.iter_mut().zip(iter::once(&mut *self).chain(&mut *others)) {
                mem::swap(policy, &mut held.raw);
            }
        };
        exchange(&mut policies);
        let status = unsafe {
            hikebox_storm_play_populations(
                &mut policies,
                storm,
                arrivals.as_ptr(),
                arrivals.len(),
                windows.as_mut_ptr(),
                windows.len(),
                &mut totals,
            )
        };
        exchange(&mut policies);
        Status::of(status)?;
        windows.truncate(totals.windows as usize);
        Ok((windows, totals))
    }
}

impl Storm {
    /// One whose numbers are all 0: it draws on nothing, and has no phase and no population beside the first one.
    pub(crate) fn zeroed() -> Self {
        // SAFETY: it is numbers alone.
        unsafe { mem::zeroed() }
    }
}

/// How many nodes a policy has, how deep it is, and at how many events it goes on at most, where its nodes tell.
#[derive(Clone, Copy, Debug)]
pub(crate) struct Size {
    pub(crate) nodes: u64,
    pub(crate) depth: u64,
    pub(crate) most: Option<u64>,
}

/// What is wrong with a text that is no policy, and where.
pub(crate) fn fault(json: &str) -> Result<String, Status> {
    text(64, |text, room, length| unsafe { hikebox_policy_fault(json.as_ptr(), json.len(), text, room, length) })
}

//! Passes of which retries have parts.

use crate::engine::{Handle, PassKind, RetryKind, Status};
use crate::policy::Policy;
use std::cell::RefCell;
use std::mem;

/// A pass of which retries have parts, and one of them that is over: the next one by its policy takes its place, with no
/// memory and no lock of the policy. It is the first that ended, as long as anybody has its policy.
#[derive(Debug)]
pub(crate) struct Lender {
    pub(crate) pass: Handle<PassKind>,
    over: Begun,
    /// The tickets of retries that ended here, less those that ended into the pass. (A retry may end at another lender
    /// than the one before in its place, so this may be less than 0: it is modulo 2^64.)
    apart: u64,
}

/// A retry of the engine, and the policy that it goes by; or neither.
#[derive(Debug)]
pub struct Begun {
    policy: Option<Policy>,
    pub(crate) handle: Handle<RetryKind>,
    /// The tickets that its part of the pass has of retries that are over.
    tickets: u64,
}

thread_local! {
    /// The thread's, of nothing; empty before the first retry.
    static NOTHING: RefCell<Lender> = const { RefCell::new(Lender::of(Handle::EMPTY)) };
}

impl Begun {
    pub(crate) const EMPTY: Self = Self { policy: None, handle: Handle::EMPTY, tickets: 0 };

    fn is_by(&self, policy: &Policy) -> bool {
        matches!(&self.policy, Some(own) if own.is(policy))
    }

    /// Whether nobody else has its policy.
    fn is_left(&self) -> bool {
        self.policy.as_ref().map_or(false, Policy::is_last)
    }

    /// Gives its pass back to this one, and is none then.
    fn end(&mut self, pass: &mut Handle<PassKind>) {
        self.handle.end(pass);
        *self = Self::EMPTY;
    }
}

impl Lender {
    pub(crate) const fn of(pass: Handle<PassKind>) -> Self {
        Self { pass, over: Begun::EMPTY, apart: 0 }
    }

    /// A retry by this policy is put here, where none is, with a deadline or `NO_DEADLINE`.
    #[inline]
    pub(crate) fn begin(&mut self, policy: &Policy, deadline: u64, retry: &mut Begun) -> Result<(), Status> {
        if self.over.is_by(policy) {
            self.over.handle.again(deadline);
            mem::swap(&mut self.over, retry);
            return Ok(());
        }
        self.begin_another(policy, deadline, retry)
    }

    #[cold]
    fn begin_another(&mut self, policy: &Policy, deadline: u64, retry: &mut Begun) -> Result<(), Status> {
        policy.with(|policy| retry.handle.begin(policy, &mut self.pass, deadline))?;
        retry.policy = Some(policy.clone());
        Ok(())
    }

    /// Takes back what a retry has, which is over or dropped, and was granted so many tickets. It keeps its part of the
    /// pass, for the next one in its place.
    #[inline]
    pub(crate) fn end(&mut self, retry: &mut Begun, granted: u64) {
        retry.tickets += granted;
        self.apart = self.apart.wrapping_add(granted);
        if !self.over.handle.is_empty() {
            self.end_one(retry);
        } else {
            mem::swap(&mut self.over, retry);
        }
    }

    /// The same where it keeps one already: that ends, where nobody else has its policy.
    #[cold]
    fn end_one(&mut self, retry: &mut Begun) {
        if self.over.is_left() {
            mem::swap(&mut self.over, retry);
        }
        self.apart = self.apart.wrapping_sub(retry.tickets);
        retry.end(&mut self.pass);
    }

    /// The same of one on a quota, which has its latest ticket back.
    pub(crate) fn end_returning(&mut self, retry: &mut Begun, granted: u64) {
        let mut part = match self.pass.split() {
            Ok(part) => part,
            Err(_) => return self.end(retry, granted),
        };
        self.apart = self.apart.wrapping_sub(retry.tickets);
        // (the latest ticket of a pass of its own is the retry's)
        retry.end(&mut part);
        part.hand_back();
        self.pass.join(part);
    }

    /// The tickets that its pass has, and those of retries that ended here.
    pub(crate) fn granted(&mut self) -> u64 {
        self.pass.count().wrapping_add(self.apart)
    }

    /// The pass, with what retries that are over have.
    pub(crate) fn into_pass(self) -> Handle<PassKind> {
        let Self { mut pass, mut over, .. } = self;
        if !over.handle.is_empty() {
            over.end(&mut pass);
        }
        pass
    }

    /// The same where it draws on nothing.
    pub(crate) fn begin_on_nothing(policy: &Policy, deadline: u64, retry: &mut Begun) -> Result<(), Status> {
        let mut own = |nothing: &RefCell<Self>| {
            let mut nothing = nothing.borrow_mut();
            // (where it is refused it is the thread's first, or 2^42 retries have each a part of the pass)
            nothing.begin(policy, deadline, retry).or_else(|_| {
                *nothing = Self::of(Handle::unlimited()?);
                nothing.begin(policy, deadline, retry)
            })
        };
        // (where the thread ends it has none)
        NOTHING.try_with(&mut own).unwrap_or_else(|_| own(&RefCell::new(Self::of(Handle::EMPTY))))
    }

    /// Takes back what one has that drew on nothing.
    pub(crate) fn end_on_nothing(retry: &mut Begun) {
        // (where the thread ends, it is freed)
        let _ = NOTHING.try_with(|nothing| nothing.borrow_mut().end(retry, 0));
    }
}

#[cfg(test)]
mod tests {
    use super::{Begun, Lender};
    use crate::engine::{Handle, Next, Run, LOST, NO_DEADLINE};
    use crate::policy::Policy;

    /// A failure at moment 0: how many tickets its retry was granted.
    fn fails(retry: &mut Begun) -> u64 {
        let (run, mut told) = (Run { began: 0, ended: 0, code: 0, report: LOST, words: [0; 4] }, Next::NOTHING);
        assert!(retry.handle.ran(&run, &mut told));
        told.granted
    }

    #[test]
    fn tickets_of_retries_that_are_over_count_wherever_the_next_ones_end() {
        let policy: Policy = r#"{"recurs":9}"#.parse().unwrap();
        let mut root = Handle::fixed(9).unwrap();
        let mut lenders = [(); 2].map(|()| Lender::of(root.split().unwrap()));
        // the first fails once and ends at the first lender, where the second takes its place
        let [mut first, mut second, mut third] = [Begun::EMPTY, Begun::EMPTY, Begun::EMPTY];
        lenders[0].begin(&policy, NO_DEADLINE, &mut first).unwrap();
        assert_eq!(fails(&mut first), 1);
        lenders[0].end(&mut first, 1);
        lenders[0].begin(&policy, NO_DEADLINE, &mut second).unwrap();
        assert_eq!(fails(&mut second), 1);
        assert_eq!(lenders[0].granted(), 1);
        // the second lender keeps a third, so that the second retry ends into its pass, with the ticket of the first
        lenders[1].begin(&policy, NO_DEADLINE, &mut third).unwrap();
        assert_eq!((fails(&mut third), fails(&mut third)), (1, 2));
        lenders[1].end(&mut third, 2);
        lenders[1].end(&mut second, 1);
        assert!(second.handle.is_empty());
        assert_eq!(lenders.iter_mut().map(Lender::granted).collect::<Vec<_>>(), [1, 3]);
        for lender in lenders {
            root.join(lender.into_pass());
        }
        assert_eq!(root.close(), Ok(4));
    }

    #[test]
    fn a_retry_that_is_over_is_kept_as_long_as_anybody_has_its_policy() {
        let [first, second]: [Policy; 2] = [r#"{"recurs":1}"#, r#"{"recurs":2}"#].map(|json| json.parse().unwrap());
        let mut lender = Lender::of(Handle::fixed(1).unwrap());
        let mut goes_by = |policy: &Policy| {
            let mut retry = Begun::EMPTY;
            lender.begin(policy, NO_DEADLINE, &mut retry).unwrap();
            assert!(retry.is_by(policy));
            lender.end(&mut retry, 0);
            (lender.over.is_by(&first.clone()), lender.over.is_by(policy), retry.handle.is_empty())
        };
        assert_eq!(goes_by(&first), (true, true, true));
        assert_eq!(goes_by(&second), (true, false, true));
        assert_eq!(goes_by(&first.clone()), (true, true, true));
        drop(first);
        let mut retry = Begun::EMPTY;
        lender.begin(&second, NO_DEADLINE, &mut retry).unwrap();
        lender.end(&mut retry, 0);
        assert!(lender.over.is_by(&second));
        assert_eq!(lender.into_pass().close(), Ok(0));
    }
}

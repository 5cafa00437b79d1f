//! What a retry goes by, of whatever kind.

use crate::limits::grants::Limit;
use crate::policy::Policy;
use crate::retry::options::Options;
use std::borrow::Cow;
use std::fmt;
use std::sync::Arc;

/// What a retry goes by.
#[derive(Clone)]
pub(crate) struct Rules<'a> {
    pub(crate) policy: Cow<'a, Policy>,
    pub(crate) limit: CowLimit<'a>,
    pub(crate) options: Options,
}

/// What a retry draws on.
#[derive(Clone)]
pub(crate) enum CowLimit<'a> {
    Borrowed(&'a dyn Limit),
    Owned(Arc<dyn Limit>),
}

impl CowLimit<'_> {
    #[inline]
    pub(crate) fn get(&self) -> &dyn Limit {
        match self {
            Self::Borrowed(limit) => *limit,
            Self::Owned(limit) => &**limit,
        }
    }
}

impl fmt::Debug for CowLimit<'_> {
    fn fmt(&self, f: &mut fmt::Formatter<'_>) -> fmt::Result {
        self.get().source().fmt(f)
    }
}

impl<'a> Rules<'a> {
    /// Those by this policy on this limit, with no options.
    #[inline]
    pub(crate) fn new(policy: &'a Policy, limit: &'a dyn Limit) -> Self {
        let (policy, limit) = (Cow::Borrowed(policy), CowLimit::Borrowed(limit));
        Self { policy, limit, options: Options::default() }
    }

    /// The same, with a policy and a limit of their own.
    pub(crate) fn into_owned(self) -> Rules<'static> {
        let limit = match self.limit {
            CowLimit::Borrowed(limit) => limit.source().shared(),
            CowLimit::Owned(limit) => limit,
        };
        Rules { policy: Cow::Owned(self.policy.into_owned()), limit: CowLimit::Owned(limit), options: self.options }
    }

    /// What it draws on.
    #[inline]
    pub(crate) fn limit(&self) -> &dyn Limit {
        self.limit.get()
    }
}

//! A limit for each key.

use crate::limits::call_limit::CallLimit;
use crate::limits::error::LimitError;
use crate::limits::grants::{AnyLimit, Tickets, Unlimited};
use crate::paces::Pace;
use crate::system::{lock, PerProcess};
use std::borrow::Borrow;
use std::collections::HashMap;
use std::fmt;
use std::hash::Hash;
use std::sync::{Arc, Mutex, MutexGuard};

/// A limit for each key, such as a host, a tenant or an item. [`of`](PerKey::of) makes the limit of a key at first, and
/// returns the same one from then on, in all threads.
///
/// ```
/// use hikebox::{retry, PerKey, Policy, Quota};
/// use std::time::Duration;
///
/// let policy: Policy = r#"{"recurs":3}"#.parse()?;
/// let per_tenant = PerKey::new(|_: &String| Quota::new(10, 0.1, Duration::from_secs(3600)));
/// for tenant in ["ours", "theirs", "ours"] {
///     let item = retry(&policy, &per_tenant.of(tenant)?, || Ok::<_, &str>(7));
///     assert_eq!(item, Ok(7));
/// }
/// assert_eq!((per_tenant.of("ours")?.seen().asked, per_tenant.len()), (2, 2));
/// # Ok::<(), Box<dyn std::error::Error>>(())
/// ```
///
/// It keeps 10,000 limits; [`keeping`](PerKey::keeping) says how many. When there are more, those go that were used
/// least recently, an eighth of them at once. A limit that is in use stays: while somebody has a clone of it, as a call
/// has that is under way. A forked child begins with none.
pub struct PerKey<K, L> {
    make: Box<Make<K, L>>,
    most: usize,
    kept: PerProcess<Mutex<Kept<K, L>>>,
}

type Make<K, L> = dyn Fn(&K) -> Result<L, LimitError> + Send + Sync;

/// What a [`PerKey`] keeps: a [`Budget`](crate::Budget), a [`Quota`](crate::Quota), a [`CallLimit`], an [`AnyLimit`],
/// an `Arc` of your own store of [`Tickets`], or a [`Pace`]; with the feature `leased` also `Leased` and `LeasedQuota`.
/// The trait is sealed.
pub trait Keyed: Counted + Clone + Send + Sync {}

mod sealed {
    /// What is shared by its clones.
    pub trait Counted {
        /// How many clones there are, with this one.
        fn clones(&self) -> usize;
    }
}

pub(crate) use sealed::Counted;

impl Keyed for CallLimit {}
impl Keyed for AnyLimit {}
impl Keyed for Pace {}
impl<S: Tickets + ?Sized> Keyed for Arc<S> {}

impl<S: ?Sized> Counted for Arc<S> {
    fn clones(&self) -> usize {
        Self::strong_count(self)
    }
}

impl Counted for AnyLimit {
    fn clones(&self) -> usize {
        self.get().clones()
    }
}

impl Counted for Unlimited {
    fn clones(&self) -> usize {
        1
    }
}

/// How many limits are kept where nothing else is said.
const MOST: usize = 10_000;

struct Kept<K, L> {
    limits: HashMap<K, One<L>>,
    /// How often a limit was used.
    uses: u64,
    /// How many limits there are when some have to go.
    full: usize,
}

struct One<L> {
    limit: L,
    /// The count of uses when it was used last.
    last_use: u64,
}

impl<K: Eq + Hash, L: Keyed> PerKey<K, L> {
    /// A limit for each key, made by this. What it returns as an error is that of [`of`](PerKey::of), and the next one
    /// who asks for the key calls it again. Threads that ask for a new key at once may each call it; they all get the
    /// limit of one.
    #[must_use]
    pub fn new(make: impl Fn(&K) -> Result<L, LimitError> + Send + Sync + 'static) -> Self {
        Self { make: Box::new(make), most: MOST, kept: PerProcess::new(Mutex::default()) }
    }

    /// Keeps so many limits, at least one.
    #[must_use]
    pub fn keeping(mut self, most: usize) -> Self {
        self.most = most.max(1);
        self
    }

    /// The limit of this key.
    ///
    /// # Errors
    ///
    /// As of the function that makes it.
    pub fn of<Q>(&self, key: &Q) -> Result<L, LimitError>
    where
        K: Borrow<Q>,
        Q: Eq + Hash + ToOwned<Owned = K> + ?Sized,
    {
        let found = self.kept().found(key);
        if let Some(limit) = found {
            return Ok(limit);
        }
        let key = key.to_owned();
        let limit = (self.make)(&key)?;
        Ok(self.kept().keep(key, limit, self.most))
    }

    /// How many limits there are.
    #[must_use]
    pub fn len(&self) -> usize {
        self.kept().limits.len()
    }

    /// Whether there is none.
    #[must_use]
    pub fn is_empty(&self) -> bool {
        self.len() == 0
    }

    /// The keys that have a limit now, each with it, in no order.
    #[must_use]
    pub fn to_vec(&self) -> Vec<(K, L)>
    where
        K: Clone,
    {
        self.kept().limits.iter().map(|(key, one)| (key.clone(), one.limit.clone())).collect()
    }
}

impl<K, L> PerKey<K, L> {
    fn kept(&self) -> MutexGuard<'_, Kept<K, L>> {
        lock(self.kept.get(Mutex::default))
    }
}

impl<K: Eq + Hash, L: Keyed> Kept<K, L> {
    /// The limit of a key, which is used.
    fn found<Q: Eq + Hash + ?Sized>(&mut self, key: &Q) -> Option<L>
    where
        K: Borrow<Q>,
    {
        let one = self.limits.get_mut(key)?;
        self.uses += 1;
        one.last_use = self.uses;
        Some(one.limit.clone())
    }

    /// The limit of a key that had none: this one, unless another thread was first.
    fn keep(&mut self, key: K, limit: L, most: usize) -> L {
        if let Some(first) = self.found(&key) {
            return first;
        }
        if self.limits.len() >= self.full.max(most) {
            self.make_room(most);
        }
        self.uses += 1;
        self.limits.insert(key, One { limit: limit.clone(), last_use: self.uses });
        limit
    }

    /// Lets those go that were used least recently, of those that are not in use now: what is above the most, with one
    /// more, or an eighth of the most.
    fn make_room(&mut self, most: usize) {
        let mut uses: Vec<u64> = self.limits.values().filter(|one| !one.is_in_use()).map(|one| one.last_use).collect();
        uses.sort_unstable();
        let going = (self.limits.len() + 1 - most).max(most / 8);
        if let Some(last) = uses.get(going - 1).or(uses.last()).copied() {
            self.limits.retain(|_, one| one.last_use > last || one.is_in_use());
        }
        // (where most are in use it looks again when there are an eighth more)
        let left = self.limits.len();
        self.full = if left < most { most } else { left + left / 8 + 1 };
    }
}

impl<L: Keyed> One<L> {
    /// Whether somebody has a clone of it. Nobody gets one meanwhile where nobody has.
    fn is_in_use(&self) -> bool {
        self.limit.clones() > 1
    }
}

impl<K, L> Default for Kept<K, L> {
    fn default() -> Self {
        Self { limits: HashMap::new(), uses: 0, full: 0 }
    }
}

impl<K, L> fmt::Debug for PerKey<K, L> {
    fn fmt(&self, f: &mut fmt::Formatter<'_>) -> fmt::Result {
        let limits = self.kept().limits.len();
        f.debug_struct("PerKey").field("limits", &limits).field("most", &self.most).finish_non_exhaustive()
    }
}

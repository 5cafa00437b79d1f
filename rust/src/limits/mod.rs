//! Limits: what retries draw their tickets on.

pub(crate) mod budget;
pub(crate) mod call_limit;
mod changes;
pub(crate) mod error;
pub(crate) mod grants;
pub(crate) mod holding;
pub(crate) mod lender;
pub(crate) mod part;
pub(crate) mod per_key;
pub(crate) mod quota;
pub(crate) mod refused;
mod seen;
mod shards;
pub(crate) mod terms;
pub(crate) mod ticket;

pub use budget::{Budget, Pass};
pub use call_limit::{both, CallLimit, Request};
pub use changes::BreakerState;
pub use error::LimitError;
pub use grants::{AnyLimit, Grants, MayRefuse, Tickets, Unlimited};
pub use per_key::{Keyed, PerKey};
pub use quota::{Quota, QuotaPass, Usage};
pub use refused::{RefusalReason, Refused};
pub use seen::LimitState;
pub use terms::{Adaptive, Breaker, Bucket, InFlight, Terms, Throttle};
pub use ticket::{NoTicket, StoreFailure, Ticket};

//! The library's calls, structs and numbers, as `include/hikebox.h` declares them: tests/bindings.py of the repository
//! compares them.

use std::ffi::c_void;
use std::ptr;

/// A place for something that the engine owns: empty, or filled by a call.
#[repr(C)]
#[derive(Debug)]
pub(crate) struct Raw {
    pub(super) held: *mut c_void,
}

impl Raw {
    pub(super) const EMPTY: Self = Self { held: ptr::null_mut() };
}

#[repr(C)]
#[derive(Clone, Copy, Debug, Default)]
pub(crate) struct Place {
    pub(crate) line: u64,
    pub(crate) column: u64,
}

#[repr(C)]
#[derive(Clone, Copy, Debug)]
pub(crate) struct Course {
    pub(crate) size: usize,
    pub(crate) steps: u64,
    pub(crate) from: u64,
    pub(crate) took: u64,
}

#[repr(C)]
#[derive(Clone, Copy, Debug)]
pub(crate) struct Event {
    pub(crate) input: u64,
    pub(crate) words: [u32; 4],
}

#[repr(C)]
#[derive(Clone, Copy, Debug, Default)]
pub(crate) struct Line {
    pub(crate) moment: u64,
    pub(crate) start: u64,
    pub(crate) text_to: u64,
    pub(crate) goes_on: bool,
}

#[repr(C)]
#[derive(Clone, Copy, Debug, Default)]
pub(crate) struct Next {
    pub(crate) size: usize,
    pub(crate) what: u32,
    pub(crate) how: u32,
    pub(crate) until: u64,
    pub(crate) granted: u64,
    pub(crate) runs: u64,
    pub(crate) left: u64,
}

/// A whole run of a retry: when it began and ended, how that is reported, and the random words of the step that follows.
#[repr(C)]
#[derive(Clone, Copy, Debug)]
pub(crate) struct Run {
    pub(crate) began: u64,
    pub(crate) ended: u64,
    pub(crate) code: u64,
    pub(crate) report: u32,
    pub(crate) words: [u32; 4],
}

#[repr(C)]
#[derive(Clone, Copy, Debug, Default)]
pub(crate) struct Used {
    pub(crate) size: usize,
    pub(crate) window: u64,
    pub(crate) asked: u64,
    pub(crate) given: u64,
    pub(crate) left: u64,
    pub(crate) next: u64,
}

/// What a store keeps of a budget or a quota.
#[cfg(feature = "leased")]
#[repr(C)]
#[derive(Clone, Copy, Debug, Default)]
pub(crate) struct Stored {
    pub(crate) window: u64,
    pub(crate) given: u64,
    pub(crate) asked: u64,
}

/// What is asked of a store.
#[cfg(feature = "leased")]
#[repr(C)]
#[derive(Clone, Copy, Debug, Default)]
pub(crate) struct Asking {
    pub(crate) window: u64,
    pub(crate) told: u64,
    pub(crate) wanted: u64,
}

#[cfg(feature = "leased")]
#[repr(C)]
#[derive(Clone, Copy, Debug, Default)]
pub(crate) struct Range {
    pub(crate) first: u64,
    pub(crate) tickets: u64,
}

/// A ticket of a leased pass.
#[cfg(feature = "leased")]
#[repr(C)]
#[derive(Clone, Copy, Debug, Default)]
pub(crate) struct Ticket {
    pub(crate) window: u64,
    pub(crate) number: u64,
}

/// What a store granted.
#[cfg(feature = "leased")]
#[repr(C)]
#[derive(Clone, Copy, Debug, Default)]
pub(crate) struct Grant {
    pub(crate) window: u64,
    pub(crate) first: u64,
    pub(crate) tickets: u64,
    pub(crate) until: u64,
}

/// A bucket, in thousandths of a token.
#[repr(C)]
#[derive(Clone, Copy, Debug, Default)]
pub(crate) struct BucketTerms {
    pub(crate) size: usize,
    pub(crate) capacity: u64,
    pub(crate) floor: u64,
    pub(crate) debit: u64,
    pub(crate) credit: u64,
    pub(crate) refund: bool,
}

/// The words that a look at limits saw.
#[repr(C)]
#[derive(Clone, Copy, Debug, Default)]
pub(crate) struct Seen {
    pub(crate) first: u64,
    pub(crate) second: u64,
    pub(crate) third: u64,
    pub(crate) fourth: u64,
}

/// An adaptive limit.
#[repr(C)]
#[derive(Clone, Copy, Debug, Default)]
pub(crate) struct AdaptiveTerms {
    pub(crate) size: usize,
    pub(crate) least: u64,
    pub(crate) most: u64,
    pub(crate) first: u64,
    pub(crate) backoff: u64,
}

/// A breaker without its open times.
#[repr(C)]
#[derive(Clone, Copy, Debug, Default)]
pub(crate) struct BreakerTerms {
    pub(crate) size: usize,
    pub(crate) failures: u64,
    pub(crate) probes: u64,
    pub(crate) deadline: u64,
    pub(crate) results: u64,
}

/// A limit's state.
#[repr(C)]
#[derive(Clone, Copy, Debug, Default)]
pub(crate) struct State {
    pub(crate) size: usize,
    pub(crate) kind: u64,
    pub(crate) first: u64,
    pub(crate) second: u64,
    pub(crate) third: u64,
    pub(crate) until: u64,
}

#[repr(C)]
#[derive(Clone, Copy, Debug, Default, PartialEq, Eq, Hash)]
pub(crate) struct Phase {
    pub(crate) until: u64,
    pub(crate) rate: u64,
}

/// A population of clients beside the first one; of no share where there is none.
#[repr(C)]
#[derive(Clone, Copy, Debug, Default, PartialEq, Eq, Hash)]
pub(crate) struct Population {
    pub(crate) share: u64,
    pub(crate) patience: u64,
    pub(crate) limited: u64,
}

/// The policies of the populations of a storm, in their order.
pub(super) type Policies = [Raw; 4];

#[repr(C)]
#[derive(Clone, Copy, Debug, PartialEq, Eq, Hash)]
pub(crate) struct Storm {
    pub(crate) size: usize,
    pub(crate) rate: u64,
    pub(crate) together: u64,
    pub(crate) seconds: u64,
    pub(crate) capacity: u64,
    pub(crate) patience: u64,
    pub(crate) queue: u64,
    pub(crate) outage_from: u64,
    pub(crate) outage_to: u64,
    pub(crate) slow_from: u64,
    pub(crate) slow_to: u64,
    pub(crate) slow_percent: u64,
    pub(crate) window: u64,
    pub(crate) until: u64,
    pub(crate) calls: u64,
    pub(crate) words: u64,
    pub(crate) draws_on: u64,
    pub(crate) limit: u64,
    pub(crate) reserve: u64,
    pub(crate) share: u64,
    pub(crate) period: u64,
    pub(crate) bucket_capacity: u64,
    pub(crate) bucket_floor: u64,
    pub(crate) bucket_debit: u64,
    pub(crate) bucket_credit: u64,
    pub(crate) bucket_refund: u64,
    pub(crate) cost: u64,
    pub(crate) late_cost: u64,
    pub(crate) least: u64,
    pub(crate) most: u64,
    pub(crate) first: u64,
    pub(crate) backoff: u64,
    pub(crate) failures: u64,
    pub(crate) results: u64,
    pub(crate) probes: u64,
    pub(crate) deadline: u64,
    pub(crate) ratio: u64,
    pub(crate) open_count: u64,
    pub(crate) open_times: [u64; 64],
    pub(crate) replicas: u64,
    pub(crate) down: u64,
    pub(crate) phase_count: u64,
    pub(crate) phases: [Phase; 16],
    pub(crate) second: Population,
    pub(crate) third: Population,
    pub(crate) fourth: Population,
    pub(crate) of: u64,
}

#[repr(C)]
#[derive(Clone, Copy, Debug, Default)]
pub(crate) struct Window {
    pub(crate) from: u64,
    pub(crate) requests: u64,
    pub(crate) won: u64,
    pub(crate) retries: u64,
    pub(crate) succeeded: u64,
    pub(crate) refused: u64,
    pub(crate) shed: u64,
    pub(crate) late: u64,
    pub(crate) waiting: u64,
}

#[repr(C)]
#[derive(Clone, Copy, Debug, Default)]
pub(crate) struct Totals {
    pub(crate) size: usize,
    pub(crate) windows: u64,
    pub(crate) requests: u64,
    pub(crate) won: u64,
    pub(crate) lost: u64,
    pub(crate) denied: u64,
    pub(crate) open: u64,
    pub(crate) calls: u64,
    pub(crate) hundredths: u64,
    pub(crate) most_calls: u64,
    pub(crate) most_from: u64,
    pub(crate) tickets: u64,
    pub(crate) p50: u64,
    pub(crate) p99: u64,
    pub(crate) slowest: u64,
    pub(crate) recovered: u64,
    pub(crate) recovers: bool,
    pub(crate) cut: bool,
}

pub(super) const OK: u32 = 0;
pub(super) const NO_MEMORY: u32 = 4;
pub(super) const TOO_LARGE: u32 = 5;
pub(super) const NO_ROOM: u32 = 6;
pub(super) const NOT_JSON: u32 = 10;
pub(super) const NOT_A_POLICY: u32 = 11;
pub(super) const OUT_OF_RANGE: u32 = 12;
pub(super) const TOO_DEEP: u32 = 13;
pub(super) const TOO_MANY: u32 = 14;
pub(super) const LIMIT_TOO_LARGE: u32 = 30;
pub(super) const FIXED: u32 = 31;
pub(super) const NO_TICKET: u32 = 32;
pub(super) const TOO_MANY_PASSES: u32 = 33;
pub(super) const RESERVE_TOO_LARGE: u32 = 35;
pub(super) const SHARE_TOO_LARGE: u32 = 36;
pub(super) const PERIOD_TOO_SHORT: u32 = 37;
pub(super) const RACES_LOST: u32 = 38;
pub(super) const NOTHING_TO_HAND_BACK: u32 = 43;
pub(super) const TOO_MANY_REQUESTS: u32 = 44;
#[cfg(feature = "leased")]
pub(super) const BACKWARDS: u32 = 20;
#[cfg(feature = "leased")]
pub(super) const LEASE_WANTED: u32 = 50;
#[cfg(feature = "leased")]
pub(super) const NOT_OUT: u32 = 51;
#[cfg(feature = "leased")]
pub(super) const HELD_ALREADY: u32 = 52;

pub(crate) const LEVEL_LOW: u32 = 60;
pub(crate) const REQUESTS_FULL: u32 = 61;
pub(crate) const RETRIES_FULL: u32 = 62;
pub(crate) const BREAKER_OPEN: u32 = 63;
pub(crate) const PROBING: u32 = 64;
pub(crate) const THROTTLED: u32 = 65;
pub(crate) const TOO_SOON: u32 = 70;

pub(crate) const NO_REPORT: u32 = 0;
pub(crate) const WON: u32 = 1;
pub(crate) const LOST: u32 = 2;

pub(crate) const RUN: u32 = 1;
pub(crate) const WAIT: u32 = 2;
pub(crate) const OVER: u32 = 3;

pub(crate) const ENDED_WON: u32 = 1;
pub(crate) const ENDED_DONE: u32 = 2;
pub(crate) const ENDED_LIMIT_REFUSED: u32 = 3;
pub(crate) const ENDED_CANCELLED: u32 = 4;
pub(crate) const ENDED_NO_MEMORY: u32 = 5;
pub(crate) const ENDED_DEADLINE: u32 = 8;

pub(super) const READS_INPUT: u64 = 16;

pub(crate) const ON_NOTHING: u64 = 0;
pub(crate) const ON_BUDGET: u64 = 1;
pub(crate) const ON_QUOTA: u64 = 2;
pub(crate) const ON_BUCKET: u64 = 3;
pub(crate) const ON_IN_FLIGHT: u64 = 4;
pub(crate) const ON_BREAKER: u64 = 5;
pub(crate) const ON_THROTTLE: u64 = 6;
pub(crate) const ON_ADAPTIVE: u64 = 7;
/// The most requests in flight of a bound that sets none.
pub(crate) const NO_MOST: u32 = 4_294_967_295;
pub(crate) const STATE_BUCKET: u64 = 1;
pub(crate) const STATE_IN_FLIGHT: u64 = 2;
pub(crate) const STATE_CLOSED: u64 = 3;
pub(crate) const STATE_OPEN: u64 = 4;
pub(crate) const STATE_HALF_OPEN: u64 = 5;
pub(crate) const STATE_THROTTLE: u64 = 6;

/// The greatest moment, length of a window, and code.
pub(crate) const MAX_NUMBER: u64 = (1 << 62) - 1;
/// The deadline of a retry that has none.
pub(crate) const NO_DEADLINE: u64 = u64::MAX;
/// The bound of a policy whose nodes give none.
pub(super) const NO_BOUND: u64 = u64::MAX;
/// The most events of a course.
pub(crate) const MAX_STEPS: u64 = 4096;
/// The most tickets of a budget, and of a window of a quota.
pub(crate) const MAX_TICKETS: u64 = 1 << 32;

// (bin/bindings writes these from the header)
#[rustfmt::skip]
extern "C" {
    pub(super) fn hikebox_policy_read(
        json: *const u8,
        length: usize,
        policy: *mut Raw,
        place: *mut Place,
    ) -> u32;
    pub(super) fn hikebox_policy_fault(
        json: *const u8,
        json_length: usize,
        text: *mut u8,
        capacity: usize,
        length: *mut usize,
    ) -> u32;
    pub(super) fn hikebox_policy_node(
        name: *const u8,
        length: usize,
        numbers: *const u64,
        count: usize,
        first: *mut Raw,
        second: *mut Raw,
        made: *mut Raw,
    ) -> u32;
    pub(super) fn hikebox_policy_json(
        policy: *mut Raw,
        text: *mut u8,
        capacity: usize,
        length: *mut usize,
    ) -> u32;
    pub(super) fn hikebox_policy_share(policy: *mut Raw, other: *mut Raw) -> u32;
    pub(super) fn hikebox_policy_reads(policy: *mut Raw, reads: *mut u64) -> u32;
    pub(super) fn hikebox_policy_size(
        policy: *mut Raw,
        nodes: *mut u64,
        depth: *mut u64,
        most: *mut u64,
    ) -> u32;
    pub(super) fn hikebox_policy_course(
        policy: *mut Raw,
        course: *const Course,
        events: *const Event,
        given: usize,
        lines: *mut Line,
        capacity: usize,
        count: *mut usize,
    ) -> u32;
    pub(super) fn hikebox_policy_outputs(
        policy: *mut Raw,
        course: *const Course,
        events: *const Event,
        given: usize,
        text: *mut u8,
        room: usize,
        length: *mut usize,
    ) -> u32;
    pub(super) fn hikebox_policy_free(policy: *mut Raw) -> u32;

    pub(super) fn hikebox_bucket_new(bucket: *const BucketTerms, limit: *mut Raw) -> u32;
    pub(super) fn hikebox_in_flight_new(least: u32, share: u32, most: u32, limit: *mut Raw) -> u32;
    pub(super) fn hikebox_adaptive_new(adaptive: *const AdaptiveTerms, limit: *mut Raw) -> u32;
    pub(super) fn hikebox_breaker_new(
        now: u64,
        breaker: *const BreakerTerms,
        times: *const u64,
        count: usize,
        limit: *mut Raw,
    ) -> u32;
    pub(super) fn hikebox_throttle_new(now: u64, ratio: u32, period: u64, limit: *mut Raw) -> u32;
    pub(super) fn hikebox_limit_both(limit: *mut Raw, second: *mut Raw) -> u32;
    pub(super) fn hikebox_limit_split(limit: *mut Raw, part: *mut Raw) -> u32;
    pub(super) fn hikebox_limit_admit(limit: *mut Raw, now: u64, random: u32, number: *mut u64) -> u32;
    pub(super) fn hikebox_limit_draw(
        limit: *mut Raw,
        now: u64,
        cost: u64,
        random: u32,
        number: *mut u64,
    ) -> u32;
    pub(super) fn hikebox_limit_failed(limit: *mut Raw, now: u64) -> u32;
    pub(super) fn hikebox_limit_succeeded(limit: *mut Raw, now: u64) -> u32;
    pub(super) fn hikebox_limit_cancelled(limit: *mut Raw) -> u32;
    pub(super) fn hikebox_limit_ended(limit: *mut Raw) -> u32;
    pub(super) fn hikebox_limit_free(limit: *mut Raw) -> u32;
    pub(super) fn hikebox_limit_state(limit: *mut Raw, which: u32, now: u64, state: *mut State) -> u32;
    pub(super) fn hikebox_breaker_open(limit: *mut Raw, now: u64, until: u64) -> u32;
    pub(super) fn hikebox_breaker_close(limit: *mut Raw, now: u64) -> u32;
    pub(super) fn hikebox_limit_look(limit: *mut Raw, seen: *mut Seen, quiet: *mut bool) -> u32;
    pub(super) fn hikebox_limit_begin(limit: *mut Raw, seen: *const Seen, begun: *mut bool) -> u32;

    pub(super) fn hikebox_pace_new(each: u64, burst: u64, longest: u64, pace: *mut Raw) -> u32;
    pub(super) fn hikebox_pace_split(pace: *mut Raw, part: *mut Raw) -> u32;
    pub(super) fn hikebox_pace_take(pace: *mut Raw, now: u64, cost: u64, at: *mut u64) -> u32;
    pub(super) fn hikebox_pace_give_back(pace: *mut Raw, given: *mut bool) -> u32;
    pub(super) fn hikebox_pace_seen(pace: *mut Raw, now: u64, at: *mut u64) -> u32;
    pub(super) fn hikebox_pace_free(pace: *mut Raw) -> u32;

    pub(super) fn hikebox_budget_fixed(limit: u64, pass: *mut Raw) -> u32;
    pub(super) fn hikebox_budget_rising(limit: u64, pass: *mut Raw) -> u32;
    pub(super) fn hikebox_quota_new(
        now: u64,
        reserve: u64,
        share: u64,
        period: u64,
        carries: bool,
        pass: *mut Raw,
    ) -> u32;
    pub(super) fn hikebox_pass_unlimited(pass: *mut Raw) -> u32;
    pub(super) fn hikebox_pass_draw(pass: *mut Raw, now: u64, ticket: *mut u64) -> u32;
    pub(super) fn hikebox_pass_deposit(pass: *mut Raw, now: u64, requests: u64) -> u32;
    pub(super) fn hikebox_pass_hand_back(pass: *mut Raw) -> u32;
    pub(super) fn hikebox_pass_set_terms(pass: *mut Raw, reserve: u64, share: u64) -> u32;
    pub(super) fn hikebox_pass_split(pass: *mut Raw, part: *mut Raw) -> u32;
    pub(super) fn hikebox_pass_join(pass: *mut Raw, other: *mut Raw) -> u32;
    pub(super) fn hikebox_pass_raise(pass: *mut Raw, to: u64, limit: *mut u64) -> u32;
    pub(super) fn hikebox_pass_count(pass: *mut Raw, tickets: *mut u64) -> u32;
    pub(super) fn hikebox_pass_seen(pass: *mut Raw, now: u64, usage: *mut Used) -> u32;
    pub(super) fn hikebox_pass_close(pass: *mut Raw, tickets: *mut u64) -> u32;
    pub(super) fn hikebox_pass_free(pass: *mut Raw) -> u32;

    pub(super) fn hikebox_retry_new(policy: *mut Raw, pass: *mut Raw, deadline: u64, retry: *mut Raw) -> u32;
    pub(super) fn hikebox_retry_poll(
        retry: *mut Raw,
        now: u64,
        words: *const [u32; 4],
        report: u32,
        code: u64,
        next: *mut Next,
    ) -> u32;
    pub(super) fn hikebox_retry_ran(retry: *mut Raw, run: *const Run, next: *mut Next) -> u32;
    pub(super) fn hikebox_retry_cancel(retry: *mut Raw) -> u32;
    pub(super) fn hikebox_retry_end(retry: *mut Raw, pass: *mut Raw) -> u32;
    pub(super) fn hikebox_retry_again(retry: *mut Raw, deadline: u64) -> u32;
    pub(super) fn hikebox_retry_free(retry: *mut Raw) -> u32;

    #[cfg(feature = "leased")]
    pub(super) fn hikebox_quota_allows(reserve: u64, share: u64, asked: u64, tickets: *mut u64) -> u32;
    #[cfg(feature = "leased")]
    pub(super) fn hikebox_lease_of_budget(
        limit: u64,
        asking: *const Asking,
        stored: *mut Stored,
        range: *mut Range,
    ) -> u32;
    #[cfg(feature = "leased")]
    pub(super) fn hikebox_lease_of_quota(
        reserve: u64,
        share: u64,
        asking: *const Asking,
        stored: *mut Stored,
        range: *mut Range,
    ) -> u32;

    #[cfg(feature = "leased")]
    pub(super) fn hikebox_leased_new(period: u64, leased: *mut Raw) -> u32;
    #[cfg(feature = "leased")]
    pub(super) fn hikebox_leased_draw(leased: *mut Raw, now: u64, ticket: *mut Ticket, again: *mut u64) -> u32;
    #[cfg(feature = "leased")]
    pub(super) fn hikebox_leased_granted(leased: *mut Raw, grant: *const Grant) -> u32;
    #[cfg(feature = "leased")]
    pub(super) fn hikebox_leased_leave_alone(leased: *mut Raw, until: u64) -> u32;
    #[cfg(feature = "leased")]
    pub(super) fn hikebox_leased_hand_back(leased: *mut Raw, ticket: *const Ticket) -> u32;
    #[cfg(feature = "leased")]
    pub(super) fn hikebox_leased_deposit(leased: *mut Raw, now: u64, requests: u64) -> u32;
    #[cfg(feature = "leased")]
    pub(super) fn hikebox_leased_tell(leased: *mut Raw, since: u64, requests: *mut u64) -> u32;
    #[cfg(feature = "leased")]
    pub(super) fn hikebox_leased_seen(
        leased: *mut Raw,
        drawn: *mut u64,
        at_hand: *mut u64,
        untold: *mut u64,
    ) -> u32;
    #[cfg(feature = "leased")]
    pub(super) fn hikebox_leased_free(leased: *mut Raw) -> u32;

    pub(super) fn hikebox_storm_play_populations(
        policies: *mut Policies,
        storm: *const Storm,
        arrivals: *const u64,
        given: usize,
        windows: *mut Window,
        capacity: usize,
        totals: *mut Totals,
    ) -> u32;
}

//! Calls of the system that the standard library doesn't have, as safe ones, and values that threads and forks share.
#![allow(unsafe_code)]

#[cfg(all(feature = "leased", any(target_os = "linux", target_vendor = "apple")))]
mod files;
#[cfg(all(feature = "leased", not(any(target_os = "linux", target_vendor = "apple"))))]
#[path = "no_files.rs"]
mod files;
mod made_once;
mod try_lock;

#[cfg(feature = "leased")]
pub(crate) use files::{boot, boottime, is_at, read_whole, try_lock, unlock, write_whole, OwnFile};
pub(crate) use made_once::MadeOnce;
use std::sync::atomic::{AtomicBool, AtomicPtr, AtomicU64, Ordering};
use std::sync::{Mutex, MutexGuard, PoisonError};
#[cfg(not(all(feature = "tokio", target_os = "linux")))]
use std::time::Instant;
pub(crate) use try_lock::TryLock;

/// What is called around a fork.
#[cfg(unix)]
type Handler = Option<unsafe extern "C" fn()>;

extern "C" {
    #[cfg(unix)]
    fn pthread_atfork(prepare: Handler, parent: Handler, child: Handler) -> i32;
    #[cfg(all(not(feature = "tokio"), target_os = "linux"))]
    fn clock_gettime(clock: i32, time: *mut Timespec) -> i32;
}

/// A time as the system tells it, on the 64-bit machines of this crate.
#[cfg(all(not(feature = "tokio"), target_os = "linux"))]
#[repr(C)]
struct Timespec {
    seconds: i64,
    nanos: i64,
}

/// Linux's monotonic clock.
#[cfg(all(not(feature = "tokio"), target_os = "linux"))]
const CLOCK_MONOTONIC: i32 = 1;

/// The nanoseconds that the system's monotonic clock, which is that of an [`Instant`], tells.
#[cfg(all(not(feature = "tokio"), target_os = "linux"))]
#[inline]
pub(crate) fn monotonic() -> u64 {
    let mut time = Timespec { seconds: 0, nanos: 0 };
    // SAFETY: the call writes the time alone, and Linux always has this clock.
    unsafe { clock_gettime(CLOCK_MONOTONIC, &mut time) };
    time.seconds as u64 * 1_000_000_000 + time.nanos as u64
}

/// On other systems the nanoseconds since this was first asked for: there the standard library alone reads that clock.
#[cfg(not(target_os = "linux"))]
pub(crate) fn monotonic() -> u64 {
    static FIRST: MadeOnce<Instant> = MadeOnce::new();
    let first = FIRST.get(Instant::now);
    Instant::now().saturating_duration_since(first).as_nanos() as u64
}

/// An instant, and what [`monotonic`] told at it: the same pair each time.
#[cfg(not(all(feature = "tokio", target_os = "linux")))]
pub(crate) fn known_instant() -> (Instant, u64) {
    static KNOWN: MadeOnce<(Instant, u64)> = MadeOnce::new();
    KNOWN.get(|| read_at_once(Instant::now, monotonic))
}

/// What two readings of one clock tell within a millisecond: where the thread was stopped between them they are made
/// again. (Each takes some 30 nanoseconds.) A clock that is slower than that is read a hundred times, and the readings
/// that are closest to each other count.
#[cfg(any(test, not(all(feature = "tokio", target_os = "linux"))))]
fn read_at_once<T>(read: impl Fn() -> T, nanos: impl Fn() -> u64) -> (T, u64) {
    const CLOSE: u64 = 1_000_000;
    let between = || {
        let before = nanos();
        let read = read();
        let after = nanos();
        (after - before, (read, before))
    };
    let mut closest = between();
    for _ in 1..100 {
        if closest.0 < CLOSE {
            break;
        }
        let next = between();
        if next.0 < closest.0 {
            closest = next;
        }
    }
    closest.1
}

/// What a mutex guards, also after a panic of whoever had its lock.
#[inline]
pub(crate) fn lock<T>(mutex: &Mutex<T>) -> MutexGuard<'_, T> {
    mutex.lock().unwrap_or_else(PoisonError::into_inner)
}

/// What grows by each fork between the process in which this was first asked for and this one.
static GENERATION: AtomicU64 = AtomicU64::new(0);
static IS_REGISTERED: AtomicBool = AtomicBool::new(false);

/// Counts a fork, in the child. It calls nothing but what is safe there, whatever the parent's other threads did.
#[cfg(unix)]
unsafe extern "C" fn count_fork() {
    GENERATION.fetch_add(1, Ordering::Relaxed);
    #[cfg(feature = "leased")]
    files::close_inherited();
}

/// A number that is another one in a forked child than in its parent. It costs two loads, and no call of the system.
#[inline]
pub(crate) fn generation() -> u64 {
    if !IS_REGISTERED.load(Ordering::Acquire) {
        register();
    }
    GENERATION.load(Ordering::Relaxed)
}

/// Whether this process is the one in which [`generation`] gave this number.
#[inline]
pub(crate) fn is_generation(number: u64) -> bool {
    GENERATION.load(Ordering::Relaxed) == number
}

/// Has each fork counted from now on. Several threads that come first at once may each register the functions, which are
/// then called several times around each fork. No thread goes on before they are registered.
#[cold]
fn register() {
    #[cfg(all(unix, feature = "leased"))]
    let (before, after): (Handler, Handler) = (Some(files::before_fork), Some(files::after_fork));
    #[cfg(all(unix, not(feature = "leased")))]
    let (before, after): (Handler, Handler) = (None, None);
    // SAFETY: the functions are called around each fork, and change atomic numbers and own files alone. (Where there is no
    // memory to register them, children are taken for their parent.)
    #[cfg(unix)]
    unsafe {
        pthread_atfork(before, after, Some(count_fork))
    };
    IS_REGISTERED.store(true, Ordering::Release);
}

/// A value of which each process has its own. A forked child makes it anew when it first asks for it, since another
/// thread of the parent may have been changing the parent's at the fork, or may have held its lock.
pub(crate) struct PerProcess<T> {
    present: AtomicPtr<Made<T>>,
}

struct Made<T> {
    generation: u64,
    value: T,
}

impl<T> Made<T> {
    fn boxed(value: T) -> Box<Self> {
        Box::new(Self { generation: generation(), value })
    }
}

// SAFETY: it owns a `T`, and lends it to all threads that have a reference to it.
unsafe impl<T: Send + Sync> Sync for PerProcess<T> {}
unsafe impl<T: Send> Send for PerProcess<T> {}

impl<T> PerProcess<T> {
    pub(crate) fn new(value: T) -> Self {
        Self { present: AtomicPtr::new(Box::into_raw(Made::boxed(value))) }
    }

    /// This process's value, which `make` makes where it has none yet.
    #[inline]
    pub(crate) fn get(&self, make: impl FnOnce() -> T) -> &T {
        // SAFETY: the pointer is always to a value that is freed when this is dropped, or never.
        let made = unsafe { &*self.present.load(Ordering::Acquire) };
        if is_generation(made.generation) {
            &made.value
        } else {
            self.make_anew(made, make)
        }
    }

    /// The parent's value stays where it is: the thread that forked may be using it.
    #[cold]
    fn make_anew(&self, parents: &Made<T>, make: impl FnOnce() -> T) -> &T {
        let made = Box::into_raw(Made::boxed(make()));
        let parents = parents as *const Made<T> as *mut Made<T>;
        match self.present.compare_exchange(parents, made, Ordering::AcqRel, Ordering::Acquire) {
            // SAFETY: the pointer is to the value that was made just now, and is never freed before this is dropped.
            Ok(_) => unsafe { &(*made).value },
            Err(others) => {
                // SAFETY: nobody else has the one pointer, and the other one is as above.
                unsafe {
                    drop(Box::from_raw(made));
                    &(*others).value
                }
            }
        }
    }

    /// This process's value, where it has one.
    pub(crate) fn into_inner(self) -> Option<T> {
        let present = self.present.load(Ordering::Acquire);
        std::mem::forget(self);
        // SAFETY: the pointer is as in `get`, and this is gone, so that nobody else has it.
        let made = unsafe { Box::from_raw(present) };
        if made.generation == generation() {
            Some(made.value)
        } else {
            leaked(made)
        }
    }
}

/// A value of the parent is not dropped either.
fn leaked<T>(made: Box<Made<T>>) -> Option<T> {
    std::mem::forget(made);
    None
}

impl<T> Drop for PerProcess<T> {
    fn drop(&mut self) {
        // SAFETY: as in `into_inner`.
        let made = unsafe { Box::from_raw(*self.present.get_mut()) };
        if made.generation != generation() {
            leaked(made);
        }
    }
}

#[cfg(test)]
mod tests {
    use super::read_at_once;
    use std::cell::Cell;

    /// Two readings of a clock that each take this many nanoseconds, by turns: how far they are apart.
    fn apart(takes: &[u64]) -> u64 {
        let (now, mut left) = (Cell::new(0), takes.iter().copied().cycle());
        let left = std::cell::RefCell::new(move || left.next().unwrap());
        let read = || {
            now.set(now.get() + (left.borrow_mut())());
            now.get()
        };
        let (first, second) = read_at_once(read, read);
        first.abs_diff(second)
    }

    #[test]
    fn two_readings_between_which_a_thread_was_stopped_are_made_again() {
        const SECOND: u64 = 1_000_000_000;
        // the number, the instant, and the number again
        assert_eq!(apart(&[30, 30, 30]), 30);
        assert_eq!(apart(&[30, 5 * SECOND, 30, 30, 30, 5 * SECOND, 30, 40, 50]), 40);
        // a clock that is always so slow: the closest readings
        assert_eq!(apart(&[1, 3_000_000, 1, 1, 2_000_000, 1]), 2_000_000);
    }
}

//! Files and their locks, which no forked child keeps, and the machine's uptime, on Linux and macOS.

use std::fs::{self, File};
use std::io;
use std::ops::Deref;
use std::os::unix::fs::{FileExt, MetadataExt};
use std::os::unix::io::AsRawFd;
use std::path::Path;
use std::sync::atomic::{AtomicI32, AtomicUsize, Ordering};
use std::thread;
use std::time::Duration;

/// The descriptors of the files that a forked child closes, and -1s. (Of more files at once it may keep some.)
static OWN: [AtomicI32; 256] = {
    #[allow(clippy::declare_interior_mutable_const)]
    const NONE: AtomicI32 = AtomicI32::new(-1);
    [NONE; 256]
};
/// How many threads open a file that is not in [`OWN`] yet, and how many fork: neither does while another does the other.
static OPENING: AtomicUsize = AtomicUsize::new(0);
static FORKING: AtomicUsize = AtomicUsize::new(0);

/// A file that a forked child closes. So a lock of it ends with this process, also where a child lives on.
#[derive(Debug)]
pub(crate) struct OwnFile(File);

/// A thread that opens a file.
struct Opening;

impl Opening {
    fn new() -> Self {
        loop {
            OPENING.fetch_add(1, Ordering::SeqCst);
            if FORKING.load(Ordering::SeqCst) == 0 {
                return Self;
            }
            OPENING.fetch_sub(1, Ordering::SeqCst);
            thread::yield_now();
        }
    }
}

impl Drop for Opening {
    fn drop(&mut self) {
        OPENING.fetch_sub(1, Ordering::SeqCst);
    }
}

impl OwnFile {
    /// The file that the call opens.
    pub(crate) fn opened(open: impl FnOnce() -> io::Result<File>) -> io::Result<Self> {
        let _opening = Opening::new();
        let file = open()?;
        let _ = OWN.iter().any(|own| change(own, -1, file.as_raw_fd()));
        Ok(Self(file))
    }
}

impl Deref for OwnFile {
    type Target = File;

    fn deref(&self) -> &File {
        &self.0
    }
}

impl Drop for OwnFile {
    fn drop(&mut self) {
        let _ = OWN.iter().any(|own| change(own, self.0.as_raw_fd(), -1));
    }
}

fn change(own: &AtomicI32, from: i32, to: i32) -> bool {
    own.load(Ordering::Relaxed) == from && own.compare_exchange(from, to, Ordering::Relaxed, Ordering::Relaxed).is_ok()
}

/// Waits until no thread opens a file, and lets none begin. Called before a fork, by its thread.
pub(super) unsafe extern "C" fn before_fork() {
    FORKING.fetch_add(1, Ordering::SeqCst);
    while OPENING.load(Ordering::SeqCst) != 0 {
        thread::yield_now();
    }
}

/// Lets threads open files again. Called after a fork, in the parent.
pub(super) unsafe extern "C" fn after_fork() {
    FORKING.fetch_sub(1, Ordering::SeqCst);
}

/// Closes the files of the parent's locks in a child: they would stay locked as long as it lives, where the parent
/// died. No thread of the child opens a file yet, or forks: one of the parent's may have been counted for the moment in
/// which it saw the fork.
pub(super) fn close_inherited() {
    FORKING.store(0, Ordering::SeqCst);
    OPENING.store(0, Ordering::SeqCst);
    for own in &OWN {
        let descriptor = own.swap(-1, Ordering::Relaxed);
        if descriptor >= 0 {
            // SAFETY: the descriptor is that of a file which a thread of the parent had open, and no thread of the
            // child.
            unsafe { libc::close(descriptor) };
        }
    }
}

/// Takes the file's lock, where nobody else has it.
pub(crate) fn try_lock(file: &OwnFile) -> io::Result<()> {
    flock(file, libc::LOCK_EX | libc::LOCK_NB)
}

/// Gives the file's lock up, also where a forked child has inherited the open file.
pub(crate) fn unlock(file: &OwnFile) {
    // (an open file's lock can always be given up)
    let _ = flock(file, libc::LOCK_UN);
}

fn flock(file: &File, operation: i32) -> io::Result<()> {
    // SAFETY: the descriptor is that of an open file.
    match unsafe { libc::flock(file.as_raw_fd(), operation) } {
        0 => Ok(()),
        _ => Err(io::Error::last_os_error()),
    }
}

/// Whether an open file is the one at this path.
pub(crate) fn is_at(file: &File, path: &Path) -> bool {
    match (file.metadata(), fs::metadata(path)) {
        (Ok(own), Ok(found)) => (own.dev(), own.ino()) == (found.dev(), found.ino()),
        _ => false,
    }
}

/// Reads a file from its first byte on: how many there are, or that there are more than have room.
pub(crate) fn read_whole(file: &File, bytes: &mut [u8]) -> io::Result<usize> {
    loop {
        match file.read_at(bytes, 0) {
            Err(error) if error.kind() == io::ErrorKind::Interrupted => (),
            read => return read,
        }
    }
}

/// Writes these bytes over the first ones of a file.
pub(crate) fn write_whole(file: &File, bytes: &[u8]) -> io::Result<()> {
    file.write_all_at(bytes, 0)
}

/// The clock that counts from the machine's start, also while it sleeps, and that nobody can set.
#[cfg(target_os = "linux")]
const UPTIME: libc::clockid_t = libc::CLOCK_BOOTTIME;
#[cfg(target_vendor = "apple")]
const UPTIME: libc::clockid_t = libc::CLOCK_MONOTONIC_RAW;

/// How long ago the machine started, as this process's time namespace has it.
pub(crate) fn boottime() -> io::Result<Duration> {
    let mut time = std::mem::MaybeUninit::<libc::timespec>::uninit();
    // SAFETY: the call writes the time to the place that it is handed, and it is read only where it answers 0.
    let time = unsafe {
        if libc::clock_gettime(UPTIME, time.as_mut_ptr()) != 0 {
            return Err(io::Error::last_os_error());
        }
        time.assume_init()
    };
    Ok(Duration::new(u64::try_from(time.tv_sec).unwrap_or(0), u32::try_from(time.tv_nsec).unwrap_or(0)))
}

/// The name of the present start of the machine.
#[cfg(target_os = "linux")]
pub(crate) fn boot() -> io::Result<[u8; 36]> {
    const PATH: &str = "/proc/sys/kernel/random/boot_id";
    // (a chroot without /proc has none)
    let missing = |error| io::Error::new(io::ErrorKind::Other, format!("{PATH}: {error}"));
    named(fs::read_to_string(PATH).map_err(missing)?.trim().as_bytes())
}

#[cfg(target_vendor = "apple")]
pub(crate) fn boot() -> io::Result<[u8; 36]> {
    let (mut name, mut size) = ([0_u8; 64], 64);
    let of = b"kern.bootsessionuuid\0".as_ptr().cast();
    // SAFETY: the call writes at most so many bytes to the place that it is handed.
    match unsafe { libc::sysctlbyname(of, name.as_mut_ptr().cast(), &mut size, std::ptr::null_mut(), 0) } {
        0 => named(name.split(|byte| *byte == 0).next().unwrap_or_default()),
        _ => Err(io::Error::last_os_error()),
    }
}

fn named(name: &[u8]) -> io::Result<[u8; 36]> {
    let why = || io::Error::new(io::ErrorKind::InvalidData, "expected a name of the machine's start of 36 bytes");
    name.try_into().map_err(|_| why())
}

#[cfg(test)]
mod tests {
    use super::{change, close_inherited, OwnFile, FORKING, OPENING, OWN};
    use crate::system::{generation, register};
    use std::fs::File;
    use std::io;
    use std::os::unix::io::{AsRawFd, FromRawFd};
    use std::sync::atomic::{AtomicI32, Ordering};
    use std::sync::Barrier;
    use std::thread;
    use std::time::Duration;

    static OPENED: AtomicI32 = AtomicI32::new(-1);

    /// A file whose number no file of another test has, once it is closed: these have the least that are free.
    fn with_a_high_number() -> io::Result<File> {
        let file = File::open("/dev/null")?;
        // SAFETY: the call makes a file of its own, or answers -1.
        match unsafe { libc::fcntl(file.as_raw_fd(), libc::F_DUPFD_CLOEXEC, 300) } {
            -1 => Err(io::Error::last_os_error()),
            // SAFETY: nobody else has this file.
            number => Ok(unsafe { File::from_raw_fd(number) }),
        }
    }

    /// Whether the process of a fork, which this thread makes, says so, by what is safe after a fork.
    fn in_child(says: impl FnOnce() -> bool) -> bool {
        // SAFETY: the child calls what is safe after a fork alone.
        unsafe {
            match libc::fork() {
                0 => libc::_exit(i32::from(!says())),
                child => {
                    let mut status = -1;
                    libc::waitpid(child, &mut status, 0) == child && status == 0
                }
            }
        }
    }

    /// Whether a forked child knows the file and has closed it.
    fn child_has_closed_it() -> bool {
        in_child(|| {
            let opened = OPENED.load(Ordering::Relaxed);
            // SAFETY: a descriptor that is not open is refused.
            opened >= 0 && unsafe { libc::fcntl(opened, libc::F_GETFD) } == -1
        })
    }

    #[test]
    fn a_child_forks_though_a_thread_was_about_to_open_a_file_at_its_fork() {
        generation();
        let forks = || {
            // (so such a thread leaves it, which counts itself, sees the fork, and is not in the child)
            OPENING.fetch_add(1, Ordering::SeqCst);
            close_inherited();
            OPENING.load(Ordering::SeqCst) == 0
        };
        assert!(in_child(forks));
    }

    #[test]
    fn a_child_is_told_from_its_parent_where_two_threads_registered_for_forks() {
        let parents = generation();
        register();
        assert!(in_child(|| generation() != parents && FORKING.load(Ordering::SeqCst) == 0));
        assert_eq!(generation(), parents);
        assert!(OwnFile::opened(|| File::open("/dev/null")).is_ok());
    }

    #[test]
    fn a_fork_waits_for_a_file_that_is_being_opened_and_the_child_closes_it() {
        generation();
        let (begun, over) = (Barrier::new(2), Barrier::new(2));
        thread::scope(|scope| {
            scope.spawn(|| {
                let file = OwnFile::opened(|| {
                    begun.wait();
                    thread::sleep(Duration::from_millis(100));
                    let file = with_a_high_number()?;
                    OPENED.store(file.as_raw_fd(), Ordering::Relaxed);
                    Ok(file)
                });
                over.wait();
                drop(file.unwrap());
            });
            begun.wait();
            let (first, second) = (child_has_closed_it(), child_has_closed_it());
            over.wait();
            assert!(first && second);
        });
        // nothing is left of it, and files are opened again
        assert!(!OWN.iter().any(|own| change(own, OPENED.load(Ordering::Relaxed), -1)));
        assert!(OwnFile::opened(|| File::open("/dev/null")).is_ok());
        assert!(OwnFile::opened(|| File::open("/dev/no such file")).is_err());
    }
}

//! Files and their locks where there is no `flock`, as on Windows: no folder of counts can be kept there.

use std::convert::Infallible;
use std::fs::File;
use std::io;
use std::ops::Deref;
use std::path::Path;
use std::time::Duration;

/// A file that is never opened.
#[derive(Debug)]
pub(crate) struct OwnFile(Infallible);

impl OwnFile {
    pub(crate) fn opened(_: impl FnOnce() -> io::Result<File>) -> io::Result<Self> {
        Err(unsupported())
    }
}

impl Deref for OwnFile {
    type Target = File;

    fn deref(&self) -> &File {
        match self.0 {}
    }
}

pub(crate) fn try_lock(file: &OwnFile) -> io::Result<()> {
    match file.0 {}
}

pub(crate) fn unlock(file: &OwnFile) {
    match file.0 {}
}

pub(crate) fn is_at(_: &File, _: &Path) -> bool {
    false
}

pub(crate) fn read_whole(_: &File, _: &mut [u8]) -> io::Result<usize> {
    Err(unsupported())
}

pub(crate) fn write_whole(_: &File, _: &[u8]) -> io::Result<()> {
    Err(unsupported())
}

pub(crate) fn boottime() -> io::Result<Duration> {
    Err(unsupported())
}

pub(crate) fn boot() -> io::Result<[u8; 36]> {
    Err(unsupported())
}

/// Nothing is to be done around a fork.
#[cfg(unix)]
pub(super) unsafe extern "C" fn before_fork() {}
#[cfg(unix)]
pub(super) unsafe extern "C" fn after_fork() {}
#[cfg(unix)]
pub(super) fn close_inherited() {}

fn unsupported() -> io::Error {
    let why = "a folder of counts needs the file locks (flock) of Linux or macOS, which this system lacks";
    io::Error::new(io::ErrorKind::Unsupported, why)
}

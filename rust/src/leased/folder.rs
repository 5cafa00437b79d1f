//! Folders of slots: the tickets that were leased, counted for all processes of a machine. `docs/MACHINES.md` has the
//! form of a folder.

use crate::engine::Stored;
use crate::leased::slot::{Record, SIZE};
use crate::leased::uptime::{now, Boot, Window};
use crate::random;
use crate::system::{boot, is_at, try_lock, unlock, write_whole, OwnFile};
use std::env;
use std::error::Error;
use std::fmt;
use std::fs::{self, DirEntry, File, OpenOptions};
use std::io;
use std::ops::Deref;
use std::path::{Path, PathBuf};
use std::thread;
use std::time::{Duration, Instant, SystemTime};

/// Why a store grants no lease. Its text contains that of the error in it, so it has no source.
#[derive(Debug)]
#[non_exhaustive]
pub enum StoreError {
    /// The slot at this path cannot be made, opened, read, locked or written; or, without a path, there can be none.
    Io(PathBuf, io::Error),
    /// Another process keeps the slot locked.
    Locked(PathBuf),
    /// The file is damaged, or is not a slot of this budget or quota.
    Damaged(PathBuf),
    /// The path names a file, and counts are kept in a folder.
    NotAFolder(PathBuf),
    /// The slot counts a later window than the current one, and has no count of the current one any more.
    Lost(PathBuf),
    /// The slot counts fewer tickets than this process has seen in the same file: an older copy was put in its place.
    Older {
        /// The slot.
        path: PathBuf,
        /// The count that this process has seen.
        seen: u64,
        /// The count that is there now.
        counted: u64,
    },
}

/// How long a slot's lock is waited for, from when the slot is first looked for. One that nobody has is taken later too.
const PATIENCE: Duration = Duration::from_secs(5);
/// How often a slot or its folder may be removed or replaced, however long that takes. A folder that can't be made so
/// often in a row can't be there at all.
const REMOVED: u32 = 100;
/// How many other files a process that makes one looks at, to take away those that nobody needs any more.
const LOOKED_AT: usize = 16;
/// A file that was to become a slot, and is this old, was left by a process that died.
const LEFT_BEHIND: Duration = Duration::from_secs(60);

/// A folder that keeps counts.
#[derive(Clone, Debug)]
pub(crate) struct Folder {
    path: PathBuf,
}

/// What a slot is of.
#[derive(Clone, Debug)]
pub(crate) struct Key {
    text: String,
    /// How many milliseconds its windows are long, where it has windows.
    period: Option<u64>,
}

/// A slot, of which no other process changes the counts before this is dropped.
pub(crate) struct Slot {
    path: PathBuf,
    file: Locked,
    record: Record,
    is_durable: bool,
}

/// What a process knows: the start of its machine, and the highest count that it has seen of a slot, with the number of
/// the file and the window.
#[derive(Debug, Default)]
pub(crate) struct Known {
    pub(crate) boot: Option<Boot>,
    seen: (u32, u64, u64),
}

/// A file whose lock this process has.
struct Locked(OwnFile);

impl Key {
    /// That of a budget of this name.
    pub(crate) fn of_budget(name: &str) -> Self {
        Self { text: format!("budget {name}"), period: None }
    }

    /// That of a budget by windows of so many milliseconds.
    pub(crate) fn of_windows(name: &str, period: u64) -> Self {
        Self { text: format!("windows of {period} ms of {name}"), period: Some(period) }
    }

    /// That of a quota.
    pub(crate) fn of_quota(name: &str, period: u64) -> Self {
        Self { text: format!("quota of {period} ms of {name}"), period: Some(period) }
    }

    /// The present window, where it has windows.
    pub(crate) fn window(&self, boot: &mut Option<Boot>) -> io::Result<Option<Window>> {
        self.period.map(|period| Window::present(period, boot)).transpose()
    }

    /// Where the slot is in its folder: by the FNV-1a hash of its text.
    fn place(&self) -> String {
        let hash = self
            .text
            .bytes()
            .fold(0xcbf2_9ce4_8422_2325_u64, |hash, byte| (hash ^ u64::from(byte)).wrapping_mul(0x100_0000_01b3));
        let hash = format!("{hash:016x}");
        format!("{}/{}", &hash[..2], &hash[2..])
    }
}

impl Folder {
    /// The folder at this path. A relative path is resolved now: a process that changes its directory keeps the folder.
    pub(crate) fn new(path: impl AsRef<Path>) -> Self {
        let path = path.as_ref();
        // (an empty path is refused when a slot is opened)
        let is_resolved = path.is_absolute() || path.as_os_str().is_empty();
        let here = if is_resolved { PathBuf::new() } else { env::current_dir().unwrap_or_default() };
        Self { path: here.join(path) }
    }

    /// The slot of this key, which is made where it is missing.
    pub(crate) fn lock(&self, key: &Key) -> Result<Slot, StoreError> {
        self.lock_within(PATIENCE, key)
    }

    /// The same, whose lock is waited for so long. A lock that nobody has is taken, however long it took to come to it.
    fn lock_within(&self, patience: Duration, key: &Key) -> Result<Slot, StoreError> {
        self.lock_made(patience, key, |path| make(path, key))
    }

    /// The same, whose slot this makes in its folder.
    fn lock_made(
        &self,
        patience: Duration,
        key: &Key,
        mut make: impl FnMut(&Path) -> io::Result<()>,
    ) -> Result<Slot, StoreError> {
        if self.path.as_os_str().is_empty() {
            let why = "expected the path of a folder, got an empty one";
            return Err(StoreError::Io(PathBuf::new(), io::Error::new(io::ErrorKind::InvalidInput, why)));
        }
        let (path, began) = (self.path.join(key.place()), Instant::now());
        let (mut turns, mut unmade) = (0, 0);
        loop {
            let is_last = turns >= REMOVED && began.elapsed() > patience;
            match opened(&path) {
                Ok(file) => {
                    let file = Locked::of(file, &path, began, patience)?;
                    // (it may have been pruned before its lock was had)
                    if is_at(&file, &path) {
                        return Slot::read(path, file, key);
                    }
                }
                Err(error) if error.kind() == io::ErrorKind::NotFound => {
                    if path.is_symlink() {
                        return Err(StoreError::Damaged(path));
                    }
                    let folder = fs::create_dir_all(folder_of(&path));
                    unmade = if folder.is_ok() { 0 } else { unmade + 1 };
                    match folder.and_then(|()| make(&path)) {
                        Err(error) if may_be_removed(&error) && unmade < REMOVED && !is_last => (),
                        made => made.map_err(|error| self.refused(&path, error))?,
                    }
                }
                Err(error) => return Err(self.refused(&path, error)),
            }
            if is_last {
                return Err(StoreError::Locked(path));
            }
            turns = REMOVED.min(turns + 1);
        }
    }

    /// Why a slot can't be opened or made.
    fn refused(&self, path: &Path, error: io::Error) -> StoreError {
        match fs::metadata(&self.path) {
            Ok(found) if !found.is_dir() => StoreError::NotAFolder(self.path.clone()),
            _ => StoreError::Io(path.to_owned(), error),
        }
    }
}

/// Whether a folder may have been removed while a slot was made in it, or while it was made itself.
fn may_be_removed(error: &io::Error) -> bool {
    matches!(error.kind(), io::ErrorKind::NotFound | io::ErrorKind::AlreadyExists)
}

/// The file of a slot, to be read and written.
fn opened(path: &Path) -> io::Result<OwnFile> {
    OwnFile::opened(|| OpenOptions::new().read(true).write(true).open(path))
}

/// The folder that a slot is in.
fn folder_of(path: &Path) -> &Path {
    path.parent().unwrap_or(path)
}

/// Makes a slot with nothing counted in its folder, unless there is one: as a whole, so that nobody sees a part of one.
fn make(path: &Path, key: &Key) -> io::Result<()> {
    let folder = folder_of(path);
    let [first, second, ..] = random::next();
    let new = folder.join(format!(".new-{}-{first:08x}{second:08x}", std::process::id()));
    let linked = written(&new, key).and_then(|()| match fs::hard_link(&new, path) {
        Err(error) if error.kind() == io::ErrorKind::AlreadyExists => Ok(()),
        linked => linked,
    });
    let _ = fs::remove_file(&new);
    linked?;
    if key.period.is_none() {
        // (the names, too, last over a start of the machine)
        [Some(folder), folder.parent()].into_iter().flatten().try_for_each(|folder| File::open(folder)?.sync_all())?;
    }
    prune(folder);
    Ok(())
}

/// Writes a slot with nothing counted to a new file.
fn written(path: &Path, key: &Key) -> io::Result<()> {
    let window = key.window(&mut None)?;
    let slot = Record::new(&key.text, window.as_ref(), random::next()[0]).to_bytes();
    let file = OpenOptions::new().write(true).create_new(true).open(path)?;
    write_whole(&file, &slot)?;
    if window.is_none() {
        file.sync_all()
    } else {
        Ok(())
    }
}

/// Takes away some of a folder's files that nobody needs any more, from a random place on: so that it does not grow for
/// ever. What can't be read or locked stays.
fn prune(folder: &Path) {
    let entries: Vec<_> = fs::read_dir(folder).into_iter().flatten().flatten().collect();
    let from = random::next()[0] as usize % entries.len().max(1);
    for entry in entries.iter().cycle().skip(from).take(LOOKED_AT.min(entries.len())) {
        // (what can't be taken away is looked at again some day)
        let _ = if entry.file_name().to_string_lossy().starts_with(".new-") {
            prune_new(entry)
        } else {
            prune_slot(&entry.path())
        };
    }
}

/// Takes a file away that was to become a slot, and was left behind.
fn prune_new(entry: &DirEntry) -> io::Result<()> {
    let age = SystemTime::now().duration_since(entry.metadata()?.modified()?).unwrap_or_default();
    if age > LEFT_BEHIND {
        fs::remove_file(entry.path())
    } else {
        Ok(())
    }
}

/// Takes a slot away whose window is over for good, under its lock.
fn prune_slot(path: &Path) -> io::Result<()> {
    let file = Locked::at_once(opened(path)?).map_err(|(_, error)| error)?;
    let (boot, now) = (boot()?, now()?);
    let is_over = Record::read(&file, None).map_or(false, |record| record.is_over(&boot, now));
    if is_over && is_at(&file, path) {
        fs::remove_file(path)
    } else {
        Ok(())
    }
}

impl Locked {
    /// The file, once its lock is had: it is waited for until so long after that moment.
    fn of(mut file: OwnFile, path: &Path, began: Instant, patience: Duration) -> Result<Self, StoreError> {
        loop {
            file = match Self::at_once(file) {
                Ok(locked) => return Ok(locked),
                Err((_, error)) if error.kind() != io::ErrorKind::WouldBlock => {
                    return Err(StoreError::Io(path.to_owned(), error))
                }
                Err(_) if began.elapsed() > patience => return Err(StoreError::Locked(path.to_owned())),
                Err((file, _)) => file,
            };
            thread::sleep(Duration::from_millis(1));
        }
    }

    fn at_once(file: OwnFile) -> Result<Self, (OwnFile, io::Error)> {
        match try_lock(&file) {
            Ok(()) => Ok(Self(file)),
            Err(error) => Err((file, error)),
        }
    }
}

impl Deref for Locked {
    type Target = File;

    fn deref(&self) -> &File {
        &self.0
    }
}

impl Drop for Locked {
    fn drop(&mut self) {
        unlock(&self.0);
    }
}

impl Slot {
    /// What the file has of this key, unless it is no slot of it, or one that can't be written again.
    fn read(path: PathBuf, file: Locked, key: &Key) -> Result<Self, StoreError> {
        match Record::read(&file, Some(&key.text)).filter(|record| !record.is_last()) {
            Some(record) => Ok(Self { path, file, record, is_durable: key.period.is_none() }),
            None => Err(StoreError::Damaged(path)),
        }
    }

    /// What is stored as a whole, or of the window that was counted last: nothing where the slot has none of this start
    /// of the machine.
    pub(crate) fn stored(&self, window: Option<&Window>, known: &mut Known) -> Result<Stored, StoreError> {
        let (stored, number) = (self.record.stored(window), window.map_or(0, |window| window.number));
        let counted = if stored.window == number { stored.given } else { 0 };
        // (of a later window it has no count of the present one)
        match known.sees(self.record.file(), number, counted) {
            Some(seen) if stored.window <= number => Err(StoreError::Older { path: self.path.clone(), seen, counted }),
            _ => Ok(stored),
        }
    }

    /// Stores these counts, as a whole or of a window. They are on the disk then, where they have to outlast a start of
    /// the machine. Where one copy is lost on the way, the other one has the counts of before.
    pub(crate) fn set(mut self, window: Option<&Window>, stored: Stored, known: &mut Known) -> Result<(), StoreError> {
        self.record.set(window, stored);
        write_whole(&self.file, &self.record.to_bytes()).map_err(|error| self.failed(error))?;
        known.sees(self.record.file(), stored.window, stored.given);
        match self.is_durable {
            true => self.file.sync_data().map_err(|error| self.failed(error)),
            false => Ok(()),
        }
    }

    pub(crate) fn failed(&self, error: io::Error) -> StoreError {
        StoreError::Io(self.path.clone(), error)
    }

    pub(crate) fn lost(&self) -> StoreError {
        StoreError::Lost(self.path.clone())
    }
}

impl Known {
    /// Sees this count, unless it has seen a higher one of the same window of the same file: that one.
    fn sees(&mut self, file: u32, window: u64, given: u64) -> Option<u64> {
        match self.seen {
            (seen_file, seen_window, seen) if (seen_file, seen_window) == (file, window) && given < seen => Some(seen),
            _ => {
                self.seen = (file, window, given);
                None
            }
        }
    }
}

impl fmt::Display for StoreError {
    fn fmt(&self, f: &mut fmt::Formatter<'_>) -> fmt::Result {
        match self {
            Self::Io(path, error) if path.as_os_str().is_empty() => error.fmt(f),
            Self::Io(path, error) => write!(f, "{}: {error}", path.display()),
            Self::Locked(path) => write!(f, "{}: another process keeps it locked", path.display()),
            Self::Damaged(path) => {
                write!(f, "{}: expected a slot of counts of {SIZE} bytes, got another file", path.display())
            }
            Self::NotAFolder(path) => write!(
                f,
                "{}: expected a folder, got a file. Counts are kept in a folder now; name another path.",
                path.display()
            ),
            Self::Lost(path) => {
                write!(f, "{}: it counts a later window, and has lost the present one's count", path.display())
            }
            Self::Older { path, seen, counted } => {
                let (path, why) = (path.display(), "of an older copy; to begin anew, delete the file");
                write!(f, "{path}: expected a count of {seen} or more, got {counted} {why}")
            }
        }
    }
}

impl Error for StoreError {}

#[cfg(all(test, unix))]
mod tests {
    use super::{make, Folder, Key, Slot, StoreError, REMOVED};
    use std::path::{Path, PathBuf};
    use std::time::Duration;
    use std::{env, fs, io, process};

    /// A folder that there is not, of this name.
    fn scratch(name: &str) -> PathBuf {
        let path = env::temp_dir().join(format!("hikebox-{name}-{}", process::id()));
        let _ = fs::remove_dir_all(&path);
        path
    }

    #[test]
    fn a_lock_that_nobody_has_is_taken_without_any_patience() {
        let path = scratch("patience");
        let (folder, key) = (Folder::new(&path), Key::of_budget("b"));
        // it is made, and then it is there
        for _ in 0..2 {
            let slot = folder.lock_within(Duration::ZERO, &key).map_err(|error| error.to_string()).unwrap();
            let other = folder.lock_within(Duration::ZERO, &key);
            assert!(matches!(other, Err(StoreError::Locked(_))));
            drop(slot);
        }
        fs::remove_dir_all(&path).unwrap();
    }

    /// A slot of the folder at this path, which another process removes for so many turns: before the slot is made in
    /// it, or after.
    fn removed(path: &Path, patience: Duration, turns: u32, is_before: bool) -> Result<Slot, StoreError> {
        let (key, mut left) = (Key::of_windows("b", 1_000_000_000), turns);
        Folder::new(path).lock_made(patience, &key, |slot| {
            let is_removed = left > 0;
            left -= u32::from(is_removed);
            if is_removed && is_before {
                fs::remove_dir_all(path)?;
            }
            make(slot, &key)?;
            if is_removed {
                fs::remove_dir_all(path)?;
            }
            Ok(())
        })
    }

    #[test]
    fn a_folder_that_is_removed_again_and_again_stops_no_lease() {
        let path = scratch("removed");
        for (turns, patience) in [(2 * REMOVED, Duration::MAX), (REMOVED - 1, Duration::ZERO)] {
            for is_before in [true, false] {
                assert!(removed(&path, patience, turns, is_before).is_ok());
                fs::remove_dir_all(&path).unwrap();
            }
        }
        // and who has no patience left is told what failed
        let failed = [true, false].map(|is_before| removed(&path, Duration::ZERO, u32::MAX, is_before).err().unwrap());
        let [before, after] = &failed;
        assert!(matches!(before, StoreError::Io(_, error) if error.kind() == io::ErrorKind::NotFound), "{before}");
        assert!(matches!(after, StoreError::Locked(_)), "{after}");
    }

    #[cfg(target_os = "linux")]
    #[test]
    fn a_folder_that_can_not_be_made_is_refused_at_once() {
        let dangling = scratch("dangling");
        let _ = fs::remove_file(&dangling);
        std::os::unix::fs::symlink("no such folder", &dangling).unwrap();
        for (path, kind) in
            [(Path::new("/proc/no/folder"), io::ErrorKind::NotFound), (&dangling, io::ErrorKind::AlreadyExists)]
        {
            // (to wait would take for ever)
            let refused = Folder::new(path).lock_within(Duration::MAX, &Key::of_budget("b")).err().unwrap();
            assert!(matches!(&refused, StoreError::Io(_, error) if error.kind() == kind), "{refused}");
        }
        fs::remove_file(&dangling).unwrap();
    }
}

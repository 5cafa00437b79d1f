//! Folders of slots, under attack: damaged, full, removed, forked, killed, pruned, and in a time namespace. The bytes
//! of a slot are written here a second time, from the words of docs/MACHINES.md.
#![cfg(all(unix, feature = "leased"))]

#[macro_use]
mod common;

use common::{comes_to, counts, is_locked, is_open, keeper_of, number, number_in_the_end, Scratch};
use hikebox::{Leased, LeasedQuota, LimitError, StoreError};
use std::env;
use std::error::Error;
use std::fs;
use std::io::{BufRead, BufReader};
use std::os::unix::fs::symlink;
use std::path::{Path, PathBuf};
use std::process::{Child, Command, Output, Stdio};
use std::sync::atomic::{AtomicBool, Ordering};
use std::thread;
use std::time::{Duration, Instant};

trait Slots {
    fn files(&self) -> Vec<PathBuf>;
    fn slot(&self, key: &str) -> PathBuf;
    fn put(&self, key: &str, bytes: &[u8]);
}

impl Slots for Scratch {
    /// The files in it, by their paths.
    fn files(&self) -> Vec<PathBuf> {
        let in_folder = |path: PathBuf| fs::read_dir(path).unwrap().map(|entry| entry.unwrap().path());
        in_folder(self.0.clone()).flat_map(in_folder).collect()
    }

    /// Where the slot of this key is.
    fn slot(&self, key: &str) -> PathBuf {
        let mut hash = 0xcbf2_9ce4_8422_2325_u64;
        for byte in key.bytes() {
            hash = (hash ^ u64::from(byte)).wrapping_mul(0x100_0000_01b3);
        }
        let hash = format!("{hash:016x}");
        self.0.join(&hash[..2]).join(&hash[2..])
    }

    /// Puts these bytes into the slot of this key.
    fn put(&self, key: &str, bytes: &[u8]) {
        let path = self.slot(key);
        fs::create_dir_all(path.parent().unwrap()).unwrap();
        fs::write(path, bytes).unwrap();
    }
}

/// The CRC-32 of some bytes, bit by bit.
fn crc32(bytes: &[u8]) -> u32 {
    !bytes.iter().fold(!0, |sum, byte| {
        (0..8).fold(sum ^ u32::from(*byte), |sum, _| (sum >> 1) ^ (0xedb8_8320 & (sum & 1).wrapping_neg()))
    })
}

/// A copy of a slot, in a file of the number 0.
fn copy(key: &str, boot: &str, counts: [u64; 4]) -> Vec<u8> {
    copy_in(&[0; 4], key, boot, counts)
}

/// A copy of a slot, in a file of this number.
fn copy_in(number: &[u8], key: &str, boot: &str, [turn, window, given, asked]: [u64; 4]) -> Vec<u8> {
    let mut bytes = b"hikebox slot 1\n\0".to_vec();
    [turn, window, given, asked].iter().for_each(|number| bytes.extend(number.to_le_bytes()));
    bytes.extend(boot.as_bytes());
    bytes.resize(84, 0);
    bytes.extend((key.len() as u16).to_le_bytes());
    bytes.extend([0, 0]);
    bytes.extend(key.as_bytes());
    bytes.resize(504, 0);
    bytes.extend(number);
    let check = crc32(&bytes);
    bytes.extend(check.to_le_bytes());
    bytes
}

/// The name of this start of the machine.
fn boot() -> String {
    fs::read_to_string("/proc/sys/kernel/random/boot_id").unwrap().trim().to_owned()
}

/// A budget, and its leases of one ticket each.
fn budget(folder: impl AsRef<Path>, limit: u64) -> Leased {
    Leased::new(folder, "b", limit).unwrap().lease(1).again_after(Duration::ZERO)
}

/// A window that no test sees the end of.
const LONG: Duration = Duration::from_secs(1_000_000);

/// A quota with such a window.
fn long_quota(folder: impl AsRef<Path>, reserve: u64, share: f64) -> LeasedQuota {
    LeasedQuota::new(folder, "q", reserve, share, LONG).unwrap().lease(1).again_after(Duration::ZERO)
}

const LONG_QUOTA: &str = "quota of 1000000000 ms of q";

/// This process, doing what another test does, on this folder.
fn child(test: &str, folder: &Path) -> Command {
    let mut command = Command::new(env::current_exe().unwrap());
    command.args(["--ignored", "--exact", test, "--nocapture", "--test-threads=1"]).env("HIKEBOX_TEST_FOLDER", folder);
    command.stdout(Stdio::piped());
    command
}

/// The folder of a test that another one runs as a process.
fn given_folder() -> Option<PathBuf> {
    env::var_os("HIKEBOX_TEST_FOLDER").map(PathBuf::from)
}

/// What a process printed behind this word, line by line.
fn said(output: &Output, word: &str) -> Vec<String> {
    assert!(output.status.success(), "{}", String::from_utf8_lossy(&output.stdout));
    let text = String::from_utf8_lossy(&output.stdout);
    text.lines().filter_map(|line| Some(line.split_once(word)?.1.to_owned())).collect()
}

#[test]
fn a_slot_is_as_the_pages_say() {
    let folder = Scratch::new("bytes");
    assert_eq!(number(budget(&folder.0, 9).draw()), Some(0));
    assert_eq!(number(budget(&folder.0, 9).draw()), Some(1));
    // each file has a number of its own
    let slot = fs::read(folder.slot("budget b")).unwrap();
    assert_eq!(slot, copy_in(&slot[504..508], "budget b", "", [2, 0, 2, 0]).repeat(2));
    let _ = Leased::new(&folder.0, "c", 1).unwrap().draw();
    assert_ne!(slot[504..508], fs::read(folder.slot("budget c")).unwrap()[504..508]);

    let quota = long_quota(&folder.0, 3, 0.5);
    quota.deposit_of(4);
    assert_eq!(number(quota.draw()), Some(0));
    let window = quota.seen().unwrap().window;
    let slot = fs::read(folder.slot(LONG_QUOTA)).unwrap();
    assert_eq!(slot, copy_in(&slot[504..508], LONG_QUOTA, &boot(), [1, window, 1, 4]).repeat(2));
}

#[test]
fn a_slot_that_another_program_wrote_goes_on() {
    let folder = Scratch::new("written");
    let key = "budget b";
    folder.put(key, &[copy(key, "", [3, 0, 7, 0]), copy(key, "", [3, 0, 7, 0])].concat());
    assert_eq!(number(budget(&folder.0, 9).draw()), Some(7));
    // of two copies the later one counts, wherever it is, and of a damaged one the other does
    folder.put(key, &[copy(key, "", [4, 0, 5, 0]), copy(key, "", [3, 0, 4, 0])].concat());
    assert_eq!(number(budget(&folder.0, 9).draw()), Some(5));
    folder.put(key, &[copy(key, "", [3, 0, 4, 0]), copy(key, "", [4, 0, 5, 0])].concat());
    assert_eq!(number(budget(&folder.0, 9).draw()), Some(5));
    for damaged in 0..2 {
        let mut copies = [copy(key, "", [8, 0, 2, 0]), copy(key, "", [8, 0, 2, 0])];
        copies[damaged][33] ^= 1;
        folder.put(key, &copies.concat());
        assert_eq!(number(budget(&folder.0, 9).draw()), Some(2));
        // both are right again
        assert_eq!(fs::read(folder.slot(key)).unwrap(), copy(key, "", [9, 0, 3, 0]).repeat(2));
    }
}

#[test]
fn a_slot_of_another_window_counts_as_it_should() {
    let (folder, other) = (Scratch::new("windows"), Scratch::new("window"));
    let window = long_quota(&other.0, 1, 0.0).seen().unwrap().window;
    let put = |boot: &str, window| folder.put(LONG_QUOTA, &copy(LONG_QUOTA, boot, [3, window, 7, 20]).repeat(2));
    put(&boot(), window);
    let next = Duration::from_secs((window + 1) * 1_000_000);
    assert_eq!(counts(long_quota(&folder.0, 5, 0.2).seen().unwrap()), (window, 20, 7, 2, next));
    assert_eq!(number(long_quota(&folder.0, 5, 0.2).draw()), Some(7));
    // one of another start of the machine
    put("00000000-0000-0000-0000-000000000000", window + 1);
    assert_eq!(number(long_quota(&folder.0, 5, 0.2).draw()), Some(0));
    // a later one of this start has lost the present one's count
    put(&boot(), window + 1);
    assert_store_fails!(long_quota(&folder.0, 5, 0.2).draw(), StoreError::Lost(_));
    let lost = long_quota(&folder.0, 5, 0.2).seen().unwrap_err();
    assert!(matches!(&lost, StoreError::Lost(path) if *path == folder.slot(LONG_QUOTA)));
    assert!(lost.to_string().starts_with(&*folder.slot(LONG_QUOTA).to_string_lossy()), "{lost}");
}

#[test]
fn a_window_that_is_over_counts_for_nothing() {
    let (folder, key) = (Scratch::new("over"), "quota of 1000 ms of q");
    let quota = || LeasedQuota::new(&folder.0, "q", 9, 0.0, Duration::from_secs(1)).unwrap();
    let drew_at_once = || {
        let window = quota().seen().unwrap().window;
        folder.put(key, &copy(key, &boot(), [3, window - 1, 9, 20]).repeat(2));
        (number(quota().draw()), quota().seen().unwrap().window == window)
    };
    // (where a window ended just then, it is tried in the next)
    comes_to(|| {
        let (drawn, is_same_window) = drew_at_once();
        assert!(!is_same_window || drawn == Some(0), "{drawn:?}");
        is_same_window
    });
}

#[test]
fn a_turn_that_is_the_last_one_grants_nothing() {
    let (folder, key) = (Scratch::new("turns"), "budget b");
    let of_turn = |turn| copy(key, "", [turn, 0, 1, 0]).repeat(2);
    folder.put(key, &of_turn(u64::MAX));
    assert_store_fails!(budget(&folder.0, 9).draw(), StoreError::Damaged(path) if *path == folder.slot(key));
    assert_eq!(fs::read(folder.slot(key)).unwrap(), of_turn(u64::MAX));
    folder.put(key, &of_turn(u64::MAX - 1));
    assert_eq!(number(budget(&folder.0, 9).draw()), Some(1));
    assert_store_fails!(budget(&folder.0, 9).draw(), StoreError::Damaged(_));
}

/// Puts a copy of a slot in its place, as where a folder is put back.
fn put_back(folder: &Scratch, key: &str, copy: &[u8]) {
    fs::remove_file(folder.slot(key)).unwrap();
    folder.put(key, copy);
}

#[test]
fn an_older_copy_of_a_file_grants_nothing_to_who_has_seen_more() {
    let (folder, key) = (Scratch::new("older"), "budget b");
    let (first, other) = (budget(&folder.0, 99), budget(&folder.0, 99));
    assert_eq!([number(first.draw()), number(first.draw())], [Some(0), Some(1)]);
    let copy = fs::read(folder.slot(key)).unwrap();
    assert_eq!([number(other.draw()), number(first.draw())], [Some(2), Some(3)]);
    put_back(&folder, key, &copy);
    for _ in 0..2 {
        let failed = first.draw().unwrap_err().to_string();
        let why = "expected a count of 4 or more, got 2 of an older copy; to begin anew, delete the file";
        assert_eq!(failed, format!("the store of tickets failed: {}: {why}", folder.slot(key).display()));
        assert_eq!(fs::read(folder.slot(key)).unwrap(), copy);
    }
    assert_store_fails!(other.draw(), StoreError::Older { seen: 3, counted: 2, .. });
    // who has seen no more can't tell; and nobody leases a number again below those that it has seen leased
    let third = budget(&folder.0, 99);
    assert_eq!([number(third.draw()), number(third.draw()), number(third.draw())], [Some(2), Some(3), Some(4)]);
    assert_eq!(number(first.draw()), Some(5));
    // a file that is made anew begins anew
    fs::remove_file(folder.slot(key)).unwrap();
    assert_eq!([number(other.draw()), number(first.draw())], [Some(0), Some(1)]);
}

#[test]
fn an_older_copy_of_a_window_grants_nothing_of_it() {
    let (folder, other) = (Scratch::new("older-window"), Scratch::new("window-of-older"));
    let window = long_quota(&other.0, 1, 0.0).seen().unwrap().window;
    let other_boot = "00000000-0000-0000-0000-000000000000";
    let put = |boot: &str, given| folder.put(LONG_QUOTA, &copy(LONG_QUOTA, boot, [3, window, given, 0]).repeat(2));
    let quota = long_quota(&folder.0, 9, 0.0);
    put(&boot(), 4);
    assert_eq!(number(quota.draw()), Some(4));
    put(&boot(), 4);
    assert_store_fails!(quota.draw(), StoreError::Older { seen: 5, counted: 4, .. });
    // one of a window of before
    put(other_boot, 8);
    assert_store_fails!(quota.draw(), StoreError::Older { seen: 5, counted: 0, .. });
    put(&boot(), 5);
    assert_eq!(number(quota.draw()), Some(5));
}

/// Each attack on a file grants nothing, tells the file, leaves it as it is, and harms no other name.
#[test]
fn a_file_that_is_no_slot_of_the_name_grants_nothing() {
    let folder = Scratch::new("damaged");
    let (key, good) = ("budget b", copy("budget b", "", [3, 0, 1, 0]).repeat(2));
    let mut flipped = good.clone();
    (flipped[40], flipped[600]) = (1, 1);
    let too_long = [&good[..], b"\n"].concat();
    let another = copy("budget c", "", [3, 0, 1, 0]).repeat(2);
    let old = b"hikebox counts 1 19 2643005063\n{\"budget b\":[\"\",8]}".to_vec();
    for bytes in [vec![], good[..700].to_vec(), vec![0; 1024], vec![255; 1024], flipped, too_long, another, old] {
        folder.put(key, &bytes);
        assert_store_fails!(budget(&folder.0, 9).draw(), StoreError::Damaged(path) if *path == folder.slot(key));
        let damaged = budget(&folder.0, 9).draw().unwrap_err();
        assert!(damaged.to_string().contains(": expected a slot of counts of 1024 bytes, got another file"));
        assert_eq!(fs::read(folder.slot(key)).unwrap(), bytes);
        assert!(number(Leased::new(&folder.0, "c", 9).unwrap().draw()).is_some());
    }
    fs::remove_file(folder.slot(key)).unwrap();
    fs::create_dir(folder.slot(key)).unwrap();
    assert_store_fails!(budget(&folder.0, 9).draw(), StoreError::Io(..));
    fs::remove_dir(folder.slot(key)).unwrap();
    for other in ["/dev/zero", "/no such file"] {
        symlink(other, folder.slot(key)).unwrap();
        assert_store_fails!(budget(&folder.0, 9).draw(), StoreError::Damaged(_));
        fs::remove_file(folder.slot(key)).unwrap();
    }
    let quota_key = LONG_QUOTA;
    folder.put(quota_key, &copy(key, "", [3, 0, 1, 0]).repeat(2));
    assert!(matches!(long_quota(&folder.0, 9, 1.0).seen(), Err(StoreError::Damaged(_))));
}

#[test]
fn a_file_of_the_old_form_is_refused_with_what_to_do() {
    let folder = Scratch::new("old");
    fs::write(&folder.0, "hikebox counts 1 19 2643005063\n{\"budget b\":[\"\",8]}").unwrap();
    let refused = budget(&folder.0, 9).draw().unwrap_err().to_string();
    let expected = "expected a folder, got a file. Counts are kept in a folder now; name another path.";
    let expected = format!("the store of tickets failed: {}: {expected}", folder.0.display());
    assert_eq!(refused, expected);
    assert!(matches!(long_quota(&folder.0, 9, 1.0).seen(), Err(StoreError::NotAFolder(path)) if path == folder.0));
    fs::remove_file(&folder.0).unwrap();
    assert_eq!(number(budget(&folder.0, 9).draw()), Some(0));
}

#[test]
fn a_place_where_no_folder_can_be_grants_nothing() {
    assert_store_fails!(budget("/proc/no/folder", 10).draw(), StoreError::Io(..));
    let error = long_quota("/proc/no/folder", 9, 1.0).seen().unwrap_err();
    assert!(matches!(error, StoreError::Io(..)));
    // its cause is in its text, so those who print an error with its sources tell that once
    assert!(error.to_string().contains("No such file or directory") && error.source().is_none());
    assert!(error.to_string().starts_with("/proc/no/folder/"), "{error}");
    assert_store_fails!(budget("", 10).draw(), StoreError::Io(..));
    let empty = long_quota("", 9, 1.0).seen().unwrap_err().to_string();
    assert_eq!(empty, "expected the path of a folder, got an empty one");
}

#[test]
fn a_name_has_1_to_255_bytes() {
    let folder = Scratch::new("names");
    let refused = |name: &str| Leased::new(&folder.0, name, 9).unwrap_err();
    assert_eq!(refused("").to_string(), "expected a name of 1 to 255 bytes, got 0");
    assert_eq!(refused(&"é".repeat(128)), LimitError::NameLength { bytes: 256 });
    let of_quota = LeasedQuota::new(&folder.0, "", 9, 0.0, Duration::from_secs(1)).unwrap_err();
    assert_eq!(of_quota, LimitError::NameLength { bytes: 0 });
    for name in ["x".repeat(255), "é".repeat(127), "a/../b\n\0".to_owned(), " ".to_owned()] {
        let budget = Leased::new(&folder.0, name.as_str(), 9).unwrap();
        assert_eq!(number(budget.draw()), Some(0), "{name:?}");
        let by_windows = Leased::new(&folder.0, name.as_str(), 9).unwrap().in_each(Duration::from_millis(u64::MAX));
        assert_eq!(number(by_windows.draw()), Some(0), "{name:?}");
    }
}

#[test]
fn a_folder_that_was_removed_is_made_again() {
    let folder = Scratch::new("removed");
    let budget = Leased::new(&folder.0, "b", 9).unwrap().lease(2);
    assert_eq!(number(budget.draw()), Some(0));
    fs::remove_dir_all(&folder.0).unwrap();
    // the lease that is held goes on, and then all begins anew
    assert_eq!(number(budget.draw()), Some(1));
    assert_eq!([number(budget.draw()), number(budget.draw())], [Some(0), Some(1)]);
    assert_eq!(number(budget.draw()), Some(2));
}

#[test]
fn a_process_that_changes_its_directory_keeps_the_folder() {
    let folder = Scratch::new("relative");
    fs::create_dir(&folder.0).unwrap();
    let output = child("process_that_changes_its_directory", &folder.0).current_dir(&folder.0).output().unwrap();
    assert_eq!(said(&output, "drawn "), ["Some(0)", "Some(1)", "Some(2)", "None"]);
    assert!(folder.0.join("counts").is_dir());
}

/// A process that draws on a folder beside it, and changes its directory after the first ticket.
#[test]
#[ignore = "run by a_process_that_changes_its_directory_keeps_the_folder"]
fn process_that_changes_its_directory() {
    if given_folder().is_some() {
        let budget = budget("counts", 3);
        for _ in 0..4 {
            println!("drawn {:?}", number(budget.draw()));
            env::set_current_dir("/").unwrap();
        }
    }
}

/// Another thread takes the folder away while leases are made in it: as a whole each time, which costs a lease two turns
/// at most. So often the leases are tried again however long that takes.
#[test]
fn a_folder_that_is_removed_again_and_again_stops_no_lease() {
    let (folder, removed) = (Scratch::new("removing"), Scratch::new("taken-away"));
    fs::create_dir(&removed.0).unwrap();
    for name in 0..40 {
        let draws = || Leased::new(&folder.0, format!("b{name}"), 9).unwrap().in_each(LONG).draw();
        let drawn = thread::scope(|scope| {
            let lease = scope.spawn(draws);
            for turn in 0..45 {
                let other = removed.0.join(format!("{name}-{turn}"));
                while fs::rename(&folder.0, &other).is_err() && !lease.is_finished() {
                    thread::yield_now();
                }
            }
            lease.join().unwrap()
        });
        assert_eq!(number(drawn), Some(0));
    }
}

#[test]
fn a_slot_that_another_process_keeps_locked_grants_nothing() {
    let folder = Scratch::new("locked");
    assert_eq!(number(budget(&folder.0, 10).draw()), Some(0));
    let mut keeper = keeper_of(&folder.slot("budget b"));
    let locked = budget(&folder.0, 10).draw().unwrap_err().to_string();
    let slot = folder.slot("budget b");
    assert_eq!(locked, format!("the store of tickets failed: {}: another process keeps it locked", slot.display()));
    // other names have locks of their own
    assert_eq!(number(long_quota(&folder.0, 10, 0.0).draw()), Some(0));
    drop(keeper.stdin.take());
    keeper.wait().unwrap();
    // nothing was counted meanwhile
    assert_eq!(number(budget(&folder.0, 10).draw()), Some(1));
}

/// A slot that was taken away and made anew while its lock was waited for: the new one counts.
#[test]
fn a_slot_that_was_replaced_meanwhile_is_opened_again() {
    // (a process that is stopped for so long gives the lock up, and it is tried anew)
    for _ in 0..10 {
        let folder = Scratch::new("replaced");
        assert_eq!(number(budget(&folder.0, 10).draw()), Some(0));
        let path = folder.slot("budget b");
        let mut keeper = keeper_of(&path);
        let waited = thread::scope(|scope| {
            let waits = scope.spawn(|| budget(&folder.0, 10).draw());
            comes_to(|| is_open(&path) || waits.is_finished());
            fs::remove_file(&path).unwrap();
            assert_eq!(number(budget(&folder.0, 10).draw()), Some(0));
            assert_eq!(number(budget(&folder.0, 10).draw()), Some(1));
            drop(keeper.stdin.take());
            waits.join().unwrap()
        });
        keeper.wait().unwrap();
        match waited {
            Err(failed) if is_locked(&failed) => (),
            drawn => return assert_eq!(number(drawn), Some(2)),
        }
    }
    panic!("the lock was given up each time");
}

/// What a process of the next test does, in a file system of 24 KB: it fills it up while it draws, and makes room
/// again.
#[test]
#[ignore = "run by a_full_disk_stops_and_damages_no_slot"]
fn process_on_a_full_disk() {
    let disk = match given_folder() {
        Some(folder) => folder,
        None => return,
    };
    let folder = disk.join("counts");
    let new = Leased::new(&folder, "new", 10).unwrap().again_after(Duration::ZERO);
    let old = budget(&folder, 10);
    assert_eq!(number(old.draw()), Some(0));
    let filler = disk.join("filler");
    let full = fs::write(&filler, vec![0; 1 << 20]).unwrap_err();
    assert_eq!(full.raw_os_error(), Some(28), "{full}");
    // a slot that there is goes on, and for a new one there is no room
    assert_eq!(number(old.draw()), Some(1));
    assert_store_fails!(new.draw(), StoreError::Io(_, error) if error.raw_os_error() == Some(28));
    fs::remove_file(&filler).unwrap();
    assert_eq!((number(old.draw()), number(new.draw())), (Some(2), Some(0)));
    println!("went through");
}

#[test]
fn a_full_disk_stops_and_damages_no_slot() {
    let disk = Scratch::new("full");
    fs::create_dir_all(&disk.0).unwrap();
    let test = child("process_on_a_full_disk", &disk.0);
    let mount = r#"mount -t tmpfs -o size=24k none "$HIKEBOX_TEST_FOLDER" || exit 77; exec "$0" "$@""#;
    let mut unshared = Command::new("unshare");
    unshared.args(["--mount", "--map-root-user", "sh", "-c", mount]).arg(test.get_program()).args(test.get_args());
    let output = unshared.env("HIKEBOX_TEST_FOLDER", &disk.0).output().unwrap();
    if output.status.code() == Some(77) || String::from_utf8_lossy(&output.stderr).starts_with("unshare:") {
        eprintln!("skipped: no file system can be mounted here: {}", String::from_utf8_lossy(&output.stderr));
        return;
    }
    assert_eq!(said(&output, "went through"), [""]);
}

/// What a process of the next test does: it says which window it is, and draws.
#[test]
#[ignore = "run by a_time_namespace_counts_in_the_same_windows"]
fn process_in_a_time_namespace() {
    let folder = match given_folder() {
        Some(folder) => folder,
        None => return,
    };
    println!("uptime {}", fs::read_to_string("/proc/uptime").unwrap());
    let (quota, by_windows) = (long_quota(&folder, 9, 0.0), Leased::new(&folder, "b", 9).unwrap());
    let by_windows = by_windows.in_each(Duration::from_secs(1_000_000)).lease(1);
    println!("drew {:?} {:?}", number(quota.draw()), number(by_windows.draw()));
    println!("window {}", quota.seen().unwrap().window);
}

#[test]
fn a_time_namespace_counts_in_the_same_windows() {
    let folder = Scratch::new("namespace");
    let test = child("process_in_a_time_namespace", &folder.0);
    let quota = long_quota(&folder.0, 9, 0.0);
    let by_windows = Leased::new(&folder.0, "b", 9).unwrap().in_each(Duration::from_secs(1_000_000)).lease(1);
    let draw = || (number(quota.draw()), number(by_windows.draw()));
    assert_eq!(draw(), (Some(0), Some(0)));
    for (round, offset) in ["40000000", "-1"].into_iter().enumerate() {
        let mut unshared = Command::new("unshare");
        unshared.args(["--time", "--fork", "--map-root-user", "--boottime", offset]);
        let output = unshared.arg(test.get_program()).args(test.get_args()).env("HIKEBOX_TEST_FOLDER", &folder.0);
        let output = output.output().unwrap();
        if String::from_utf8_lossy(&output.stderr).contains("unshare:") {
            eprintln!("skipped: no time namespace here: {}", String::from_utf8_lossy(&output.stderr));
            return;
        }
        let number = 1 + 2 * round;
        assert_eq!(said(&output, "drew "), [format!("Some({number}) Some({number})")]);
        assert_eq!(said(&output, "window "), [quota.seen().unwrap().window.to_string()]);
        // and the machine's own processes go on in it
        assert_eq!(draw(), (Some(number as u64 + 1), Some(number as u64 + 1)));
    }
}

/// A child that was forked while a thread leased inherits the open file, and must not keep its lock.
#[test]
fn a_fork_while_a_thread_leases_leaves_no_lock_behind() {
    let folder = Scratch::new("fork");
    let (budget, quota) = (budget(&folder.0, 1 << 40), long_quota(&folder.0, 1 << 30, 0.0));
    let (is_over, mut children) = (AtomicBool::new(false), vec![]);
    thread::scope(|scope| {
        scope.spawn(|| {
            while !is_over.load(Ordering::Relaxed) {
                number(budget.draw());
                number(quota.draw());
            }
        });
        for _ in 0..60 {
            // SAFETY: the child calls what is safe after a fork alone.
            match unsafe { libc::fork() } {
                0 => unsafe {
                    libc::sleep(60);
                    libc::_exit(0)
                },
                // (to kill the process -1 would be to kill them all)
                child if child > 0 => children.push(child),
                _ => (),
            }
            thread::sleep(Duration::from_millis(2));
        }
        is_over.store(true, Ordering::Relaxed);
    });
    // (a lock that one of them kept would be given up after five seconds)
    let drawn = (Leased::new(&folder.0, "b", 1 << 40).unwrap().draw(), long_quota(&folder.0, 1 << 30, 0.0).draw());
    let forked = children.len();
    for child in children {
        // SAFETY: they are children of this process that were not waited for.
        unsafe {
            libc::kill(child, libc::SIGKILL);
            libc::waitpid(child, std::ptr::null_mut(), 0);
        }
    }
    assert!(matches!(drawn, (Ok(_), Ok(_))), "{drawn:?}");
    assert_eq!(forked, 60);
}

/// What a process of the next test does: it forks while a thread leases, and dies at once. Its child lives on until its
/// standard input ends.
#[test]
#[ignore = "run by a_process_that_dies_after_a_fork_leaves_no_lock_behind"]
fn process_that_forks_and_dies() {
    let folder = match given_folder() {
        Some(folder) => folder,
        None => return,
    };
    static LEASES: AtomicBool = AtomicBool::new(false);
    let quota = long_quota(&folder, 1 << 30, 0.0);
    thread::spawn(move || {
        while quota.draw().is_ok() {
            LEASES.store(true, Ordering::Relaxed);
        }
    });
    comes_to(|| LEASES.load(Ordering::Relaxed));
    let mut byte = 0_u8;
    // SAFETY: the child calls what is safe after a fork alone, and the parent ends.
    unsafe {
        match libc::fork() {
            0 => {
                (1..3).for_each(|stream| assert_eq!(libc::close(stream), 0));
                libc::read(0, (&mut byte as *mut u8).cast(), 1);
                libc::_exit(0)
            }
            _ => libc::kill(libc::getpid(), libc::SIGKILL),
        };
    }
}

#[test]
fn a_process_that_dies_after_a_fork_leaves_no_lock_behind() {
    let folder = Scratch::new("fork-dies");
    for _ in 0..30 {
        let mut process = child("process_that_forks_and_dies", &folder.0).stdin(Stdio::piped()).spawn().unwrap();
        let input = process.stdin.take();
        let output = process.wait_with_output().unwrap();
        assert!(!output.status.success());
        // (a lock that the child kept would be given up after five seconds)
        long_quota(&folder.0, 1 << 30, 0.0).draw().unwrap();
        drop(input);
    }
}

#[test]
fn windows_that_are_over_are_pruned_and_budgets_stay() {
    let folder = Scratch::new("pruned");
    for name in 0..200 {
        number(Leased::new(&folder.0, format!("whole {name}"), 9).unwrap().draw());
    }
    for name in 0..6_000 {
        let budget = Leased::new(&folder.0, format!("name {name}"), 9).unwrap().in_each(Duration::from_millis(1));
        number(budget.lease(1).draw());
    }
    let files = folder.files().len();
    assert!((200..200 + 256 * 4).contains(&files), "{files}");
    for name in 0..200 {
        assert!(folder.slot(&format!("budget whole {name}")).exists());
    }
}

#[test]
fn what_dying_processes_left_behind_is_pruned() {
    let folder = Scratch::new("left");
    let slot = folder.slot("budget b");
    let place = slot.parent().unwrap();
    fs::create_dir_all(place).unwrap();
    let (old, young, others) = (place.join(".new-1-old"), place.join(".new-1-young"), place.join("others"));
    [&old, &young, &others].into_iter().for_each(|path| fs::write(path, "half").unwrap());
    for path in [&old, &others] {
        assert!(Command::new("touch").args(["-d", "2 minutes ago"]).arg(path).status().unwrap().success());
    }
    assert_eq!(number(budget(&folder.0, 9).draw()), Some(0));
    assert_eq!([old.exists(), young.exists(), others.exists()], [false, true, true]);
}

/// Processes that make and prune slots of one folder at once draw each ticket of a window once.
#[test]
fn slots_that_are_pruned_while_others_draw_grant_nothing_twice() {
    let folder = Scratch::new("pruning");
    let period = Duration::from_millis(1);
    let drawn: Vec<_> = thread::scope(|scope| {
        let threads: Vec<_> = (0..8)
            .map(|thread| {
                let folder = &folder.0;
                scope.spawn(move || {
                    let mut drawn = vec![];
                    for round in 0..400 {
                        // (all of them in one window that lasts, among many that are over)
                        let many = Leased::new(folder, format!("{thread} {round}"), 9).unwrap().in_each(period);
                        number_in_the_end(|| many.draw());
                        drawn.extend(number_in_the_end(|| long_quota(folder, 1 << 20, 0.0).draw()));
                        let ticket = number_in_the_end(|| budget(folder, 1 << 20).draw());
                        drawn.extend(ticket.map(|ticket| ticket + (1 << 32)));
                    }
                    drawn
                })
            })
            .collect();
        threads.into_iter().flat_map(|thread| thread.join().unwrap()).collect()
    });
    let mut sorted = drawn.clone();
    sorted.sort_unstable();
    sorted.dedup();
    assert_eq!((sorted.len(), drawn.len()), (6_400, 6_400));
}

/// How long a lease takes does not grow with the names: 4,000 of them have 256 folders, and a file each. Both are leased
/// in turns, and the least times count: a busy machine makes some of them longer.
#[test]
fn a_lease_among_many_names_is_as_quick_as_alone() {
    let (alone, many) = (Scratch::new("alone"), Scratch::new("many"));
    for name in 0..4_000 {
        let quota = LeasedQuota::new(&many.0, format!("n{name}"), 9, 0.0, Duration::from_secs(1_000_000)).unwrap();
        number(quota.draw());
    }
    let quotas = [long_quota(&alone.0, 1 << 20, 0.0), long_quota(&many.0, 1 << 20, 0.0)];
    let mut least = [Duration::MAX; 2];
    for _ in 0..200 {
        for (quota, least) in quotas.iter().zip(&mut least) {
            let began = Instant::now();
            number(quota.draw());
            *least = began.elapsed().min(*least);
        }
    }
    let [alone, many] = least;
    assert!(many < 5 * alone + Duration::from_millis(1), "{alone:?} alone, {many:?} among 4,000");
}

fn killed(mut child: Child) {
    child.kill().unwrap();
    child.wait().unwrap();
}

/// What a process of the next test does: it makes slots until it is killed.
#[test]
#[ignore = "run by a_process_that_is_killed_leaves_no_half_slot"]
fn process_that_makes_slots() {
    let folder = match given_folder() {
        Some(folder) => folder,
        None => return,
    };
    for name in 0_u64.. {
        number(Leased::new(&folder, format!("{} {name}", std::process::id()), 9).unwrap().lease(1).draw());
        println!("made {name}");
    }
}

#[test]
fn a_process_that_is_killed_leaves_no_half_slot() {
    let folder = Scratch::new("killed");
    for made in 2..22 {
        let mut child = child("process_that_makes_slots", &folder.0).spawn().unwrap();
        let lines = BufReader::new(child.stdout.take().unwrap()).lines();
        assert_eq!(lines.filter(|line| line.as_ref().unwrap().contains("made")).take(made).count(), made);
        killed(child);
    }
    let is_slot = |path: &PathBuf| !path.file_name().unwrap().to_string_lossy().starts_with(".new-");
    let slots: Vec<_> = folder.files().into_iter().filter(is_slot).collect();
    assert!(slots.len() > 20);
    for path in slots {
        let bytes = fs::read(&path).unwrap();
        let length = usize::from(bytes[84]);
        let key = std::str::from_utf8(&bytes[88..88 + length]).unwrap();
        assert_eq!((bytes.len(), &path), (1024, &folder.slot(key)));
        let counts = |turn| copy_in(&bytes[504..508], key, "", [turn, 0, turn, 0]);
        assert!(bytes[..512] == counts(0) || bytes[..512] == counts(1), "{key}");
        assert!(bytes[512..] == counts(0) || bytes[512..] == counts(1), "{key}");
    }
}

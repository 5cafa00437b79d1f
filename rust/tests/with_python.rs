//! Folders of slots that this crate and the Python package of the repository share.
#![cfg(all(unix, feature = "leased"))]

mod common;

use common::{number, printed, python, Scratch};
use hikebox::{Leased, LeasedQuota};
use std::fs;
use std::path::{Path, PathBuf};
use std::time::Duration;

/// What this program of Python prints, which has a store of this folder; `None` where there is no Python package.
fn said_by_python(folder: &Path, program: &str) -> Option<Vec<String>> {
    let begins =
        "import sys\nfrom hikebox.leased import FileStore, Leased, LeasedQuota\nstore = FileStore(sys.argv[1])\n\
                  def number(ticket):\n    return getattr(ticket, 'number', ticket)\n";
    python(&format!("{begins}{program}")).map(|mut command| printed(command.arg(folder)))
}

/// The files of a folder: their paths in it, and what they have.
fn files(folder: &Path) -> Vec<(PathBuf, Vec<u8>)> {
    let entries = |folder: &Path| fs::read_dir(folder).unwrap().map(|entry| entry.unwrap().path()).collect::<Vec<_>>();
    let all = entries(folder).into_iter().flat_map(|subfolder| entries(&subfolder));
    let mut files: Vec<_> =
        all.map(|path| (path.strip_prefix(folder).unwrap().to_owned(), fs::read(&path).unwrap())).collect();
    files.sort();
    files
}

const DRAWS_OF_PYTHON: &str = "
budget = Leased(store, 'näme', 100, lease=1)
windows = Leased(store, 'näme', 100, per=1000000, lease=1)
quota = LeasedQuota(store, 'näme', 4, 0.5, 1000000, lease=1)
quota.deposit(6)
print(number(budget.draw()), number(windows.draw()), number(quota.draw()))
";

/// The same of this crate.
fn draws(folder: &Path) -> Vec<String> {
    let long = Duration::from_secs(1_000_000);
    let budget = Leased::new(folder, "näme", 100).unwrap().lease(1);
    let windows = Leased::new(folder, "näme", 100).unwrap().in_each(long).lease(1);
    let quota = LeasedQuota::new(folder, "näme", 4, 0.5, long).unwrap().lease(1);
    quota.deposit_of(6);
    let drawn = [budget.draw(), windows.draw(), quota.draw()].map(|drawn| number(drawn).unwrap().to_string());
    vec![drawn.join(" ")]
}

#[test]
fn both_write_the_same_bytes() {
    let (own, pythons) = (Scratch::new("own"), Scratch::new("pythons"));
    match said_by_python(&pythons.0, DRAWS_OF_PYTHON) {
        Some(said) => assert_eq!(said, ["0 0 0"]),
        None => return eprintln!("skipped: no Python package beside the crate"),
    }
    assert_eq!(draws(&own.0), ["0 0 0"]);
    // (but for the number of the file, which is random, and so for the sum over it)
    let without_number = |mut files: Vec<(PathBuf, Vec<u8>)>| {
        files.iter_mut().for_each(|(_, slot)| [504, 1016].iter().for_each(|at| slot[*at..at + 8].fill(0)));
        files
    };
    let (own, pythons) = (files(&own.0), files(&pythons.0));
    assert_eq!(own.len(), 3);
    assert_eq!(without_number(own), without_number(pythons));
}

#[test]
fn both_draw_in_turns_of_one_folder() {
    if python("").is_none() {
        return eprintln!("skipped: no Python package beside the crate");
    }
    for begins in [true, false] {
        let folder = Scratch::new("both");
        for turn in 0..4 {
            let drawn = if (turn % 2 == 0) == begins {
                draws(&folder.0)
            } else {
                said_by_python(&folder.0, DRAWS_OF_PYTHON).unwrap()
            };
            assert_eq!(drawn, [format!("{turn} {turn} {turn}")]);
        }
        // of the 24 requests that all told, and the reserve of 4
        let quota = LeasedQuota::new(&folder.0, "näme", 4, 0.5, Duration::from_secs(1_000_000)).unwrap();
        let usage = quota.seen().unwrap();
        assert_eq!((usage.asked, usage.given, usage.left), (24, 4, 12));
    }
}

//! What the crate calls on macOS, and that it refuses folders on Windows, checked by the compiler on Linux: with what
//! `libc` declares for macOS.
#![cfg(all(unix, feature = "leased"))]

mod common;

use common::Scratch;
use std::fs;
use std::path::Path;
use std::process::Command;

/// The part of `libc` that the crate calls on macOS, as it is declared there.
const LIBC_OF_MACOS: &str = r#"
#![allow(non_camel_case_types)]
pub type clockid_t = u32;
pub const CLOCK_MONOTONIC_RAW: clockid_t = 4;
pub const LOCK_EX: i32 = 2;
pub const LOCK_NB: i32 = 4;
pub const LOCK_UN: i32 = 8;
#[repr(C)]
pub struct timespec { pub tv_sec: i64, pub tv_nsec: i64 }
pub enum c_void {}
extern "C" {
    pub fn flock(fd: i32, operation: i32) -> i32;
    pub fn close(fd: i32) -> i32;
    pub fn clock_gettime(clock: clockid_t, time: *mut timespec) -> i32;
    pub fn sysctlbyname(name: *const i8, old: *mut c_void, old_len: *mut usize, new: *mut c_void, new_len: usize) -> i32;
}
"#;

fn compile(folder: &Path, name: &str, more: &[&str]) {
    let mut rustc = Command::new("rustc");
    rustc.args(["--edition", "2021", "--crate-type", "lib", "--emit", "metadata", "-D", "warnings", "-A", "dead_code"]);
    let output = rustc.args(more).arg(name).current_dir(folder).output().unwrap();
    assert!(output.status.success(), "{}", String::from_utf8_lossy(&output.stderr));
}

#[test]
fn locks_and_the_start_of_the_machine_are_had_on_macos() {
    let folder = Scratch::new("macos");
    fs::create_dir(&folder.0).unwrap();
    let files = include_str!("../src/system/files.rs");
    // each of the two has its own, and nothing else differs
    let (linux, apple) = (r#"#[cfg(target_os = "linux")]"#, r#"#[cfg(target_vendor = "apple")]"#);
    assert_eq!([linux, apple].map(|cfg| files.matches(cfg).count()), [2, 2]);
    assert_eq!(files.matches("cfg(").count(), 4 + files.matches("#[cfg(test)]").count());
    let files = files.replace(linux, "#[cfg(any())]").replace(apple, "");
    for (name, source) in [("libc.rs", LIBC_OF_MACOS), ("files.rs", &files), ("system.rs", "mod files;")] {
        fs::write(folder.0.join(name), source).unwrap();
    }
    compile(&folder.0, "libc.rs", &[]);
    compile(&folder.0, "system.rs", &["--extern", "libc=liblibc.rmeta"]);
}

#[test]
fn other_systems_have_the_same_calls_and_refuse_each() {
    let folder = Scratch::new("others");
    fs::create_dir(&folder.0).unwrap();
    let (files, none) = (include_str!("../src/system/files.rs"), include_str!("../src/system/no_files.rs"));
    let calls = |source: &str| {
        let code = source.split("#[cfg(test)]").next().unwrap_or_default().to_owned();
        let names = code.lines().filter_map(|line| line.trim().strip_prefix("pub(crate) fn ")?.split('(').next());
        let mut names: Vec<_> = names.map(str::to_owned).collect();
        names.sort();
        names.dedup();
        names
    };
    assert_eq!(calls(files), calls(none));
    // (as on Windows, where nothing forks)
    fs::write(folder.0.join("no_files.rs"), none.replace("#[cfg(unix)]", "#[cfg(any())]")).unwrap();
    fs::write(folder.0.join("system.rs"), "mod no_files;").unwrap();
    compile(&folder.0, "system.rs", &[]);
}

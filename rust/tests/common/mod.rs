//! What several tests use.
#![allow(dead_code, unused_macros)]

use hikebox::{CallLimit, NoTicket, Policy, Request, Ticket, Usage};
use std::ffi::OsStr;
use std::future::Future;
use std::io::{BufRead, BufReader, Write};
use std::path::{Path, PathBuf};
use std::pin::Pin;
use std::process::{Child, Command, Stdio};
use std::sync::Arc;
use std::task::{Context, Poll, Wake, Waker};
use std::time::{Duration, Instant};
use std::{env, fs, thread};

/// A folder of a test's own, which is taken away in the end.
pub struct Scratch(pub PathBuf);

impl Scratch {
    pub fn new(name: &str) -> Self {
        let scratch = Self(env::temp_dir().join(format!("hikebox-{name}-{}", std::process::id())));
        scratch.remove();
        scratch
    }

    /// Takes it away, also where a test has put a file in its place.
    fn remove(&self) {
        let _ = fs::remove_dir_all(&self.0).or_else(|_| fs::remove_file(&self.0));
    }
}

impl Drop for Scratch {
    fn drop(&mut self) {
        self.remove();
    }
}

/// A program of Python on the package beside this crate and the engine's library; `None` in a copy of the crate alone.
pub fn python(program: &str) -> Option<Command> {
    let crate_folder = Path::new(env!("CARGO_MANIFEST_DIR"));
    let top = crate_folder.ancestors().find(|folder| folder.join("python/src/hikebox").is_dir())?;
    let library = env::var_os("HIKEBOX_LIB_DIR").map_or_else(|| top.join("dist"), PathBuf::from).join("libhikebox.so");
    let mut command = Command::new("python3");
    command.args(["-c", program]).env("PYTHONPATH", top.join("python/src")).env("HIKEBOX_LIBRARY", library);
    Some(command)
}

/// What a program prints, line by line.
pub fn printed(command: &mut Command) -> Vec<String> {
    let output = command.output().unwrap();
    assert!(output.status.success(), "{}", String::from_utf8_lossy(&output.stderr));
    String::from_utf8(output.stdout).unwrap().lines().map(str::to_owned).collect()
}

/// A process that keeps the lock of this file until its standard input ends.
pub fn keeper_of(path: &Path) -> Child {
    let mut keeper = Command::new("flock")
        .args([path.as_os_str(), "-c".as_ref(), "echo locked; read line".as_ref()])
        .stdin(Stdio::piped())
        .stdout(Stdio::piped())
        .spawn()
        .unwrap();
    let mut line = String::new();
    BufReader::new(keeper.stdout.take().unwrap()).read_line(&mut line).unwrap();
    assert_eq!(line, "locked\n");
    keeper
}

/// The counts of a window, one after another: its number, the requests, the tickets given and left, and its end.
pub fn counts(usage: Usage) -> (u64, u64, u64, u64, Duration) {
    let Usage { window, asked, given, left, next, .. } = usage;
    (window, asked, given, left, next)
}

/// A call that fails so often, and then says how often it failed.
pub fn fails(mut times: u32) -> impl FnMut() -> Result<u32, &'static str> {
    let failures = times;
    move || match times.checked_sub(1) {
        Some(left) => {
            times = left;
            Err("busy")
        }
        None => Ok(failures),
    }
}

/// The number of a ticket that was drawn, or `None` where all are used up.
#[track_caller]
pub fn number(drawn: Result<Ticket, NoTicket>) -> Option<u64> {
    match drawn {
        Ok(ticket) => Some(ticket.number()),
        Err(NoTicket::UsedUp { .. }) => None,
        Err(failed) => panic!("{failed}"),
    }
}

/// The same. A lock that others keep for long, on a busy machine, is asked for again.
#[cfg(feature = "leased")]
#[track_caller]
pub fn number_in_the_end(draw: impl Fn() -> Result<Ticket, NoTicket>) -> Option<u64> {
    loop {
        match draw() {
            Err(failed) if is_locked(&failed) => thread::sleep(Duration::from_millis(1)),
            drawn => return number(drawn),
        }
    }
}

/// Whether a draw failed since others kept the slot's lock for too long.
#[cfg(feature = "leased")]
pub fn is_locked(failed: &NoTicket) -> bool {
    let error = failed.failure().and_then(|failure| failure.get().downcast_ref::<hikebox::StoreError>());
    matches!(error, Some(hikebox::StoreError::Locked(_)))
}

/// Waits until this happens, for a minute at most.
#[track_caller]
pub fn comes_to(mut happens: impl FnMut() -> bool) {
    let began = Instant::now();
    while !happens() {
        assert!(began.elapsed() < Duration::from_secs(60), "it did not happen within a minute");
        thread::sleep(Duration::from_millis(1));
    }
}

/// Whether this process has the file at this path open.
pub fn is_open(path: &Path) -> bool {
    // (the folder for temporary files may be a link)
    let (path, open) = (fs::canonicalize(path).unwrap(), fs::read_dir("/proc/self/fd").unwrap().flatten());
    open.filter_map(|entry| fs::read_link(entry.path()).ok()).any(|file| file == path)
}

/// A draw for which the store fails with an error of this pattern.
macro_rules! assert_store_fails {
    ($drawn:expr, $pattern:pat $(if $also:expr)?) => {{
        let failed = $drawn.unwrap_err();
        let error = failed.failure().and_then(|failure| failure.get().downcast_ref::<hikebox::StoreError>());
        assert!(matches!(error, Some($pattern) $(if $also)?), "{failed}");
    }};
}

/// The ticket that was drawn of a pass, as its window and its number there, `window << 32 | number`.
#[track_caller]
pub fn ticket(drawn: Result<Ticket, NoTicket>) -> Option<u64> {
    drawn.ok().map(|ticket| ticket.window() << 32 | ticket.number())
}

/// How the program ends that the engine's crates build, and what it prints: the one that `HIKEBOX_ZSCHED` names, or that of
/// `dist/`.
pub fn zsched(arguments: impl IntoIterator<Item = impl AsRef<OsStr>>, input: &str) -> (Option<i32>, String) {
    let of_dist = concat!(env!("CARGO_MANIFEST_DIR"), "/../dist/zsched");
    let mut child = Command::new(env::var_os("HIKEBOX_ZSCHED").unwrap_or_else(|| of_dist.into()))
        .args(arguments)
        .stdin(Stdio::piped())
        .stdout(Stdio::piped())
        .stderr(Stdio::null())
        .spawn()
        .unwrap();
    child.stdin.take().unwrap().write_all(input.as_bytes()).unwrap();
    let output = child.wait_with_output().unwrap();
    (output.status.code(), String::from_utf8(output.stdout).unwrap())
}

/// The policy of this JSON.
pub fn policy(json: &str) -> Policy {
    json.parse().unwrap()
}

pub fn at(millis: u64) -> Duration {
    Duration::from_millis(millis)
}

/// The window, what was asked and given in it, and what is left.
pub fn told(usage: Usage) -> [u64; 4] {
    [usage.window, usage.asked, usage.given, usage.left]
}

/// A request that the limit admits.
pub fn admitted(limit: &CallLimit) -> Request {
    let mut request = limit.request().unwrap();
    request.admit().unwrap();
    request
}

/// The value of a future that is ready at its first poll: no runtime is there.
pub fn at_once<T>(future: impl Future<Output = T>) -> T {
    match polled(&mut Box::pin(future)) {
        Poll::Ready(value) => value,
        Poll::Pending => panic!("it waits"),
    }
}

pub fn polled<F: Future + ?Sized>(future: &mut Pin<Box<F>>) -> Poll<F::Output> {
    struct Nobody;
    impl Wake for Nobody {
        fn wake(self: Arc<Self>) {}
    }
    future.as_mut().poll(&mut Context::from_waker(&Waker::from(Arc::new(Nobody))))
}

//! Budgets and quotas that processes share by a folder.
#![cfg(all(unix, feature = "leased"))]

#[macro_use]
mod common;

use common::{comes_to, counts, fails, is_locked, is_open, keeper_of, number, number_in_the_end, Scratch};
use hikebox::{
    retry, Leased, LeasedQuota, LimitError, Machine, NoTicket, Policy, Report, RetryError, Step, StoreError, Ticket,
};
use std::collections::{HashMap, HashSet};
use std::env;
use std::fs;
use std::io::{BufRead, BufReader};
use std::path::Path;
use std::process::{Child, Command, Stdio};
use std::sync::Arc;
use std::thread;
use std::time::{Duration, Instant};

const LIMIT: u64 = 100_000;

/// What a process of the test below does: it draws until there is none, and prints each ticket.
#[test]
#[ignore = "run by eight_processes_draw_each_ticket_once"]
fn drawing_process() {
    let folder = match env::var("HIKEBOX_TEST_FOLDER") {
        Ok(folder) => folder,
        Err(_) => return,
    };
    let budget = Leased::new(folder, "shared", LIMIT).unwrap();
    while let Some(ticket) = number_in_the_end(|| budget.draw()) {
        println!("ticket {ticket}");
    }
}

/// What a process of another test does: it makes 2,500 requests, draws until there is none, and prints each ticket.
#[test]
#[ignore = "run by eight_processes_draw_all_of_a_quota_each_ticket_once"]
fn process_on_a_quota() {
    let folder = match env::var("HIKEBOX_TEST_FOLDER") {
        Ok(folder) => folder,
        Err(_) => return,
    };
    let quota = long_quota(&folder, 20_000, 0.5).lease(200);
    (0..2500).for_each(|_| quota.deposit());
    while let Some(ticket) = number_in_the_end(|| quota.draw()) {
        println!("ticket {ticket}");
    }
}

/// A quota with a window that no test sees the end of.
fn long_quota(folder: impl AsRef<Path>, reserve: u64, share: f64) -> LeasedQuota {
    LeasedQuota::new(folder, "q", reserve, share, Duration::from_secs(1_000_000)).unwrap().again_after(Duration::ZERO)
}

#[test]
fn eight_processes_draw_each_ticket_once() {
    assert_eq!(drawn_by_eight("drawing_process", "processes"), LIMIT);
}

// 20,000, and the half of 8 * 2,500 requests.
#[test]
fn eight_processes_draw_all_of_a_quota_each_ticket_once() {
    assert_eq!(drawn_by_eight("process_on_a_quota", "quotas"), 30_000);
}

/// A process that does what this test does, on this folder.
fn drawing(process: &str, folder: &Scratch) -> Child {
    Command::new(env::current_exe().unwrap())
        .args(["--ignored", "--exact", process, "--nocapture", "--test-threads=1"])
        .env("HIKEBOX_TEST_FOLDER", &folder.0)
        .stdout(Stdio::piped())
        .spawn()
        .unwrap()
}

/// How many tickets eight processes draw that each do what this test does. Each ticket is one of the first so many.
fn drawn_by_eight(process: &str, name: &str) -> u64 {
    let folder = Scratch::new(name);
    let children: Vec<_> = (0..8).map(|_| drawing(process, &folder)).collect();
    let readers: Vec<_> =
        children.into_iter().map(|child| thread::spawn(|| child.wait_with_output().unwrap())).collect();
    let mut seen = HashSet::new();
    for reader in readers {
        let output = reader.join().unwrap();
        assert!(output.status.success());
        for line in String::from_utf8(output.stdout).unwrap().lines() {
            if let Some((_, ticket)) = line.split_once("ticket ") {
                let ticket: u64 = ticket.parse().unwrap();
                assert!(seen.insert(ticket), "ticket {ticket}");
            }
        }
    }
    assert_eq!(seen.iter().max(), Some(&(seen.len() as u64 - 1)));
    seen.len() as u64
}

#[test]
fn a_lease_that_dies_is_lost_and_no_more() {
    let folder = Scratch::new("lost");
    let first = Leased::new(&folder.0, "b", 25).unwrap().lease(10);
    assert_eq!(number(first.draw()), Some(0));
    drop(first);
    let second = Leased::new(&folder.0, "b", 25).unwrap().lease(10);
    let drawn: Vec<_> = std::iter::from_fn(|| number(second.draw())).collect();
    assert_eq!(drawn, (10..25).collect::<Vec<_>>());
    assert_eq!(number(Leased::new(&folder.0, "another", 1).unwrap().draw()), Some(0));
}

/// The answer of a draw, and the window of so many hundredths of a second in which it was made for sure, by the
/// machine's uptime.
fn in_window<T>(length: u64, draw: impl FnOnce() -> T) -> (Option<u64>, T) {
    let uptime = || -> u64 {
        let text = fs::read_to_string("/proc/uptime").unwrap();
        text.split(' ').next().unwrap().replace('.', "").parse().unwrap()
    };
    let before = uptime() / length;
    let drawn = draw();
    let after = (uptime() + 1) / length;
    ((before == after).then_some(before), drawn)
}

#[test]
fn each_window_has_its_own_tickets() {
    let folder = Scratch::new("windows");
    let budget = Leased::new(&folder.0, "w", 3).unwrap().in_each(Duration::from_millis(300)).lease(3);
    let (mut drawn, began) = (HashMap::<u64, Vec<u64>>::new(), Instant::now());
    let whole = |drawn: &HashMap<u64, Vec<u64>>| drawn.values().filter(|tickets| **tickets == [0, 1, 2]).count();
    while whole(&drawn) < 4 && began.elapsed() < Duration::from_secs(60) {
        match in_window(30, || number(budget.draw())) {
            (Some(window), Some(ticket)) => drawn.entry(window).or_default().push(ticket),
            // a ticket that was drawn while a window ended is left out
            (None, Some(_)) => {}
            (_, None) => thread::sleep(Duration::from_millis(5)),
        }
    }
    assert_eq!(whole(&drawn), 4);
    assert!(drawn.values().flatten().all(|ticket| *ticket < 3));
    assert!(drawn.values().all(|tickets| tickets.windows(2).all(|pair| pair[0] < pair[1])));
}

#[test]
fn eight_threads_draw_each_ticket_of_a_folder_once() {
    let folder = Scratch::new("threads");
    let (budget, quota) =
        (Leased::new(&folder.0, "b", 5000).unwrap().lease(16), long_quota(&folder.0, 1000, 0.5).lease(16));
    let drawn = |draw: &(dyn Fn() -> Option<u64> + Sync)| -> Vec<u64> {
        let mut all: Vec<u64> = thread::scope(|scope| {
            let threads: Vec<_> =
                (0..8).map(|_| scope.spawn(|| std::iter::from_fn(draw).collect::<Vec<_>>())).collect();
            threads.into_iter().flat_map(|thread| thread.join().unwrap()).collect()
        });
        all.sort_unstable();
        all
    };
    assert_eq!(drawn(&|| number(budget.draw())), (0..5000).collect::<Vec<_>>());
    (0..2000).for_each(|_| quota.deposit());
    // the reserve, and a half of 2,000 requests
    assert_eq!(drawn(&|| number(quota.draw())), (0..2000).collect::<Vec<_>>());
}

/// Processes are killed while they draw. What each of them had printed is its own, and the others have the rest, but
/// for what leases had that died.
#[test]
fn processes_that_are_killed_overdraw_nothing() {
    // (six processes with 2,500 requests each add the half of those to a reserve of 20,000)
    for (process, name, most) in [("drawing_process", "killed", LIMIT), ("process_on_a_quota", "killed-quota", 27_500)]
    {
        let folder = Scratch::new(name);
        let mut seen = HashSet::new();
        let mut heard = |line: &str| {
            if let Some((_, ticket)) = line.split_once("ticket ") {
                let ticket: u64 = ticket.parse().unwrap();
                assert!(seen.insert(ticket), "ticket {ticket}");
            }
        };
        for _ in 0..5 {
            let mut child = drawing(process, &folder);
            let mut lines = BufReader::new(child.stdout.take().unwrap()).lines();
            let before = lines.by_ref().take(500).map(Result::unwrap).collect::<Vec<_>>();
            child.kill().unwrap();
            // (a line may have been cut, and then is no ticket's)
            let after: Vec<_> = lines.map_while(Result::ok).collect();
            child.wait().unwrap();
            before.iter().chain(after.split_last().map_or(&[][..], |(_, whole)| whole)).for_each(|line| heard(line));
        }
        let output = drawing(process, &folder).wait_with_output().unwrap();
        assert!(output.status.success());
        String::from_utf8(output.stdout).unwrap().lines().for_each(heard);
        assert!(seen.len() > 2500 && seen.iter().all(|ticket| *ticket < most), "{}", seen.len());
    }
}

/// What a process of the next test does: two threads draw in windows of a tenth of a second, hand each third ticket
/// back, and keep the others, until each has kept some in 20 windows.
#[test]
#[ignore = "run by tickets_that_come_back_are_kept_once_in_each_window"]
fn process_that_hands_back() {
    let folder = match env::var("HIKEBOX_TEST_FOLDER") {
        Ok(folder) => folder,
        Err(_) => return,
    };
    let quota = LeasedQuota::new(folder, "w", 60, 0.0, Duration::from_millis(100)).unwrap().lease(4);
    let began = Instant::now();
    thread::scope(|scope| {
        for _ in 0..2 {
            scope.spawn(|| {
                let mut windows = HashSet::new();
                for draw in 0_u64.. {
                    if windows.len() == 20 || began.elapsed() > Duration::from_secs(60) {
                        return;
                    }
                    match quota.draw() {
                        // (one whose window is over meanwhile is refused, and is spent)
                        Ok(ticket) if draw % 3 == 0 => drop(quota.hand_back(ticket)),
                        Ok(ticket) => {
                            println!("kept {} {}", ticket.window(), ticket.number());
                            windows.insert(ticket.window());
                        }
                        Err(_) => thread::sleep(Duration::from_millis(1)),
                    }
                }
            });
        }
    });
}

#[test]
fn tickets_that_come_back_are_kept_once_in_each_window() {
    let folder = Scratch::new("hands-back");
    let children: Vec<_> = (0..4).map(|_| drawing("process_that_hands_back", &folder)).collect();
    let mut kept = HashMap::<u64, Vec<u64>>::new();
    for child in children {
        let output = child.wait_with_output().unwrap();
        assert!(output.status.success());
        for line in String::from_utf8(output.stdout).unwrap().lines() {
            if let Some((window, number)) = line.split_once("kept ").and_then(|(_, kept)| kept.split_once(' ')) {
                kept.entry(window.parse().unwrap()).or_default().push(number.parse().unwrap());
            }
        }
    }
    assert!(kept.len() > 10, "{}", kept.len());
    for (window, mut numbers) in kept {
        numbers.sort_unstable();
        assert!(numbers.windows(2).all(|pair| pair[0] < pair[1]), "{window}: {numbers:?}");
        assert!(numbers.last() < Some(&60), "{window}: {numbers:?}");
    }
}

#[test]
fn requests_that_were_told_are_everybodys() {
    let folder = Scratch::new("told");
    let (first, second) = (long_quota(&folder.0, 4, 0.5).lease(2), long_quota(&folder.0, 4, 0.5).lease(2));
    let draws = |quota: &LeasedQuota, count| (0..count).map(|_| number(quota.draw())).collect::<Vec<_>>();
    assert_eq!(draws(&first, 3), [Some(0), Some(1), Some(2)]);
    assert_eq!(draws(&second, 1), [None]);
    assert_eq!(draws(&first, 2), [Some(3), None]);
    (0..6).for_each(|_| second.deposit());
    assert_eq!(draws(&first, 1), [None]);
    let usage = second.seen().unwrap();
    let (window, next) = (usage.window, Duration::from_secs((usage.window + 1) * 1_000_000));
    assert_eq!(counts(usage), (window, 6, 4, 3, next));
    assert_eq!(draws(&first, 4), [Some(4), Some(5), Some(6), None]);
    assert_eq!(counts(second.seen().unwrap()), (window, 6, 7, 0, next));
    // beside a budget in the same folder, and a quota of another name
    assert_eq!(number(Leased::new(&folder.0, "q", 1).unwrap().draw()), Some(0));
    assert_eq!(number(Leased::new(&folder.0, "q", 1).unwrap().in_each(Duration::from_secs(1_000_000)).draw()), Some(0));
    let another = LeasedQuota::new(&folder.0, "r", 1, 0.0, Duration::from_secs(1_000_000)).unwrap();
    assert_eq!(draws(&another, 2), [Some(0), None]);
}

#[test]
fn a_lease_of_a_quota_that_dies_is_lost_and_no_more() {
    let folder = Scratch::new("lost-quota");
    let first = long_quota(&folder.0, 640, 0.0);
    assert_eq!(number(first.draw()), Some(0));
    drop(first);
    let second = long_quota(&folder.0, 640, 0.0);
    let drawn: Vec<_> = std::iter::from_fn(|| number(second.draw())).collect();
    assert_eq!(drawn, (10..640).collect::<Vec<_>>());
}

#[test]
fn each_window_of_a_quota_has_its_own_requests_and_tickets() {
    let folder = Scratch::new("quota-windows");
    let quota = LeasedQuota::new(&folder.0, "w", 1, 0.5, Duration::from_millis(300)).unwrap();
    let (mut windows, began) = (HashSet::new(), Instant::now());
    while windows.len() < 2 && began.elapsed() < Duration::from_secs(60) {
        let before = quota.seen().unwrap();
        (0..4).for_each(|_| quota.deposit());
        let drawn: Vec<_> = std::iter::from_fn(|| number(quota.draw())).collect();
        let after = quota.seen().unwrap();
        if before.window == after.window {
            assert_eq!(drawn, [0, 1, 2]);
            assert_eq!((after.asked, after.given, after.left), (4, 3, 0));
            windows.insert(after.window);
        }
        thread::sleep(Duration::from_millis(300));
    }
    assert_eq!(windows.len(), 2);
}

/// A request each time, whose retry draws: an empty answer does not keep what later requests are worth from it.
#[test]
fn a_quota_goes_on_after_an_empty_answer() {
    let folder = Scratch::new("goes-on");
    let quota = long_quota(&folder.0, 30, 0.2).lease(20);
    let mut granted = 0;
    for _ in 0..2595 {
        quota.deposit();
        granted += u64::from(number(quota.draw()).is_some());
    }
    // the reserve of 30, and a fifth of 2,595
    assert_eq!(granted, 549);
}

#[test]
fn terms_of_a_quota_out_of_their_ranges_are_refused() {
    let refused = |reserve, share, millis| {
        LeasedQuota::new("/no/such/folder", "q", reserve, share, Duration::from_millis(millis)).unwrap_err()
    };
    assert_eq!(refused((1 << 32) + 1, 0.0, 1), LimitError::ReserveTooLarge);
    assert_eq!(refused(0, 1001.0, 1), LimitError::ShareOutOfRange);
    assert_eq!(refused(0, 0.0, 0), LimitError::PeriodTooShort);
    assert_eq!(refused(0, 0.0, 1 << 62), LimitError::PeriodTooLong);
    let scratch = Scratch::new("shares");
    let quota = long_quota(&scratch.0, 5, 1000.0).lease(2000);
    quota.deposit();
    assert_eq!(std::iter::repeat_with(|| quota.draw()).take_while(Result::is_ok).count(), 1005);
}

#[test]
fn retries_draw_on_what_processes_share() {
    let scratch = Scratch::new("retried");
    let policy: Policy = r#"{"recurs":2}"#.parse().unwrap();
    let budget = Arc::new(Leased::new(&scratch.0, "b", 3).unwrap().lease(2));
    assert_eq!(retry(&policy, &budget, || Err::<(), _>("no")), Err(RetryError::ScheduleDone("no")));
    assert_eq!(retry(&policy, &budget, || Err::<(), _>("no")), Err(RetryError::LimitRefused("no")));
    assert_eq!(number(budget.draw()), None);

    // no reserve, and half a retry for each of the two requests
    let quota = Arc::new(long_quota(&scratch.0, 0, 0.5));
    assert_eq!(retry(&policy, &quota, || Err::<(), _>("no")), Err(RetryError::LimitRefused("no")));
    assert_eq!(retry(&policy, &quota, || Err::<(), _>("no")), Err(RetryError::LimitRefused("no")));
    assert_eq!((quota.seen().unwrap().asked, quota.seen().unwrap().given), (2, 1));

    let nowhere = Arc::new(Leased::new("/proc/no/folder", "b", 3).unwrap());
    let broken = retry(&policy, &nowhere, || Err::<(), _>("no")).unwrap_err();
    assert!(matches!(broken, RetryError::StoreFailed(failure, "no") if failure.get().is::<StoreError>()));
}

/// What was asked and given of a quota, as the folder has it.
fn asked_and_given(quota: &LeasedQuota) -> (u64, u64) {
    let usage = quota.seen().unwrap();
    (usage.asked, usage.given)
}

#[test]
fn clones_draw_from_one_lease() {
    let folder = Scratch::new("clones");
    let budget = Leased::new(&folder.0, "b", 9).unwrap().lease(3);
    let quota = long_quota(&folder.0, 9, 0.0).lease(3);
    assert_eq!([number(budget.draw()), number(budget.clone().draw())], [Some(0), Some(1)]);
    assert_eq!([number(quota.draw()), number(quota.clone().draw())], [Some(0), Some(1)]);
    // one by windows is another budget
    assert_eq!(number(budget.clone().in_each(Duration::from_secs(1_000_000)).draw()), Some(0));
    assert_eq!(number(budget.draw()), Some(2));
    quota.clone().deposit_of(7);
    assert_eq!(asked_and_given(&quota), (7, 3));
}

#[test]
fn a_leased_ticket_that_comes_back_is_drawn_by_this_process_again() {
    let (folder, policy) = (Scratch::new("back"), r#"{"spaced":1}"#.parse::<Policy>().unwrap());
    let quota = long_quota(&folder.0, 3, 0.0).lease(2).returning_tickets();
    for _ in 0..20 {
        assert_eq!(retry(&policy, &quota, fails(1)), Ok(1));
    }
    // all of them by the first ticket of one lease
    assert_eq!(asked_and_given(&quota), (20, 2));
    let mut machine = Machine::new(&policy, &quota).unwrap();
    assert_eq!(machine.step(Duration::ZERO, None), Step::Run);
    assert!(matches!(machine.step(Duration::ZERO, Some(Report::Lost(0))), Step::Wait(_)));
    drop(machine);
    assert_eq!(number(quota.draw()), Some(0));
    // what comes back once the range is used up is drawn before another is asked for, and after the window is
    let (second, third) = (quota.draw().unwrap(), quota.draw().unwrap());
    assert_eq!((number(quota.draw()), asked_and_given(&quota)), (None, (20, 3)));
    quota.hand_back(second).unwrap();
    assert_eq!([number(quota.draw()), number(quota.draw())], [Some(1), None]);
    quota.hand_back(third).unwrap();
    assert_eq!([number(quota.draw()), number(quota.draw())], [Some(2), None]);
}

#[test]
fn a_leased_ticket_of_a_window_that_is_over_does_not_come_back() {
    let folder = Scratch::new("too-late");
    let quota = LeasedQuota::new(&folder.0, "w", 1, 0.0, Duration::from_millis(300)).unwrap();
    let began = Instant::now();
    while began.elapsed() < Duration::from_secs(60) {
        let early = quota.draw().ok();
        thread::sleep(Duration::from_millis(300));
        let before = quota.seen().unwrap().window;
        let drawn = number(quota.draw());
        let is_refused = early.map_or(false, |ticket| quota.hand_back(ticket).is_err());
        let again = number(quota.draw());
        if (is_refused, quota.seen().unwrap().window) == (true, before) {
            assert_eq!((drawn, again), (Some(0), None));
            return;
        }
    }
    panic!("no two draws came in one window");
}

/// Nobody can hand a ticket back twice: it is moved. One of another quota, or of another process's share, is refused.
#[test]
fn a_leased_ticket_comes_back_to_whoever_drew_it() {
    let folder = Scratch::new("whose");
    let (first, second) = (long_quota(&folder.0, 9, 0.0).lease(3), long_quota(&folder.0, 9, 0.0).lease(3));
    let other = LeasedQuota::new(&folder.0, "other", 9, 0.0, Duration::from_secs(1_000_000)).unwrap().lease(3);
    let (of_first, of_second, of_other) = (first.draw().unwrap(), second.draw().unwrap(), other.draw().unwrap());
    assert_eq!((of_first.number(), of_second.number(), of_other.number()), (0, 3, 0));
    assert_eq!(of_first.window(), of_other.window());
    let of_other = first.hand_back(of_other).unwrap_err();
    let of_second = first.hand_back(of_second).unwrap_err();
    assert!(first.hand_back(Ticket::new(0).in_window(of_first.window())).is_err());
    assert!(second.clone().hand_back(of_second).is_ok());
    assert!(other.hand_back(of_other).is_ok());
    assert_eq!(number(first.draw()), Some(1));
    assert!(first.hand_back(of_first).is_ok());
    assert_eq!([number(first.draw()), number(first.draw())], [Some(0), Some(2)]);
}

/// So long that no test sees the end of it.
const HOUR: Duration = Duration::from_secs(3600);

/// A budget of three tickets, and a quota with a reserve of three.
fn of_three(folder: &Scratch) -> (Leased, LeasedQuota) {
    let quota = LeasedQuota::new(&folder.0, "q", 3, 0.1, Duration::from_secs(1_000_000)).unwrap();
    (Leased::new(&folder.0, "b", 3).unwrap(), quota.lease(1))
}

#[test]
fn a_store_with_nothing_left_is_left_alone() {
    let folder = Scratch::new("alone");
    let (budget, quota) = of_three(&folder);
    let (budget, quota) = (budget.again_after(HOUR), quota.again_after(HOUR));
    assert_eq!([number(budget.draw()), number(quota.draw())], [Some(0), Some(0)]);
    while budget.draw().is_ok() || quota.draw().is_ok() {}
    // with nobody to ask there is no failure
    fs::remove_dir_all(&folder.0).unwrap();
    fs::write(&folder.0, "in the way").unwrap();
    for _ in 0..200 {
        assert_eq!(budget.draw().unwrap_err(), NoTicket::UsedUp { next_in: None });
        let of_quota = quota.draw().unwrap_err();
        assert!(matches!(of_quota, NoTicket::UsedUp { next_in: Some(wait) } if wait <= HOUR), "{of_quota:?}");
    }
    // it is asked where requests may give a ticket
    (0..9).for_each(|_| quota.deposit());
    assert!(quota.draw().unwrap_err().failure().is_none());
    quota.deposit();
    assert_store_fails!(quota.draw(), StoreError::NotAFolder(_));
}

#[test]
fn a_store_with_nothing_left_is_asked_again_a_second_later() {
    let folder = Scratch::new("second");
    let (budget, quota) = of_three(&folder);
    while quota.draw().is_ok() {}
    let of_quota = quota.draw().unwrap_err();
    assert!(matches!(of_quota, NoTicket::UsedUp { next_in: Some(wait) } if wait <= Duration::from_secs(1)));
    let mut asked_after = Instant::now();
    while budget.draw().is_ok() {
        asked_after = Instant::now();
    }
    fs::remove_dir_all(&folder.0).unwrap();
    fs::write(&folder.0, "in the way").unwrap();
    comes_to(|| budget.draw().unwrap_err().failure().is_some());
    assert!(asked_after.elapsed() >= Duration::from_millis(999), "{:?}", asked_after.elapsed());
    assert_store_fails!(budget.draw(), StoreError::NotAFolder(_));
}

#[test]
fn a_store_that_failed_is_left_alone_and_its_failure_told_meanwhile() {
    let folder = Scratch::new("failed");
    fs::write(&folder.0, "in the way").unwrap();
    let budget = |again_after| Leased::new(&folder.0, "b", 3).unwrap().again_after(again_after);
    let (long, brief) = (budget(HOUR), budget(Duration::from_millis(300)));
    let asked_after = Instant::now();
    let (first, of_brief) = (long.draw().unwrap_err(), brief.draw().unwrap_err());
    assert_eq!((first.next_in(), of_brief.next_in()), (Some(HOUR), Some(Duration::from_millis(300))));
    fs::remove_file(&folder.0).unwrap();
    let second = long.draw().unwrap_err();
    assert_eq!(second.failure(), first.failure());
    assert!(second.next_in() <= first.next_in() && second.next_in() > Some(Duration::ZERO));
    let mut drawn = None;
    comes_to(|| {
        drawn = brief.draw().ok();
        drawn.is_some()
    });
    assert!(asked_after.elapsed() >= Duration::from_millis(299), "{:?}", asked_after.elapsed());
    assert_eq!(drawn.map(|ticket| ticket.number()), Some(0));
}

/// A thread that has a ticket at hand waits for no other that asks the store, here for a lock of five seconds.
#[test]
fn nobody_with_a_ticket_at_hand_waits_for_one_who_asks_the_store() {
    let folder = Scratch::new("waits");
    let quota = long_quota(&folder.0, 9, 0.0).lease(1);
    let mut ticket = quota.draw().unwrap();
    let slot = fs::read_dir(&folder.0).unwrap().next().unwrap().unwrap().path();
    let slot = fs::read_dir(slot).unwrap().next().unwrap().unwrap().path();
    // (a process that is stopped for so long gives the lock up, and it is tried anew)
    for _ in 0..10 {
        let mut keeper = keeper_of(&slot);
        let (drawn, is_asking, answer) = thread::scope(|scope| {
            let asks = scope.spawn(|| quota.draw());
            comes_to(|| is_open(&slot) || asks.is_finished());
            quota.hand_back(ticket).unwrap();
            quota.deposit();
            let (drawn, is_asking) = (quota.draw().unwrap(), !asks.is_finished());
            drop(keeper.stdin.take());
            (drawn, is_asking, asks.join().unwrap())
        });
        keeper.wait().unwrap();
        assert_eq!(drawn.number(), 0);
        match answer {
            Err(failed) => assert!(is_locked(&failed), "{failed}"),
            Ok(asked) => return assert_eq!((is_asking, asked.number()), (true, 1)),
        }
        ticket = drawn;
    }
    panic!("the lock was given up each time");
}

#[test]
fn calls_on_a_leased_quota_count_where_they_succeed() {
    let (folder, policy) = (Scratch::new("successes"), r#"{"recurs":3}"#.parse::<Policy>().unwrap());
    let quota = long_quota(&folder.0, 1, 0.5).counting_successes();
    assert_eq!(retry(&policy, &quota, || Err::<(), _>("gone")), Err(RetryError::LimitRefused("gone")));
    assert_eq!(asked_and_given(&quota), (0, 1));
    for _ in 0..4 {
        assert_eq!(retry(&policy, &quota, || Ok::<_, ()>(5)), Ok(5));
    }
    assert_eq!(quota.seen().unwrap().left, 2);
}

#[test]
fn terms_of_a_leased_quota_are_set_from_the_next_lease_on() {
    let folder = Scratch::new("set-terms");
    let (quota, other) = (long_quota(&folder.0, 3, 0.0).lease(2), long_quota(&folder.0, 3, 0.0).lease(2));
    let draws = |quota: &LeasedQuota, count| (0..count).map(|_| number(quota.draw())).collect::<Vec<_>>();
    assert_eq!(draws(&quota, 1), [Some(0)]);
    quota.set_terms(0, 0.0).unwrap();
    assert_eq!(draws(&quota, 2), [Some(1), None]);
    quota.clone().set_terms(4, 0.5).unwrap();
    assert_eq!(quota.set_terms(1 << 33, 0.5), Err(LimitError::ReserveTooLarge));
    assert_eq!(quota.set_terms(1, -0.5), Err(LimitError::ShareOutOfRange));
    quota.deposit_of(2);
    assert_eq!(draws(&quota, 4), [Some(2), Some(3), Some(4), None]);
    // each process by the terms that it names
    assert_eq!(draws(&other, 1), [None]);
}

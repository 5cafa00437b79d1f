use hikebox::{retry, Budget, Policy, Schedule};
use std::time::Duration;

fn main() -> Result<(), Box<dyn std::error::Error>> {
    let schedule = Schedule::recurs(5) & Schedule::exponential(Duration::from_millis(100), 2).jittered(0.8..1.2);
    let (policy, budget) = (Policy::new(&schedule)?, Budget::new(1_000)?);
    let text = retry(&policy, &budget, || std::fs::read_to_string("Cargo.toml"))?;
    assert!(text.contains("hikebox"));
    Ok(())
}

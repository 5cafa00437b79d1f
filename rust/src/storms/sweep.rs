//! Storms along a parameter.

use crate::storms::axis::{Axis, Measure};
use crate::storms::report::StormReport;
use crate::storms::storm::{Storm, StormError};
use std::collections::HashMap;
use std::fmt::{self, Write as _};
use std::num::NonZeroUsize;
use std::sync::atomic::{AtomicUsize, Ordering};
use std::thread;

/// Storms along a parameter: each line is a storm, which is played for each value, on all processors. So you see where
/// a policy or a limit stops bringing the peer back.
///
/// ```
/// use hikebox::{Axis, Measure, Policy, Schedule, Storm, Sweep};
/// use std::time::Duration;
///
/// let back_off = Schedule::exponential(Duration::from_millis(100), 2).cap(Duration::from_secs(10));
/// let policy = Policy::new(&(Schedule::recurs(8) & back_off.jittered(0.0..1.0)))?;
/// let sweep = Sweep::along(Axis::rate([200, 800]))
///     .line("no limit", Storm::new(&policy))
///     .line("a quota", Storm::new(&policy).quota(10, 0.1, Duration::from_secs(1)))
///     .play()?;
/// let calls = sweep.numbers(Measure::Calls);
/// assert_eq!(calls, [[Some(2.13), Some(7.62)], [Some(1.03), Some(1.02)]]);
/// println!("{sweep}");
/// # Ok::<(), Box<dyn std::error::Error>>(())
/// ```
#[derive(Clone, Debug)]
#[must_use = "nothing is played before `play`"]
pub struct Sweep {
    axis: Axis,
    lines: Vec<(String, Storm)>,
}

/// A sweep that was played. Its [`Display`](fmt::Display) is a table of the shares that succeeded.
#[derive(Clone, Debug)]
pub struct SweepReport {
    axis: Axis,
    lines: Vec<Line>,
}

/// A storm, and what it was for each value.
#[derive(Clone, Debug)]
struct Line {
    name: String,
    storm: Storm,
    reports: Vec<StormReport>,
}

impl Sweep {
    /// A sweep along this parameter, which has no line yet.
    pub fn along(axis: Axis) -> Self {
        Self { axis, lines: Vec::new() }
    }

    /// The sweep with a line more, of this name.
    pub fn line(mut self, name: impl Into<String>, storm: Storm) -> Self {
        self.lines.push((name.into(), storm));
        self
    }

    /// Plays each storm for each value. As many are played at once as there are processors, and equal ones once.
    ///
    /// # Errors
    ///
    /// The first [`StormError`] of the axis, or of a storm with one of its values: then none is played.
    ///
    /// # Panics
    ///
    /// Where a thread can't be started.
    pub fn play(self) -> Result<SweepReport, StormError> {
        let Self { axis, lines } = self;
        axis.checked()?;
        if lines.is_empty() {
            return Err(StormError::NoLine);
        }
        if !lines.iter().any(|(_, storm)| axis.is_of(storm)) {
            return Err(axis.is_of_none());
        }
        axis.fits(lines.iter().map(|(_, storm)| storm))?;
        let put = |storm: &Storm| axis.values.iter().map(|value| axis.put(storm, *value)).collect::<Vec<_>>();
        let storms: Vec<Storm> = lines.iter().flat_map(|(_, storm)| put(storm)).collect();
        let mut reports = play_all(&storms)?.into_iter();
        let count = axis.values.len();
        let lines = lines
            .into_iter()
            .map(|(name, storm)| Line { name, storm, reports: reports.by_ref().take(count).collect() })
            .collect();
        Ok(SweepReport { axis, lines })
    }
}

impl SweepReport {
    /// The name of the parameter: that of its function of [`Axis`].
    #[must_use]
    pub fn parameter(&self) -> &'static str {
        self.axis.name
    }

    /// The values of the parameter: whole numbers, milliseconds, thousandths of a quota's share, or per cent of the
    /// requests.
    #[must_use]
    pub fn values(&self) -> &[u64] {
        &self.axis.values
    }

    /// The names of the lines, and what each storm was, for each value.
    pub fn lines(&self) -> impl Iterator<Item = (&str, &[StormReport])> {
        self.lines.iter().map(|line| (line.name.as_str(), line.reports.as_slice()))
    }

    /// The numbers of a measure, a list for each line. `None` stands where a storm has no such number: no recovery
    /// where there was nothing to recover from, and no slowest success where none was.
    #[must_use]
    pub fn numbers(&self, measure: Measure) -> Vec<Vec<Option<f64>>> {
        self.lines.iter().map(|line| line.numbers(&self.axis, measure)).collect()
    }

    /// A table of a measure: a row for each value, and a column for each line. A storm that was cut is marked.
    #[must_use]
    pub fn table(&self, measure: Measure) -> String {
        let mut columns = vec![vec![self.axis.name.to_owned()]];
        columns[0].extend(self.axis.values.iter().map(|value| self.axis.shown(*value)));
        for line in &self.lines {
            let mut column = vec![line.name.clone()];
            let numbers = line.numbers(&self.axis, measure).into_iter().zip(&line.reports);
            column.extend(numbers.map(|(number, report)| cell(measure, number, report)));
            columns.push(column);
        }
        let width_of = |column: &Vec<String>| column.iter().map(|text| text.chars().count()).max().unwrap_or(0);
        let widths: Vec<usize> = columns.iter().map(width_of).collect();
        let mut text = measure.title().to_owned();
        for row in 0..=self.axis.values.len() {
            let _ = write!(text, "\n{:<width$}", columns[0][row], width = widths[0]);
            for (column, width) in columns.iter().zip(&widths).skip(1) {
                let _ = write!(text, "  {:>width$}", column[row], width = *width);
            }
        }
        text
    }

    /// A row for each storm as CSV with a line of names: the value as `zsched` takes it (milliseconds, and per cent for
    /// a share), the line's name, and the totals.
    #[must_use]
    pub fn to_csv(&self) -> String {
        let names: Vec<&str> = self.lines[0].reports[0].totals.in_json().iter().map(|(name, _)| *name).collect();
        let mut text = format!("{},line,{}\n", self.axis.name, names.join(","));
        for line in &self.lines {
            for (value, report) in self.axis.values.iter().zip(&line.reports) {
                let totals =
                    report.totals.in_json().map(|(_, total)| if total == "null" { String::new() } else { total });
                let _ = writeln!(text, "{},{},{}", self.axis.shown(*value), quoted(&line.name), totals.join(","));
            }
        }
        text
    }

    /// The same as JSON on one line, with the policies.
    #[must_use]
    pub fn to_json(&self) -> String {
        let values: Vec<String> = self.axis.values.iter().map(|value| self.axis.shown(*value)).collect();
        let lines: Vec<String> = self.lines.iter().map(Line::to_json).collect();
        let (name, values, lines) = (self.axis.name, values.join(","), lines.join(","));
        format!("{{\"parameter\":\"{name}\",\"values\":[{values}],\"lines\":[{lines}]}}")
    }
}

impl Line {
    fn numbers(&self, axis: &Axis, measure: Measure) -> Vec<Option<f64>> {
        let number = |(value, report): (&u64, &StormReport)| measure.of(&axis.put(&self.storm, *value), report);
        axis.values.iter().zip(&self.reports).map(number).collect()
    }

    fn to_json(&self) -> String {
        let totals: Vec<String> = self.reports.iter().map(|report| report.totals.to_json()).collect();
        let (name, policy) = (in_json(&self.name), self.storm.policy.as_json());
        format!("{{\"name\":{name},\"policy\":{policy},\"totals\":[{}]}}", totals.join(","))
    }
}

/// A table of the shares that succeeded.
impl fmt::Display for SweepReport {
    fn fmt(&self, f: &mut fmt::Formatter<'_>) -> fmt::Result {
        f.write_str(&self.table(Measure::Succeeded))
    }
}

/// Plays these storms, on as many threads as there are processors. Equal ones are played once.
fn play_all(storms: &[Storm]) -> Result<Vec<StormReport>, StormError> {
    let mut places = HashMap::new();
    let mut distinct = Vec::new();
    let mut place_of = Vec::new();
    for storm in storms {
        let place = *places.entry((storm.policies(), storm.checked()?, storm.moments())).or_insert_with(|| {
            distinct.push(storm);
            distinct.len() - 1
        });
        place_of.push(place);
    }
    let (next, count) = (AtomicUsize::new(0), thread::available_parallelism().map_or(1, NonZeroUsize::get));
    let plays = || {
        let places = std::iter::from_fn(|| Some(next.fetch_add(1, Ordering::Relaxed)));
        let storms = places.map_while(|place| Some((place, distinct.get(place)?)));
        storms.map(|(place, storm)| (place, storm.play())).collect::<Vec<_>>()
    };
    let mut reports: Vec<Option<StormReport>> = distinct.iter().map(|_| None).collect();
    thread::scope(|scope| {
        let threads: Vec<_> = (0..count.min(distinct.len())).map(|_| scope.spawn(plays)).collect();
        for thread in threads {
            for (place, report) in thread.join().expect("a storm is played") {
                reports[place] = Some(report?);
            }
        }
        Ok(())
    })?;
    Ok(place_of.into_iter().filter_map(|place| reports[place].clone()).collect())
}

fn cell(measure: Measure, number: Option<f64>, report: &StormReport) -> String {
    let shown = match number {
        None => "-".to_owned(),
        Some(number) if number.is_infinite() => "never".to_owned(),
        Some(number) => measure.shown(number),
    };
    shown + if report.totals.cut { " cut" } else { "" }
}

/// A field of CSV.
fn quoted(text: &str) -> String {
    if text.contains(['"', ',', '\n', '\r']) {
        format!("\"{}\"", text.replace('"', "\"\""))
    } else {
        text.to_owned()
    }
}

/// A text as JSON has it.
fn in_json(text: &str) -> String {
    let escaped = |letter: char| match letter {
        '"' | '\\' => format!("\\{letter}"),
        letter if letter.is_control() => format!("\\u{:04x}", u32::from(letter)),
        letter => letter.to_string(),
    };
    format!("\"{}\"", text.chars().map(escaped).collect::<String>())
}

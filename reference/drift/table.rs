//! The drifts as a table.
use crate::instead::NAMES;
use crate::Sample;

/// The rows, by hours of engine time: a month is a twelfth of 365 days.
pub const MARKS: [(&str, u64); 5] =
    [("an hour", 1), ("a day", 24), ("a week", 168), ("a month", 730), ("six months", 4380)];

/// A drift with the unit that suits its size.
pub fn length(ns: f64) -> String {
    let units = [("s", 1e9), ("ms", 1e6), ("µs", 1e3), ("ns", 1.0), ("ps", 1e-3)];
    match units.iter().find(|(_, size)| ns.abs() >= *size) {
        Some((unit, size)) => format!("{:+.3} {unit}", ns / size),
        None => "below 1 ps".to_string(),
    }
}

pub fn print(samples: &[Sample]) {
    println!("\n| after | Lendaru | {} |", NAMES.join(" | "));
    println!("|---|---|{}", "---|".repeat(NAMES.len()));
    for sample in samples {
        if let Some((name, _)) = MARKS.iter().find(|(_, hours)| *hours as f64 * 3600.0 == sample.seconds) {
            println!("| {name} | {} | {} |", sample.own, sample.drifts.map(length).join(" | "));
        }
    }
    println!();
}

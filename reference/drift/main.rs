//! Six months on the bench: one lent record, driven by `lendaru_run` under seeded orders, with the exact ledger of
//! demand 3 beside it and, on the same orders, what people use instead. It stops at the first call that is off.
//!
//!     months [HOURS [SEED]]
//!
//! A run of all 4,380 hours draws docs/drift.svg anew; another one draws beside this program.
mod drive;
mod instead;
mod orders;
mod picture;
mod progress;
mod table;

use drive::Drive;
use orders::Orders;
use progress::Progress;
use std::path::Path;
use std::sync::atomic::{AtomicU64, Ordering};

/// Half a year of 365 days.
const SIX_MONTHS: u64 = 4380;
/// An hour of engine time, in 2^-32 ns.
const HOUR: u128 = 3_600_000_000_000 << 32;

/// The call under way, for the word on what went wrong.
static CALL: AtomicU64 = AtomicU64::new(0);

/// At an engine time in seconds: how far the engine is off, in 2^-32 ns, and what people use instead, in nanoseconds.
pub struct Sample {
    seconds: f64,
    own: i128,
    drifts: [f64; instead::COUNT],
}

/// The moments at which drifts are taken: twelve in each tenfold of time from a second on, and the table's.
fn moments(hours: u64) -> Vec<f64> {
    let end = hours as f64 * 3600.0;
    let steps = (0..).map(|k| 10f64.powf(f64::from(k) / 12.0)).take_while(|&s| s < end);
    let mut all: Vec<f64> = steps.chain(table::MARKS.map(|(_, hours)| hours as f64 * 3600.0)).collect();
    all.push(end);
    all.retain(|&s| s <= end);
    all.sort_by(f64::total_cmp);
    all.dedup();
    all
}

/// Drives so many hours; the samples. `told` is called now and then with the engine time reached.
fn run(drive: &mut Drive, hours: u64, seed: u64, mut told: impl FnMut(u128)) -> Vec<Sample> {
    let mut orders = Orders::begin(seed, drive);
    let mut samples = Vec::new();
    for seconds in moments(hours) {
        let moment = (seconds * 1e9) as u128 * (1 << 32);
        while drive.time() < moment {
            orders.give(drive);
            drive.run((orders.moment() - drive.cycles).min(1_000_000));
            if drive.calls % (1 << 20) == 0 {
                told(drive.time());
            }
        }
        samples.push(Sample { seconds, own: drive.drift(), drifts: drive.instead() });
    }
    samples
}

/// The ledger sees what it is there to see: with the remainder dropped at PERIOD writes no day is got through.
fn can_fail(seed: u64) {
    std::panic::set_hook(Box::new(|_| {}));
    let dropped = std::panic::catch_unwind(|| run(&mut Drive::dropping_remainders(), 24, seed, |_| {}));
    let call = CALL.load(Ordering::Relaxed);
    let _ = std::panic::take_hook();
    assert!(dropped.is_err(), "a remainder dropped at a PERIOD write is not seen");
    println!("with the remainder dropped at PERIOD writes, which is tried first: off at call {call}");
}

fn main() {
    let args: Option<Vec<u64>> = std::env::args().skip(1).map(|a| a.parse().ok()).collect();
    let (hours, seed) = match args.as_deref() {
        Some([]) => (SIX_MONTHS, 1),
        Some(&[hours]) if hours > 0 => (hours, 1),
        Some(&[hours, seed]) if hours > 0 => (hours, seed),
        _ => {
            eprintln!("usage: months [HOURS [SEED]]");
            std::process::exit(2);
        }
    };
    can_fail(seed);
    std::panic::set_hook(Box::new(move |why| {
        eprintln!("\nmonths {hours} {seed}: off at call {}: {why}", CALL.load(Ordering::Relaxed));
    }));
    let mut drive = Drive::begin();
    let mut progress = Progress::begin(u128::from(hours) * HOUR);
    let samples = run(&mut drive, hours, seed, |time| progress.told(time));
    progress.end();
    println!("{hours} h of engine time, seed {seed}: {drive}");
    println!("not one unit of 2^-32 ns off at any call, every edge in its eighth, none missing");
    table::print(&samples);
    let place = if hours == SIX_MONTHS {
        Path::new(env!("CARGO_MANIFEST_DIR")).join("../docs/drift.svg")
    } else {
        std::env::current_exe().expect("a program has a place").with_file_name("drift.svg")
    };
    std::fs::write(&place, picture::draw(&samples, seed)).expect("the picture cannot be written");
    println!("drawn: {}", if hours == SIX_MONTHS { "docs/drift.svg" } else { "drift.svg beside this program" });
}

//! Runs random sheets through the static library, the reference and the tuned engine, and compares every byte; after
//! every command the ledger of demand 3 is held against the reference's record.
//!
//!     compare [COMMANDS [SEED]]
use reference::ledger::Ledger;
use reference::random::Random;
use reference::tally::{Departures, Previews, Runs, Waits};
use reference::{sheet, tuned_sheet};
use std::sync::atomic::{AtomicU64, Ordering};

/// The seed from which the present sheet is made.
static SEED: AtomicU64 = AtomicU64::new(0);

#[link(name = "lendaru", kind = "static")]
extern "C" {
    fn lendaru_sheet_version() -> u64;
    fn lendaru_results_room() -> usize;
    fn lendaru_run_sheet(sheet: *const u8, sheet_length: usize, out: *mut u8, out_length: usize) -> usize;
}

/// The static library's run, into a buffer of which every byte is `fill`.
fn run(sheet: &[u8], out: &mut [u8], fill: u8) -> usize {
    out.fill(fill);
    // SAFETY: both are slices of Rust, and they do not overlap.
    unsafe { lendaru_run_sheet(sheet.as_ptr(), sheet.len(), out.as_mut_ptr(), out.len()) }
}

fn main() {
    let args: Vec<u64> = std::env::args().skip(1).map(|a| a.parse().expect("a number")).collect();
    let most = args.first().copied().unwrap_or(1_000_000);
    let seed = args.get(1).copied().unwrap_or(1);
    // SAFETY: they take nothing.
    let (version, room) = unsafe { (lendaru_sheet_version(), lendaru_results_room()) };
    assert_eq!(version, 5);
    std::panic::set_hook(Box::new(|why| {
        eprintln!("{why}\nTo see it again: compare 1 {}", SEED.load(Ordering::Relaxed));
    }));
    let mut random = Random(seed);
    let mut out = vec![0; room + 16];
    let (mut told, mut text) = (Vec::new(), Vec::new());
    let mut answers = [0u64; 18];
    let (mut runs, mut waits, mut previews) = (Runs::default(), Waits::default(), Previews::default());
    let mut departures = Departures::default();
    let (mut commands, mut sheets) = (0u64, 0u64);
    while commands < most {
        SEED.store(random.0, Ordering::Relaxed);
        let s = random.sheet();
        let mut ledger = Ledger::new();
        let mut before = 0;
        let expected = sheet::results_seen(&s, |e, c, o| {
            ledger.told(c, o);
            ledger.holds(e.shown(), e.remainder());
            answers[o.answer as usize] += 1;
            runs.told(c, o);
            previews.told(c, o);
            departures.told(c, o);
            waits.told(c, o, before, e.adjustments());
            before = e.adjustments();
            commands += 1;
        });
        if let Err((_, n)) = sheet::commands(&s) {
            answers[n as usize] += 1;
        }
        let fill = random.next() as u8;
        let n = run(&s, &mut out, fill);
        let same = &out[..n] == expected.as_bytes() && out[n..].iter().all(|&b| b == fill);
        assert!(same, "the library differs");
        tuned_sheet::results(&s, &mut told, &mut text);
        assert!(text == expected.as_bytes(), "the tuned engine differs");
        let short = random.below(room as u64) as usize;
        assert_eq!(run(&s, &mut out[..short], fill), 0, "a short buffer is refused");
        assert!(out[..short].iter().all(|&b| b == fill), "and left as it was");
        sheets += 1;
    }
    println!("{commands} commands in {sheets} sheets, seed {seed}: every byte equal, the ledger agrees");
    println!("answers 0 to 17: {answers:?}");
    println!("{runs}");
    println!("{waits}");
    println!("{previews}");
    println!("{departures}");
}

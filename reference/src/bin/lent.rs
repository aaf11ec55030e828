//! Lends one record to the panel's library, command after command, beside the reference: after each the reply and the
//! whole record must be equal. Now and then the record is damaged before a command. A malformed one must be answered
//! with 4 and left as it was; with a damaged one that is still valid both go on.
//!
//!     lent [COMMANDS [SEED]]
use reference::engine::{Command, Engine, Outcome};
use reference::random::Random;
use reference::record::{Adjustment, Record, CONDITIONS, NUMBERS};
use reference::tally::{Departures, Previews, Runs, Waits};
use std::sync::atomic::{AtomicU64, Ordering};

/// The seed from which the present engine's life is made.
static SEED: AtomicU64 = AtomicU64::new(0);

#[link(name = "lendaru_panel", kind = "static")]
extern "C" {
    fn lendaru_power_on() -> Record;
    fn lendaru_execute(e: &mut Record, c: Command) -> Outcome;
}

#[link(name = "lendaru_run", kind = "static")]
extern "C" {
    fn lendaru_run(e: &mut Record, a: u64) -> Outcome;
}

#[derive(Default)]
struct Counts {
    commands: u64,
    malformed: u64,
    valid: u64,
    answers: [u64; 18],
    runs: Runs,
    waits: Waits,
    previews: Previews,
    departures: Departures,
    /// calls of `lendaru_run`
    called: u64,
    /// malformed records by the condition of number 4 that they meet, where they meet only one
    faults: [u64; CONDITIONS],
}

/// Damages some numbers, anywhere in the record; every second one outside the FIFOs, which are most of it.
fn damage(random: &mut Random, record: &mut Record) {
    match random.below(10) {
        0 => return pend(random, record),
        1 => return wait(random, record),
        _ => {}
    }
    let numbers = record.numbers();
    for _ in 0..random.one_of(&[1, 1, 1, 2, 5]) {
        let at = match random.below(4) {
            0 => random.below(9),
            1 => NUMBERS as u64 - 1 - random.below(25),
            _ => random.below(NUMBERS as u64),
        } as usize;
        numbers[at] = match random.below(7) {
            0 => numbers[at].wrapping_add(1),
            1 => numbers[at].wrapping_sub(1),
            2 => numbers[at] ^ 1 << random.below(64),
            3 => numbers[at] ^ 1 << random.below(8),
            4 => numbers[random.below(NUMBERS as u64) as usize],
            5 => random.one_of(&[256, 1_000_000_000, 1 << 24, 1 << 32, 1 << 40, 1 << 48]) - random.below(2),
            _ => random.hostile(),
        };
    }
}

/// Puts a pending instant at the time shown, as near as D allows, just before or just behind it.
fn pend(random: &mut Random, record: &mut Record) {
    let (g, clock) = (&mut record.generators[random.below(2) as usize], &record.clock);
    let exact = clock.fraction * g.denominator / 256;
    g.pending.seconds = clock.seconds;
    g.pending.nanoseconds = clock.nanoseconds;
    g.pending.remainder = (exact + random.below(3)).saturating_sub(1);
}

/// Lets the running adjustment wait, behind itself or behind none, or takes it from before the waiting one.
fn wait(random: &mut Random, record: &mut Record) {
    let s = &mut record.steering;
    match random.below(3) {
        0 => s.waiting = s.adjustment,
        1 => std::mem::swap(&mut s.adjustment, &mut s.waiting),
        _ => s.adjustment = Adjustment::default(),
    }
}

/// A command by the library: a run by the function that does nothing else, where it is asked for.
fn execute(record: &mut Record, c: &Command, by_run: bool) -> Outcome {
    // SAFETY: the record is lent for the call alone.
    unsafe {
        if by_run {
            lendaru_run(record, c.f[0])
        } else {
            lendaru_execute(record, *c)
        }
    }
}

/// One command on a record that may have been damaged; whether it was malformed.
fn refused(record: &Record, c: &Command, by_run: bool, counts: &mut Counts) -> bool {
    if record.is_valid() {
        return false;
    }
    let mut lent = *record;
    assert_eq!(execute(&mut lent, c, by_run), Outcome { answer: 4, values: [0; 5] }, "number 4 of {record:?}, {c:?}");
    assert_eq!(lent, *record, "a malformed record is left as it was, {c:?}");
    let faults = record.faults();
    if faults.iter().filter(|&&fault| fault).count() == 1 {
        (0..CONDITIONS).for_each(|i| counts.faults[i] += u64::from(faults[i]));
    }
    counts.malformed += 1;
    counts.answers[4] += 1;
    true
}

/// A life of some thousand commands, from power-on.
fn live(random: &mut Random, counts: &mut Counts) {
    let mut engine = Engine::new();
    // SAFETY: it takes nothing.
    let mut lent = unsafe { lendaru_power_on() };
    assert_eq!(lent, engine.record(), "the power-on record");
    let end = counts.commands + 1000 + random.below(5000);
    while counts.commands < end {
        for c in random.commands_at(&engine, 20) {
            let by_run = c.op == 9 && c.f[1..] == [0; 7] && random.chance(50);
            counts.called += u64::from(by_run);
            counts.commands += 1;
            let mut damaged = lent;
            if random.chance(10) {
                damage(random, &mut damaged);
            }
            if refused(&damaged, &c, by_run, counts) {
                continue;
            }
            if damaged != lent {
                counts.valid += 1;
                lent = damaged;
                engine = Engine::from_record(&lent);
            }
            let before = engine.adjustments();
            let expected = engine.execute(&c);
            assert_eq!(execute(&mut lent, &c, by_run), expected, "the reply to {c:?} on {damaged:?}");
            assert_eq!(lent, engine.record(), "the record after {c:?} on {damaged:?}");
            counts.answers[expected.answer as usize] += 1;
            counts.runs.told(&c, &expected);
            counts.previews.told(&c, &expected);
            counts.departures.told(&c, &expected);
            counts.waits.told(&c, &expected, before, engine.adjustments());
        }
    }
}

fn main() {
    let args: Vec<u64> = std::env::args().skip(1).map(|a| a.parse().expect("a number")).collect();
    let most = args.first().copied().unwrap_or(500_000);
    let seed = args.get(1).copied().unwrap_or(1);
    std::panic::set_hook(Box::new(|why| {
        eprintln!("{why}\nTo see it again: lent 1 {}", SEED.load(Ordering::Relaxed));
    }));
    let mut random = Random(seed);
    let mut counts = Counts::default();
    let mut lives = 0;
    while counts.commands < most {
        SEED.store(random.0, Ordering::Relaxed);
        live(&mut random, &mut counts);
        lives += 1;
    }
    let Counts { commands, malformed, valid, answers, runs, waits, previews, departures, called, faults } = counts;
    println!("{commands} commands on {lives} lent records, seed {seed}: every reply and every record equal");
    println!("damaged before a command: {malformed} malformed, {valid} still valid");
    println!("answers 0 to 17: {answers:?}");
    println!("{runs}; by lendaru_run {called}, malformed records included");
    println!("{waits}");
    println!("{previews}");
    println!("{departures}");
    println!("malformed by one condition of number 4 alone, in its order: {faults:?}");
}

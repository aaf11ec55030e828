//! What people use instead, on the same orders, each as its own users write it.
use crate::orders::{DENOMINATOR, NUMERATOR, START, WHOLE};

pub const COUNT: usize = 4;
pub const NAMES: [&str; COUNT] =
    ["timecounter, shift 19", "timecounter, shift 28", "seconds in a double", "interval rounded to 1/256 ns"];

/// Nanoseconds of a difference in 2^-32 ns.
fn nanoseconds(units: i128) -> f64 {
    units as f64 / (1u64 << 32) as f64
}

/// A clock as Linux's timecounter keeps it (linux/timecounter.h and kernel/time/timecounter.c): cycles times a whole
/// multiplier, shifted down, and the bits that fall off are kept for the next reading, so that nothing is lost but what
/// the multiplier lost when it was rounded. A driver reads the clock and then sets the multiplier: at a PERIOD write,
/// and at both ends of an adjustment. Shifts of 19 and 28 are found in drivers of network cards.
struct Timecounter {
    shift: u32,
    mult: u64,
    nsec: u64,
    frac: u64,
}

impl Timecounter {
    fn new(shift: u32) -> Self {
        Timecounter { shift, mult: 0, nsec: 0, frac: 0 }
    }

    /// The nearest multiplier for so many 2^-32 ns a cycle.
    fn set(&mut self, amount: u64) {
        let below = 32 - self.shift;
        self.mult = (amount + (1 << (below - 1))) >> below;
    }

    fn read(&mut self, cycles: u64) {
        let ns = cycles * self.mult + self.frac;
        self.frac = ns & ((1 << self.shift) - 1);
        self.nsec += ns >> self.shift;
    }

    fn drift(&self, exact: u128) -> f64 {
        let time = i128::from(self.nsec) << 32 | i128::from(self.frac << (32 - self.shift));
        nanoseconds(time - exact as i128)
    }
}

/// A clock as a program keeps it that counts seconds in a double: what went by is added to what there was.
struct Double {
    step: f64,
    seconds: f64,
}

impl Double {
    fn set(&mut self, amount: u64) {
        self.step = amount as f64 / (1u64 << 32) as f64 * 1e-9;
    }

    fn add(&mut self, cycles: u64) {
        self.seconds += cycles as f64 * self.step;
    }

    fn drift(&self, exact: u128) -> f64 {
        // whole seconds and the rest apart, so that the comparison loses nothing to speak of
        let whole = (exact / (1_000_000_000 << 32)) as f64;
        let rest = (exact % (1_000_000_000 << 32)) as i128;
        (self.seconds - whole) * 1e9 - nanoseconds(rest)
    }
}

/// A train as a timer with a compare register makes it: the interval was turned into the timer's unit once, here 1/256
/// ns, and is added at each edge.
struct Train {
    interval: u64,
    next: u64,
    edges: u64,
}

impl Train {
    fn begin() -> Train {
        let interval = (WHOLE * 256 * DENOMINATOR + NUMERATOR * 256 + DENOMINATOR / 2) / DENOMINATOR;
        Train { interval, next: START * 1_000_000_000 * 256, edges: 0 }
    }

    fn edge(&mut self) {
        self.next += self.interval;
        self.edges += 1;
    }

    fn drift(&self) -> f64 {
        let den = i128::from(DENOMINATOR);
        let ordered = i128::from(START) * 1_000_000_000 * den
            + i128::from(self.edges) * (i128::from(WHOLE) * den + i128::from(NUMERATOR));
        (i128::from(self.next) * den - ordered * 256) as f64 / (den * 256) as f64
    }
}

pub struct Instead {
    /// what is ordered for a cycle, in 2^-32 ns
    amount: u128,
    coarse: Timecounter,
    fine: Timecounter,
    double: Double,
    train: Train,
}

impl Instead {
    pub fn begin() -> Instead {
        let (coarse, fine) = (Timecounter::new(19), Timecounter::new(28));
        Instead { amount: 0, coarse, fine, double: Double { step: 0.0, seconds: 0.0 }, train: Train::begin() }
    }

    /// So many cycles of an amount.
    pub fn advance(&mut self, amount: u128, cycles: u64) {
        if cycles == 0 {
            return;
        }
        if amount != self.amount {
            self.amount = amount;
            self.coarse.set(amount as u64);
            self.fine.set(amount as u64);
            self.double.set(amount as u64);
        }
        self.coarse.read(cycles);
        self.fine.read(cycles);
        self.double.add(cycles);
    }

    /// An edge of the train.
    pub fn edge(&mut self) {
        self.train.edge();
    }

    /// How far each is off, in nanoseconds, at this exact time; the train by its next edge.
    pub fn drifts(&self, exact: u128) -> [f64; COUNT] {
        [self.coarse.drift(exact), self.fine.drift(exact), self.double.drift(exact), self.train.drift()]
    }
}

//! The record as the panel's library lays it out, numbers of 64 bits in a row; number 4, written from the paper; and
//! the ways from a reference engine to its record and back.
use crate::engine::{self, Engine};
use crate::generator;
use std::collections::VecDeque;

const NS: u64 = 1_000_000_000;
const LAST: u64 = (1 << 48) - 1;

/// How many numbers a record has.
pub const NUMBERS: usize = 109;

/// How many conditions number 4 has.
pub const CONDITIONS: usize = 13;

#[repr(C)]
#[derive(Clone, Copy, Debug, PartialEq, Eq)]
pub struct Clock {
    pub seconds: u64,
    pub nanoseconds: u64,
    pub fraction: u64,
    pub remainder: u64,
}

#[repr(C)]
#[derive(Clone, Copy, Debug, Default, PartialEq, Eq)]
pub struct Adjustment {
    pub amount: u64,
    pub cycles: u64,
}

#[repr(C)]
#[derive(Clone, Copy, Debug, PartialEq, Eq)]
pub struct Steering {
    pub period: u64,
    pub adjustment: Adjustment,
    pub waiting: Adjustment,
}

#[repr(C)]
#[derive(Clone, Copy, Debug, Default, PartialEq, Eq)]
pub struct Timestamp {
    pub seconds: u64,
    pub nanoseconds: u64,
    pub rising: u64,
}

#[repr(C)]
#[derive(Clone, Copy, Debug, Default, PartialEq, Eq)]
pub struct Fifo {
    pub entries: [Timestamp; 8],
    pub count: u64,
}

#[repr(C)]
#[derive(Clone, Copy, Debug, Default, PartialEq, Eq)]
pub struct Instant {
    pub seconds: u64,
    pub nanoseconds: u64,
    pub remainder: u64,
}

#[repr(C)]
#[derive(Clone, Copy, Debug, Default, PartialEq, Eq)]
pub struct Generator {
    pub pending: Instant,
    pub whole: u64,
    pub numerator: u64,
    pub denominator: u64,
    pub left: u64,
    pub direction: u64,
    pub mark: u64,
}

#[repr(C)]
#[derive(Clone, Copy, Debug, PartialEq, Eq)]
pub struct Interrupts {
    pub latched: u64,
    pub enabled: u64,
}

#[repr(C)]
#[derive(Clone, Copy, Debug, PartialEq, Eq)]
pub struct Record {
    pub clock: Clock,
    pub steering: Steering,
    pub fifos: [Fifo; 3],
    pub generators: [Generator; 2],
    pub interrupts: Interrupts,
    pub words: [u64; 5],
}

const _: () = assert!(std::mem::size_of::<Record>() == 8 * NUMBERS);

impl Adjustment {
    fn of(a: Option<engine::Adjustment>) -> Adjustment {
        a.map(|a| Adjustment { amount: a.amount as u64, cycles: a.cycles }).unwrap_or_default()
    }

    fn begun(&self) -> Option<engine::Adjustment> {
        self.is_used().then(|| engine::Adjustment { amount: self.amount.into(), cycles: self.cycles })
    }

    fn is_used(&self) -> bool {
        self.cycles != 0
    }
}

impl Fifo {
    /// The stored timestamps and the unused places; with a count over 8 all are stored.
    fn parts(&self) -> (&[Timestamp], &[Timestamp]) {
        self.entries.split_at(self.count.min(8) as usize)
    }

    fn of(stamps: &VecDeque<engine::Stamp>) -> Fifo {
        let mut fifo = Fifo { count: stamps.len() as u64, ..Fifo::default() };
        for (place, stamp) in fifo.entries.iter_mut().zip(stamps) {
            let (seconds, nanoseconds) = split(stamp.ns);
            *place = Timestamp { seconds, nanoseconds, rising: stamp.rising.into() };
        }
        fifo
    }

    fn stamps(&self) -> VecDeque<engine::Stamp> {
        let stamp = |t: &Timestamp| engine::Stamp { ns: join(t.seconds, t.nanoseconds), rising: t.rising == 1 };
        self.parts().0.iter().map(stamp).collect()
    }
}

impl Generator {
    fn of(g: &generator::Generator) -> Generator {
        let e = g.instant(g.done);
        let (seconds, nanoseconds) = split(e.num / e.den);
        Generator {
            pending: Instant { seconds, nanoseconds, remainder: (e.num % e.den) as u64 },
            whole: g.whole as u64,
            numerator: g.num as u64,
            denominator: g.den as u64,
            left: g.count - g.done,
            direction: g.direction(),
            mark: g.mark.into(),
        }
    }

    /// The generator whose instant 0 is the pending one.
    fn begun(&self) -> generator::Generator {
        let (den, pending) = (u128::from(self.denominator), &self.pending);
        generator::Generator {
            start: join(pending.seconds, pending.nanoseconds) * den + u128::from(pending.remainder),
            whole: self.whole.into(),
            num: self.numerator.into(),
            den,
            count: self.left,
            first: self.direction,
            mark: self.mark == 1,
            done: 0,
        }
    }

    /// Op 3's limits, and a direction.
    fn is_in_limits(&self) -> bool {
        (256..NS).contains(&self.whole)
            && self.numerator < self.denominator
            && self.denominator < 1 << 32
            && self.left < 1 << 32
            && self.direction <= 1
            && self.mark <= 1
    }

    fn is_before(&self, shown: &Clock) -> bool {
        let nanosecond = (self.pending.seconds, self.pending.nanoseconds);
        // what is below a nanosecond, times 256 and times D
        let below = u128::from(self.pending.remainder) * 256;
        let shown_below = u128::from(shown.fraction) * u128::from(self.denominator);
        (nanosecond, below) < ((shown.seconds, shown.nanoseconds), shown_below)
    }
}

impl Record {
    /// Number 4, its conditions one by one in the paper's order, then the one that document 02 adds.
    pub fn faults(&self) -> [bool; CONDITIONS] {
        let Record { clock, steering: Steering { period, adjustment, waiting }, interrupts, .. } = self;
        let outside = |seconds: u64, ns: u64| seconds > LAST || ns >= NS;
        let bad_amount = |x: u64| !(1 << 32..1 << 40).contains(&x);
        let either = |bad: &dyn Fn(&Adjustment) -> bool| bad(adjustment) || bad(waiting);
        let runs = |g: &Generator| g.left != 0;
        let some_runs = |bad: &dyn Fn(&Generator) -> bool| self.generators.iter().any(|g| runs(g) && bad(g));
        let stored = |t: &Timestamp| outside(t.seconds, t.nanoseconds) || t.rising > 1;
        [
            outside(clock.seconds, clock.nanoseconds) || clock.fraction > 255 || clock.remainder >= 1 << 24,
            self.fifos.iter().any(|f| f.parts().0.iter().any(stored)),
            self.words.iter().any(|&w| w > 65535),
            interrupts.latched & !0x3F37 != 0 || interrupts.enabled & !0x3F7F != 0,
            some_runs(&|g| outside(g.pending.seconds, g.pending.nanoseconds)),
            self.fifos.iter().any(|f| f.count > 8),
            bad_amount(*period) || either(&|a| a.is_used() && bad_amount(a.amount)),
            either(&|a| a.cycles >= 1 << 24),
            some_runs(&|g| !g.is_in_limits()),
            some_runs(&|g| g.pending.remainder >= g.denominator),
            some_runs(&|g| g.is_before(clock)),
            self.fifos.iter().any(|f| f.parts().1.iter().any(|t| *t != Timestamp::default()))
                || self.generators.iter().any(|g| !runs(g) && *g != Generator::default())
                || either(&|a| !a.is_used() && a.amount != 0),
            waiting.is_used() && !adjustment.is_used(),
        ]
    }

    pub fn is_valid(&self) -> bool {
        self.faults() == [false; CONDITIONS]
    }

    /// The record as a row of numbers.
    pub fn numbers(&mut self) -> &mut [u64; NUMBERS] {
        // SAFETY: it is that many numbers and nothing else, and any number may stand in each place.
        unsafe { &mut *(self as *mut Record).cast() }
    }
}

/// Seconds and nanoseconds of a time in nanoseconds, and back.
fn split(ns: u128) -> (u64, u64) {
    ((ns / u128::from(NS)) as u64, (ns % u128::from(NS)) as u64)
}

fn join(seconds: u64, ns: u64) -> u128 {
    u128::from(seconds) * u128::from(NS) + u128::from(ns)
}

impl Engine {
    pub fn record(&self) -> Record {
        let (seconds, nanoseconds) = split(self.shown() >> 8);
        let (fraction, remainder) = (self.shown() as u64 & 255, self.remainder() as u64);
        Record {
            clock: Clock { seconds, nanoseconds, fraction, remainder },
            steering: Steering {
                period: self.period as u64,
                adjustment: Adjustment::of(self.adjustment),
                waiting: Adjustment::of(self.waiting),
            },
            fifos: std::array::from_fn(|i| Fifo::of(&self.stampers[i])),
            generators: self.generators.map(|g| g.map(|g| Generator::of(&g)).unwrap_or_default()),
            interrupts: Interrupts { latched: self.latched, enabled: self.enabled },
            words: self.words,
        }
    }

    /// The engine that has this valid record.
    pub fn from_record(record: &Record) -> Engine {
        let Record { clock, steering, interrupts, .. } = record;
        let below = u128::from(clock.fraction << 24 | clock.remainder);
        Engine {
            exact: join(clock.seconds, clock.nanoseconds) << 32 | below,
            period: steering.period.into(),
            adjustment: steering.adjustment.begun(),
            waiting: steering.waiting.begun(),
            stampers: std::array::from_fn(|i| record.fifos[i].stamps()),
            generators: record.generators.map(|g| (g.left != 0).then(|| g.begun())),
            latched: interrupts.latched,
            enabled: interrupts.enabled,
            words: record.words,
        }
    }
}

//! The engine's record, lent call by call, and what is held against it after each.
use crate::instead::{self, Instead};
use crate::CALL;
use reference::engine::{Command, Outcome};
use reference::ledger::Ledger;
use reference::record::Record;
use std::fmt;
use std::sync::atomic::Ordering;

#[link(name = "lendaru_panel", kind = "static")]
extern "C" {
    fn lendaru_power_on() -> Record;
    fn lendaru_execute(e: &mut Record, c: Command) -> Outcome;
}

#[link(name = "lendaru_run", kind = "static")]
extern "C" {
    fn lendaru_run(e: &mut Record, a: u64) -> Outcome;
}

pub struct Drive {
    record: Record,
    ledger: Ledger,
    instead: Instead,
    /// reference cycles done
    pub cycles: u64,
    pub calls: u64,
    edges: [u64; 2],
    periods: u64,
    adjustments: u64,
    timestamps: u64,
    /// whether the remainder is dropped at each PERIOD write, which the engine must not do
    drops: bool,
}

impl Drive {
    pub fn begin() -> Drive {
        // SAFETY: it takes nothing.
        let record = unsafe { lendaru_power_on() };
        Drive {
            record,
            ledger: Ledger::new(),
            instead: Instead::begin(),
            cycles: 0,
            calls: 0,
            edges: [0; 2],
            periods: 0,
            adjustments: 0,
            timestamps: 0,
            drops: false,
        }
    }

    pub fn dropping_remainders() -> Drive {
        Drive { drops: true, ..Drive::begin() }
    }

    /// The exact time, in 2^-32 ns, as the ledger has it.
    pub fn time(&self) -> u128 {
        self.ledger.time()
    }

    /// The time shown at the start of the next tick and its step, in 1/256 ns.
    pub fn next_tick(&self) -> (u128, u128) {
        let next = self.ledger.next(1).iter().fold(self.time(), |time, (amount, n)| time + amount * u128::from(*n));
        (self.time() >> 24, (next >> 24) - (self.time() >> 24))
    }

    pub fn adjusts(&self) -> bool {
        self.ledger.adjusts()
    }

    pub fn generator_runs(&self, number: usize) -> bool {
        self.record.generators[number - 1].left != 0
    }

    /// The time shown, in 1/256 ns, as the record has it.
    fn shown(&self) -> u128 {
        let clock = &self.record.clock;
        let nanoseconds = u128::from(clock.seconds) * 1_000_000_000 + u128::from(clock.nanoseconds);
        nanoseconds * 256 + u128::from(clock.fraction)
    }

    /// How far the record is off, in 2^-32 ns.
    pub fn drift(&self) -> i128 {
        ((self.shown() << 24) + u128::from(self.record.clock.remainder)) as i128 - self.time() as i128
    }

    /// How far off is what people use instead, in nanoseconds.
    pub fn instead(&self) -> [f64; instead::COUNT] {
        self.instead.drifts(self.time())
    }

    /// A command that must be accepted; its values.
    pub fn execute<const N: usize>(&mut self, op: u64, fields: [u64; N]) -> [u64; 5] {
        let mut c = Command { op, f: [0; 8] };
        c.f[..N].copy_from_slice(&fields);
        // SAFETY: the record is lent for the call alone.
        let o = unsafe { lendaru_execute(&mut self.record, c) };
        match (op, c.f[0]) {
            (0, _) => self.timestamps += c.f.iter().filter(|&&code| code != 0).count() as u64,
            (2, 1) => self.periods += 1,
            (2, 2) => self.adjustments += 1,
            _ => {}
        }
        if self.drops && (op, c.f[0]) == (2, 1) {
            self.record.clock.remainder = 0;
        }
        self.told(&c, &o);
        o.values
    }

    /// At most so many cycles.
    pub fn run(&mut self, most: u64) {
        // SAFETY: the record is lent for the call alone.
        let o = unsafe { lendaru_run(&mut self.record, most) };
        self.told(&Command { op: 9, f: [most, 0, 0, 0, 0, 0, 0, 0] }, &o);
    }

    /// Books a call, and holds the record against the ledger.
    fn told(&mut self, c: &Command, o: &Outcome) {
        self.calls += 1;
        CALL.store(self.calls, Ordering::Relaxed);
        assert_eq!(o.answer, 0, "{c:?} is accepted");
        let [v1, v2, v3, v4, _] = o.values;
        let ticks = match c.op {
            0 => 1,
            9 => v3 + v4 * 65536,
            _ => 0,
        };
        if ticks > 0 {
            for (amount, cycles) in self.ledger.next(ticks) {
                self.instead.advance(amount, cycles);
            }
            self.cycles += ticks;
            if v1 != 0 {
                self.instead.edge();
                self.edges[0] += 1;
            }
            self.edges[1] += u64::from(v2 != 0);
        }
        self.ledger.told(c, o);
        self.ledger.holds(self.shown(), self.record.clock.remainder.into());
    }
}

impl fmt::Display for Drive {
    fn fmt(&self, f: &mut fmt::Formatter) -> fmt::Result {
        let Drive { cycles, calls, edges: [one, two], periods, adjustments, timestamps, .. } = self;
        write!(f, "{calls} calls, {cycles} cycles, {periods} PERIOD writes, {adjustments} adjustments, ")?;
        write!(f, "{one} edges of generator 1 and {two} of generator 2, {timestamps} timestamps")
    }
}

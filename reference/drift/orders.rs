//! What the engine is ordered to do, at seeded moments: one train for the whole time, and beside it PERIOD writes about
//! once an hour, adjustments every five minutes, trains of generator 2 every minute and inputs every five seconds. TIME
//! is never written, for that would end the train.
use crate::drive::Drive;
use reference::engine::{timestamp, words_of};
use reference::random::Random;

const SECOND: u64 = 125_000_000;
/// How many cycles lie between two orders of a kind, on average: PERIOD, adjust, generator 2, inputs.
const EVERY: [u64; 4] = [3600 * SECOND, 300 * SECOND, 60 * SECOND, 5 * SECOND];

/// 8 ns, in 2^-32 ns.
const NOMINAL: u64 = 8 << 32;

/// The train of generator 1: from 1 s on, thirty edges a second, 33,333,333 + 1/3 ns apart.
pub const START: u64 = 1;
pub const WHOLE: u64 = 33_333_333;
pub const NUMERATOR: u64 = 1;
pub const DENOMINATOR: u64 = 3;

pub struct Orders {
    random: Random,
    /// the cycle of the next order of each kind
    due: [u64; 4],
}

impl Orders {
    /// Orders the train and a first PERIOD, and chooses the moments of the others.
    pub fn begin(seed: u64, drive: &mut Drive) -> Orders {
        let mut orders = Orders { random: Random(seed), due: [0; 4] };
        drive.execute(3, [1, START, 0, WHOLE, NUMERATOR, DENOMINATOR, u64::from(u32::MAX), 0]);
        orders.period(drive);
        orders.due = EVERY.map(|mean| 1 + orders.random.below(2 * mean));
        orders
    }

    /// The cycle of the next order.
    pub fn moment(&self) -> u64 {
        self.due.into_iter().min().expect("there are four kinds")
    }

    /// Gives the orders whose moment has come, until none is left.
    pub fn give(&mut self, drive: &mut Drive) {
        while let Some(kind) = self.due.iter().position(|&cycle| cycle <= drive.cycles) {
            match kind {
                0 => self.period(drive),
                1 => self.adjust(drive),
                2 => self.train(drive),
                _ => self.inputs(drive),
            }
            self.due[kind] = drive.cycles + 1 + self.random.below(2 * EVERY[kind]);
        }
    }

    /// Loads the words of an amount within so many millionths of 8 ns, and of a count.
    fn load(&mut self, millionths: u64, count: u64, drive: &mut Drive) {
        let most = NOMINAL / 1_000_000 * millionths;
        let amount = NOMINAL - most + self.random.below(2 * most + 1);
        let w3 = (amount & 0xFF) << 8 | count >> 16;
        drive.execute(1, [0, count & 0xFFFF, w3, amount >> 8 & 0xFFFF, amount >> 24]);
    }

    fn period(&mut self, drive: &mut Drive) {
        self.load(100, 0, drive);
        drive.execute(2, [1, 8]);
    }

    fn adjust(&mut self, drive: &mut Drive) {
        if drive.adjusts() {
            return;
        }
        let count = 1 + self.random.below((1 << 24) - 1);
        self.load(10_000, count, drive);
        drive.execute(2, [2, 8]);
    }

    /// A train of at most a hundred edges, of any interval; one that still runs is stopped as often as not.
    fn train(&mut self, drive: &mut Drive) {
        if drive.generator_runs(2) {
            if self.random.chance(50) {
                drive.execute(4, [2]);
            }
            return;
        }
        let start = (drive.time() >> 32) as u64 + 1 + self.random.below(1_000_000_000);
        let most = self.random.one_of(&[1_000, 100_000, 10_000_000, 999_999_744]);
        let whole = 256 + self.random.below(most);
        let den = 1 + self.random.below((1 << 32) - 1);
        let (num, count) = (self.random.below(den), 1 + self.random.below(100));
        drive.execute(3, [2, start / 1_000_000_000, start % 1_000_000_000, whole, num, den, count, 1]);
    }

    /// A tick with edges on the inputs, whose timestamps are read and held against the rule.
    fn inputs(&mut self, drive: &mut Drive) {
        let codes = [0; 3].map(|_| self.random.below(17));
        let (shown, step) = drive.next_tick();
        drive.execute(0, codes);
        for (fifo, code) in (1..).zip(codes).filter(|&(_, code)| code != 0) {
            let expected = words_of(timestamp(shown, step, (code - 1) % 8), code >= 9);
            assert_eq!(drive.execute(2, [16, fifo]), expected, "the timestamp of input {fifo}, code {code}");
        }
    }
}

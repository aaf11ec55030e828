//! Rows of runs, as lines of a sheet and on a lent record, and of previews and departure times, as lines of a sheet. A
//! unit is one of them: what a sheet with more such lines, or a record with more runs, costs more, divided by their
//! number, so that nothing else is in it. The tuned engine ticks, so of its long runs only few are done.
use crate::engine::{Command, Outcome};
use crate::{command, lendaru_execute, lendaru_power_on, lendaru_run, sheets};
use std::hint::black_box;
use std::time::Instant;

/// The tuned engine once more, for the reason that `lent_tuned` has.
#[allow(dead_code)]
#[path = "../src/tuned.rs"]
mod run_tuned;

/// Sheets or records that are done in a row.
const TIMES: u64 = 1000;

/// Runs of a sheet or a record, the fewer and the more: an adjustment of 2^24 - 1 cycles outlasts 16 runs of 10^6.
const FEW: u64 = 8;
const MANY: u64 = 16;

pub struct Runs {
    /// 9, 10 for previews, or 11 and 12 for departure times
    op: u64,
    orders: Vec<Command>,
    /// what a run asks for, or another op's first two fields; and the ticks that it does
    fields: [u64; 2],
    ticks: u64,
    lent: bool,
    /// whether the orders are for one run: a sheet or a record then has one or none
    once: bool,
}

/// The same runs in a sheet and on a lent record, long and short.
pub fn rows() -> Vec<(&'static str, Runs)> {
    let adjusted = |low, high, amount| [command(1, &[0, low, high, 0, amount]), command(2, &[2, 8])];
    let adjust = adjusted(65535, 255, 1920);
    let train = |g, ns, whole, num, den| command(3, &[g, 0, ns, whole, num, den, 4_294_967_295, 1]);
    // in this second, and after all runs of a sheet
    let ahead = [train(1, 999_000_003, 256, 1, 3), train(2, 999_000_005, 300, 6, 7)];
    let steered = [adjust, ahead].concat();
    // 7.5 ns for 300,000 cycles, then 8.5 ns for 400,000
    let twice = [adjusted(37_856, 4, 1920), adjusted(6784, 6, 2176), ahead].concat();
    let (far, near) = (vec![train(1, 3, 1_000_000, 1, 3)], vec![train(1, 3, 320, 1, 3)]);
    let row = |name, orders: &[Command], most, ticks, lent| {
        let orders = orders.to_vec();
        (name, Runs { op: 9, orders, fields: [most, 0], ticks, lent, once: false })
    };
    const MILLION: u64 = 1_000_000;
    let once = |name, lent| {
        let (name, runs) = row(name, &twice, MILLION, MILLION, lent);
        (name, Runs { once: true, ..runs })
    };
    // 9 ns for two cycles in the words
    let preview = |name, ticks| {
        let (name, runs) = row(name, &[command(1, &[0, 2, 0, 0, 2304])], ticks, ticks, false);
        (name, Runs { op: 10, ..runs })
    };
    // in second 1,000,005, at 123,456,789 ns
    let departure = |name, op, fields| {
        let time = [command(1, &[16_965, 15, 0, 52_501, 1883]), command(2, &[0, 8])];
        let (name, runs) = row(name, &time, 0, 1, false);
        (name, Runs { op, fields, ..runs })
    };
    vec![
        row("run line, 10^6 cycles, idle", &[], MILLION, MILLION, false),
        row("run line, 10 cycles, idle", &[], 10, 10, false),
        row("run line, 10^6 cycles, two trains ahead, adjustment", &steered, MILLION, MILLION, false),
        row("run line, 10 cycles, two trains ahead, adjustment", &steered, 10, 10, false),
        row("run line, to an edge after 125,000 cycles", &far, MILLION, 125_000, false),
        row("run line, to an edge after 40 cycles", &near, MILLION, 40, false),
        row("run on a lent record, 10^6 cycles, idle", &[], MILLION, MILLION, true),
        row("run on a lent record, 10 cycles, idle", &[], 10, 10, true),
        row("run on a lent record, 10^6 cycles, two trains ahead, adjustment", &steered, MILLION, MILLION, true),
        row("run on a lent record, 10 cycles, two trains ahead, adjustment", &steered, 10, 10, true),
        row("run on a lent record, to an edge after 125,000 cycles", &far, MILLION, 125_000, true),
        row("run on a lent record, to an edge after 40 cycles", &near, MILLION, 40, true),
        once("run line, 10^6 cycles, two trains ahead, two adjustments that end", false),
        once("run on a lent record, 10^6 cycles, two trains ahead, two adjustments that end", true),
        preview("preview of 1,000 ticks, line of a sheet", 1000),
        preview("preview of 1 tick, line of a sheet", 1),
        departure("departure time into a field of 0, line of a sheet", 11, [0, 0]),
        // that departure's field, and a software second two earlier
        departure("departure time out of a field, line of a sheet", 12, [1_000_003, 5_123_456_789 << 16]),
    ]
}

/// A run on a lent record, with the same call as the panel's library: check 4, then the run.
#[inline(never)]
extern "C" fn tuned_run(e: &mut run_tuned::Engine, a: u64) -> Outcome {
    if e.is_valid() {
        e.run(a)
    } else {
        Outcome { answer: 4, values: [0; 5] }
    }
}

/// The bits of all that n runs tell, on a copy of a record each time.
fn calls<E: Copy>(times: u64, n: u64, most: u64, start: &E, run: impl Fn(&mut E, u64) -> Outcome) -> u64 {
    let mut told = 0;
    for _ in 0..times {
        let mut e = *black_box(start);
        for _ in 0..n {
            let o = run(&mut e, most);
            told |= o.values.iter().fold(o.answer, |bits, v| bits | v);
        }
        black_box(&e);
    }
    told
}

impl Runs {
    fn is_slow(&self, ours: bool) -> bool {
        !ours && self.ticks > 1000
    }

    fn times(&self, ours: bool) -> u64 {
        if self.is_slow(ours) {
            1
        } else {
            TIMES
        }
    }

    /// How many runs of a sheet or a record make a difference: the fewer and the more.
    pub fn counts(&self, ours: bool) -> [u64; 2] {
        if self.once {
            [0, 1]
        } else if self.is_slow(ours) {
            [1, 2]
        } else {
            [FEW, MANY]
        }
    }

    /// How many units the difference is.
    pub fn units(&self, ours: bool) -> f64 {
        let [few, many] = self.counts(ours);
        ((many - few) * self.times(ours)) as f64
    }

    /// Sheets of n run lines, or records with n runs, by Lendaru or by the tuned engine.
    pub fn run(&self, n: u64, ours: bool) {
        let times = self.times(ours);
        match (self.lent, ours) {
            (false, _) => sheets(times, &self.sheet(n), ours),
            (true, true) => {
                // SAFETY: it takes nothing.
                let mut e = unsafe { lendaru_power_on() };
                for &c in &self.orders {
                    // SAFETY: the record is lent for the call alone.
                    unsafe { lendaru_execute(&mut e, c) };
                }
                // SAFETY: the record is lent for the call alone.
                black_box(calls(times, n, black_box(self.fields[0]), &e, |e, a| unsafe { lendaru_run(e, a) }));
            }
            (true, false) => {
                let mut e = run_tuned::Engine::new();
                for c in &self.orders {
                    e.execute(c);
                }
                black_box(calls(times, n, black_box(self.fields[0]), &e, |e, a| tuned_run(e, a)));
            }
        }
    }

    /// The sheet is written with all its lines and cut, so that writing it costs the same for every n.
    fn sheet(&self, n: u64) -> Vec<u8> {
        let line = |c: &Command| c.f.iter().fold(c.op.to_string(), |line, v| format!("{line},{v}")) + "\n";
        let run = line(&command(self.op, &self.fields));
        let mut s = "op,a,b,c,d,e,f,g,h\n".to_string();
        s.extend(self.orders.iter().map(line));
        s.push_str(&run.repeat(MANY as usize));
        s.truncate(s.len() - (MANY - n) as usize * run.len());
        s.into_bytes()
    }

    /// Nanoseconds of a unit, Lendaru's and the tuned engine's: the best of many by turns.
    pub fn nanoseconds(&self) -> [f64; 2] {
        let mut best = [[f64::INFINITY; 2]; 2];
        for _ in 0..60 {
            for (who, best) in best.iter_mut().enumerate() {
                for (n, best) in self.counts(who == 0).into_iter().zip(best) {
                    let start = Instant::now();
                    self.run(n, who == 0);
                    *best = best.min(start.elapsed().as_nanos() as f64);
                }
            }
        }
        [0, 1].map(|who| (best[who][1] - best[who][0]) / self.units(who == 0))
    }
}

//! What the run lines, the waiting adjustments, the previews and the departure times of a comparison did, so that one
//! sees that they were tried.
use crate::engine::{Command, Outcome};
use std::fmt;

#[derive(Default)]
pub struct Runs {
    runs: u64,
    ticks: u64,
    /// ended by an edge of generator 1 alone, of generator 2 alone, of both
    edges: [u64; 3],
    /// ended before a tick that would get 15
    short: u64,
}

impl Runs {
    pub fn told(&mut self, c: &Command, o: &Outcome) {
        if c.op != 9 || o.answer != 0 {
            return;
        }
        let [v1, v2, v3, v4, _] = o.values;
        self.runs += 1;
        self.ticks += v3 + v4 * 65536;
        match (v1, v2) {
            (0, 0) => self.short += u64::from(v3 + v4 * 65536 < c.f[0]),
            (_, 0) => self.edges[0] += 1,
            (0, _) => self.edges[1] += 1,
            _ => self.edges[2] += 1,
        }
    }
}

impl fmt::Display for Runs {
    fn fmt(&self, f: &mut fmt::Formatter) -> fmt::Result {
        let Runs { runs, ticks, edges: [one, two, both], short } = self;
        write!(f, "runs: {runs} of {ticks} ticks; ended by generator 1 {one}, by 2 {two}, by both {both}, ")?;
        write!(f, "by the end of time {short}")
    }
}

#[derive(Default)]
pub struct Waits {
    /// adjust writes that waited, and those refused because one did
    waited: u64,
    refused: u64,
    /// taken up by a tick line, by a run line, and by a run line that ended both
    taken: [u64; 3],
}

impl Waits {
    /// A command, its outcome, and how many adjustments there were before it and are after it.
    pub fn told(&mut self, c: &Command, o: &Outcome, before: usize, after: usize) {
        self.refused += u64::from(o.answer == 11);
        match (before, after, c.op) {
            (1, 2, _) => self.waited += 1,
            (2, 1, 0) => self.taken[0] += 1,
            (2, 1, _) => self.taken[1] += 1,
            (2, 0, _) => self.taken[2] += 1,
            _ => {}
        }
    }
}

impl fmt::Display for Waits {
    fn fmt(&self, f: &mut fmt::Formatter) -> fmt::Result {
        let Waits { waited, refused, taken: [ticks, runs, both] } = self;
        write!(f, "adjust writes: {waited} waited, {refused} refused with 11; taken up by a tick line {ticks}, ")?;
        write!(f, "by a run line {runs}, by one that ended both {both}")
    }
}

/// Previews by their answer.
#[derive(Default)]
pub struct Previews([u64; 18]);

impl Previews {
    pub fn told(&mut self, c: &Command, o: &Outcome) {
        self.0[o.answer as usize] += u64::from(c.op == 10);
    }
}

impl fmt::Display for Previews {
    fn fmt(&self, f: &mut fmt::Formatter) -> fmt::Result {
        let of = |n: usize| self.0[n];
        write!(f, "previews: {} shown, refused with 6 {}, with 9 {}, ", of(0), of(6), of(9))?;
        write!(f, "with 10 {}, with 11 {}, with 15 {}", of(10), of(11), of(15))
    }
}

/// Ops 11 and 12 by what they did.
#[derive(Default)]
pub struct Departures {
    /// into a field that was 0, above it, and negative; and refused with 16
    into: [u64; 4],
    /// out of a field: accepted, refused with 17 as negative, or for the seconds
    out: [u64; 3],
}

impl Departures {
    pub fn told(&mut self, c: &Command, o: &Outcome) {
        let [a, b, ..] = c.f.map(|x| x as i64);
        match (c.op, o.answer) {
            (11, 0) => self.into[if a == 0 { 0 } else if a > 0 { 1 } else { 2 }] += 1,
            (11, 16) => self.into[3] += 1,
            (12, 0) => self.out[0] += 1,
            (12, 17) => self.out[if b < 0 { 1 } else { 2 }] += 1,
            _ => {}
        }
    }
}

impl fmt::Display for Departures {
    fn fmt(&self, f: &mut fmt::Formatter) -> fmt::Result {
        let Departures { into: [zero, above, below, left], out: [back, negative, late] } = self;
        write!(f, "departures: into a field of 0 {zero}, above 0 {above}, negative {below}, refused with 16 {left}; ")?;
        write!(f, "out of a field {back}, refused with 17 as negative {negative}, for its seconds {late}")
    }
}

//! An event generator: ideal instant k is start + k * (W + N/D), never accumulated.

/// An instant in nanoseconds, `num / den`.
#[derive(Clone, Copy)]
pub struct Instant {
    pub num: u128,
    pub den: u128,
}

#[derive(Clone, Copy)]
pub struct Generator {
    /// instant 0, in nanoseconds over `den`
    pub start: u128,
    pub whole: u128,
    pub num: u128,
    pub den: u128,
    pub count: u64,
    /// the direction of edge 0: rising where it was armed, either where a record was taken over
    pub first: u64,
    pub mark: bool,
    /// the edges that have come
    pub done: u64,
}

impl Generator {
    pub fn instant(&self, k: u64) -> Instant {
        Instant { num: self.start + u128::from(k) * (self.whole * self.den + self.num), den: self.den }
    }

    /// The direction of the pending edge: 0 rising, 1 falling.
    pub fn direction(&self) -> u64 {
        (self.first + self.done) % 2
    }

    /// The eighth of the pending edge, if it is below `shown + step` (both in 1/256 ns).
    pub fn eighth(&self, shown: u128, step: u128) -> Option<u64> {
        let e = self.instant(self.done);
        if e.num * 256 >= (shown + step) * e.den {
            return None;
        }
        Some((8 * (e.num * 256 - shown * e.den) / (step * e.den)) as u64)
    }
}

//! The ledger of demand 3, kept from commands, answers and values alone, and its three bullets as assertions.
use crate::engine::{Command, Outcome};

/// The first time that cannot be shown, in 2^-32 ns.
const END: u128 = (1_000_000_000 << 48) << 32;

/// What a generator was ordered to do, and how many of its edges have come.
#[derive(Clone, Copy)]
struct Order {
    /// in nanoseconds
    start: u128,
    whole: u128,
    num: u128,
    den: u128,
    count: u128,
    edges: u128,
}

impl Order {
    /// Ideal instant k, in nanoseconds times the denominator.
    fn instant(&self, k: u128) -> u128 {
        self.start * self.den + k * (self.whole * self.den + self.num)
    }

    /// Whether the first instant that has had no edge is below a time in 1/256 ns.
    fn is_behind(&self, shown: u128) -> bool {
        self.edges < self.count && self.instant(self.edges) * 256 < shown * self.den
    }
}

pub struct Ledger {
    words: [u64; 5],
    /// exact time, PERIOD and PER_ADJ, in 2^-32 ns
    time: u128,
    period: u128,
    per_adj: u128,
    owed: u64,
    /// what an adjust write ordered while cycles were owed: an amount and its cycles, none where these are 0
    waiting: (u128, u64),
    orders: [Option<Order>; 2],
}

impl Default for Ledger {
    fn default() -> Self {
        Self::new()
    }
}

impl Ledger {
    pub fn new() -> Self {
        Ledger {
            words: [0; 5],
            time: 0,
            period: 8 << 32,
            per_adj: 0,
            owed: 0,
            waiting: (0, 0),
            orders: [None, None],
        }
    }

    /// One command, and what came back.
    pub fn told(&mut self, c: &Command, o: &Outcome) {
        if o.answer != 0 {
            return;
        }
        match c.op {
            0 => self.tick(o.values[0], o.values[1]),
            1 => self.words.copy_from_slice(&c.f[..5]),
            2 => {
                self.write(c.f[0]);
                if c.f[1] != 8 {
                    self.words = o.values;
                }
            }
            3 => {
                let [which, s, ns, whole, num, den, count, _] = c.f.map(u128::from);
                self.orders[which as usize - 1] =
                    Some(Order { start: s * 1_000_000_000 + ns, whole, num, den, count, edges: 0 });
            }
            4 => self.orders[c.f[0] as usize - 1] = None,
            9 => self.run(c.f[0], o),
            _ => {}
        }
    }

    fn write(&mut self, selector: u64) {
        let [w1, w2, w3, w4, w5] = self.words.map(u128::from);
        let amount = (w5 >> 8) << 32 | (w5 & 0xFF) << 24 | w4 << 8 | w3 >> 8;
        match selector {
            0 => {
                let seconds = w1 | w2 << 16 | w3 << 32;
                self.time = (seconds * 1_000_000_000 + (w4 | w5 << 16)) << 32;
                self.orders = [None, None];
            }
            1 => self.period = amount,
            2 => {
                let count = ((w3 & 0xFF) << 16 | w2) as u64;
                if self.owed == 0 {
                    (self.per_adj, self.owed) = (amount, count);
                } else {
                    assert_eq!(self.waiting.1, 0, "no adjust write is accepted while another waits");
                    self.waiting = (amount, count);
                }
            }
            _ => {}
        }
    }

    /// What is ordered for the next tick.
    fn amount(&self) -> u128 {
        if self.owed > 0 {
            self.per_adj
        } else {
            self.period
        }
    }

    /// What is ordered for the next so many ticks, in turn: amounts, and how many ticks get each.
    pub fn next(&self, ticks: u64) -> [(u128, u64); 3] {
        let (waiting, count) = self.waiting;
        let first = ticks.min(self.owed);
        let second = (ticks - first).min(count);
        [(self.per_adj, first), (waiting, second), (self.period, ticks - first - second)]
    }

    /// Takes what is owed for so many ticks; what waits is owed when the last cycle of the other has been taken.
    fn take(&mut self, ticks: u64) {
        let [(_, first), (_, second), _] = self.next(ticks);
        self.owed -= first;
        if self.owed == 0 && self.waiting.1 > 0 {
            (self.per_adj, self.owed) = std::mem::take(&mut self.waiting);
            self.owed -= second;
        }
    }

    /// The exact time, in 2^-32 ns.
    pub fn time(&self) -> u128 {
        self.time
    }

    /// Whether cycles are owed to an adjustment.
    pub fn adjusts(&self) -> bool {
        self.owed > 0
    }

    /// Op 0's step, with the codes that the tick returned for generators 1 and 2.
    fn tick(&mut self, v1: u64, v2: u64) {
        let amount = self.amount();
        self.take(1);
        for (g, code) in [v1, v2].into_iter().enumerate() {
            if code != 0 {
                self.edge(g, code, amount);
            }
        }
        self.time += amount;
    }

    /// Op 0's step as often as v3 and v4 say; an edge is the last tick's.
    fn run(&mut self, most: u64, o: &Outcome) {
        let [v1, v2, v3, v4, v5] = o.values;
        assert!(v3 < 65536 && v5 == 0, "the ticks done are in two words, and v5 is 0");
        let done = v3 + v4 * 65536;
        assert!((1..=most).contains(&done), "from one tick to as many as were asked for");
        for (amount, ticks) in self.next(done - 1) {
            self.time += amount * u128::from(ticks);
        }
        self.take(done - 1);
        self.tick(v1, v2);
        let at_the_end = self.time + self.amount() >= END;
        assert!(done == most || v1 != 0 || v2 != 0 || at_the_end, "a run ends early at an edge, or before 15");
    }

    /// An edge that a tick returned, with the exact time at its start and its amount: bullets 2 and 3.
    fn edge(&mut self, g: usize, code: u64, amount: u128) {
        assert!((1..=16).contains(&code), "an edge has a code");
        let order = self.orders[g].as_mut().expect("no edge without an order");
        let k = order.edges;
        assert!(k < order.count, "no edge past the count");
        assert_eq!(code >= 9, k % 2 == 0, "edge k rises where k is even");
        order.edges += 1;
        let (den, instant) = (order.den, order.instant(k));
        let eighth = u128::from((code - 1) % 8);
        // by the time shown: where the eighth begins and ends, and the instant, times 8 * 256 * den
        let shown = self.time >> 24;
        let step = ((self.time + amount) >> 24) - shown;
        let begin = (shown * 8 + eighth * step) * den;
        assert!((begin..begin + step * den).contains(&(instant * 2048)), "the edge is in its eighth");
        // by the exact time: instant k minus the start of the eighth, times 8 * 2^32 * den, both counted from a whole
        // nanosecond near them
        let near = instant as i128 - ((self.time >> 32) * den) as i128;
        let exact = 8 * (self.time & 0xFFFF_FFFF) + eighth * amount;
        let lag = (near << 35) - (exact * den) as i128;
        assert!(lag > -((den << 27) as i128), "not 1/256 ns or more before the eighth");
        assert!(lag < (amount * den) as i128, "less than an eighth of the amount after it");
    }

    /// After a list: the time shown (1/256 ns) and the remainder (2^-32 ns) against the exact time, and the edges.
    pub fn holds(&self, shown: u128, remainder: u128) {
        assert_eq!((shown << 24) + remainder, self.time, "the time shown plus the remainder is the exact time");
        assert!(remainder < 1 << 24, "less than 1/256 ns is dropped");
        let behind = self.orders.iter().flatten().any(|order| order.is_behind(shown));
        assert!(!behind, "each instant that was passed has had its edge");
    }
}

//! The engine: clock, stampers, generators, interrupt bits, and the eleven commands.
use crate::generator::Generator;
use std::collections::VecDeque;

const NS: u128 = 1_000_000_000;
/// The first nanosecond that cannot be shown.
const END: u128 = (1 << 48) * NS;

const TAC: u64 = 1;
const SEQUENCE: [u64; 2] = [1 << 2, 1 << 5];
const EVENT: [u64; 2] = [1 << 1, 1 << 4];
const NOT_EMPTY: [u64; 3] = [1 << 8, 1 << 10, 1 << 12];
const OVERFLOW: [u64; 3] = [1 << 9, 1 << 11, 1 << 13];

/// A line of the sheet: the op, then a to h.
#[repr(C)]
#[derive(Clone, Copy, Debug, PartialEq, Eq)]
pub struct Command {
    pub op: u64,
    pub f: [u64; 8],
}

#[repr(C)]
#[derive(Clone, Copy, Debug, PartialEq, Eq)]
pub struct Outcome {
    pub answer: u64,
    pub values: [u64; 5],
}

#[derive(Clone, Copy)]
pub(crate) struct Stamp {
    pub ns: u128,
    pub rising: bool,
}

#[derive(Clone, Copy)]
pub(crate) struct Adjustment {
    pub amount: u128,
    pub cycles: u64,
}

#[derive(Clone)]
pub struct Engine {
    /// the time shown and the remainder in one number, in 2^-32 ns
    pub(crate) exact: u128,
    pub(crate) period: u128,
    pub(crate) adjustment: Option<Adjustment>,
    /// the one whose turn comes when that has ended
    pub(crate) waiting: Option<Adjustment>,
    pub(crate) stampers: [VecDeque<Stamp>; 3],
    pub(crate) generators: [Option<Generator>; 2],
    pub(crate) latched: u64,
    pub(crate) enabled: u64,
    pub(crate) words: [u64; 5],
}

fn refuse(answer: u64) -> Outcome {
    Outcome { answer, values: [0; 5] }
}

fn accept(values: [u64; 5]) -> Outcome {
    Outcome { answer: 0, values }
}

/// The timestamp of an edge at this eighth of a tick that starts at a time shown and makes a step, both in 1/256 ns: to
/// the nearest nanosecond, halves upward, and not past the last one.
pub fn timestamp(shown: u128, step: u128, eighth: u64) -> u128 {
    let instant = shown * 8 + u128::from(eighth) * step;
    let (below, rest) = (instant / 2048, instant % 2048);
    let nearest = if rest < 1024 { below } else { below + 1 };
    if nearest == END {
        END - 1
    } else {
        nearest
    }
}

/// The five words of a time in nanoseconds.
pub fn words_of(ns: u128, edge: bool) -> [u64; 5] {
    let (sec, ns) = ((ns / NS) as u64, (ns % NS) as u64);
    [sec % 65536, sec / 65536 % 65536, sec >> 32, ns % 65536, ns / 65536 + if edge { 32768 } else { 0 }]
}

impl Default for Engine {
    fn default() -> Self {
        Self::new()
    }
}

impl Engine {
    pub fn new() -> Self {
        Engine {
            exact: 0,
            period: 8 << 32,
            adjustment: None,
            waiting: None,
            stampers: Default::default(),
            generators: [None, None],
            latched: 0,
            enabled: 0,
            words: [0; 5],
        }
    }

    /// The time shown, in 1/256 ns.
    pub fn shown(&self) -> u128 {
        self.exact >> 24
    }

    /// What the time shown drops, in 2^-32 ns.
    pub fn remainder(&self) -> u128 {
        self.exact & 0xFF_FFFF
    }

    /// How many adjustments there are, the running and the waiting one.
    pub fn adjustments(&self) -> usize {
        [self.adjustment, self.waiting].iter().flatten().count()
    }

    fn amount(&self) -> u128 {
        self.adjustment.map_or(self.period, |a| a.amount)
    }

    pub fn execute(&mut self, c: &Command) -> Outcome {
        if c.op > 12 {
            return refuse(5);
        }
        if !fields_listed(c) {
            return refuse(6);
        }
        match c.op {
            0 => self.tick(&c.f),
            1 => {
                self.words.copy_from_slice(&c.f[..5]);
                accept([0; 5])
            }
            2 => self.command(c.f[0], c.f[1]),
            3 => self.arm(&c.f),
            4 => {
                self.generators[c.f[0] as usize - 1] = None;
                accept([0; 5])
            }
            5 => {
                let bits = self.latched;
                self.latched = 0;
                accept([bits + if bits & self.enabled != 0 { 1 << 14 } else { 0 }, 0, 0, 0, 0])
            }
            6 => {
                self.enabled = c.f[0];
                accept([0; 5])
            }
            7 => {
                let full = |i: usize| u64::from(!self.stampers[i].is_empty());
                accept([full(0) << 7 | full(1) << 8 | full(2) << 9, 0, 0, 0, 0])
            }
            8 => accept(self.words),
            9 => self.run(c.f[0]),
            10 => self.preview(c.f[0]),
            11 => self.depart(c.f[0]),
            _ => recover(c.f[0], c.f[1]),
        }
    }

    fn tick(&mut self, f: &[u64; 8]) -> Outcome {
        let next = self.exact + self.amount();
        let shown = self.shown();
        let step = (next >> 24) - shown;
        if shown + step >= END * 256 {
            return refuse(15);
        }
        for i in 0..3 {
            self.capture(i, f[i], shown, step);
        }
        let v1 = self.generate(0, shown, step);
        let v2 = self.generate(1, shown, step);
        if let Some(a) = &mut self.adjustment {
            a.cycles -= 1;
            if a.cycles == 0 {
                self.adjustment = self.waiting.take();
                self.latched |= TAC;
            }
        }
        self.exact = next;
        accept([v1, v2, 0, 0, 0])
    }

    /// Ticks without inputs, one by one, at most so many: up to the first that places an edge or would get 15.
    fn run(&mut self, most: u64) -> Outcome {
        let mut out = refuse(15);
        for done in 1..=most {
            let tick = self.tick(&[0; 8]);
            if tick.answer != 0 {
                break;
            }
            let [v1, v2, ..] = tick.values;
            out = accept([v1, v2, done % 65536, done / 65536, 0]);
            if v1 != 0 || v2 != 0 {
                break;
            }
        }
        out
    }

    /// The adjust write from the present words and so many ticks, done on a copy of everything.
    fn preview(&self, ticks: u64) -> Outcome {
        let mut copy = self.clone();
        let mut last = copy.command(2, 8);
        for _ in 0..ticks {
            if last.answer == 0 {
                last = copy.tick(&[0; 8]);
            }
        }
        if last.answer == 0 {
            copy.command(16, 0)
        } else {
            last
        }
    }

    /// The time of a departure put into a correctionField, a signed count of 2^-16 ns: all of it but the multiples of
    /// 16 s.
    pub fn depart(&self, field: u64) -> Outcome {
        let low = (self.exact >> 32) % (16 * NS);
        let sum = i128::from(field as i64) + (low << 16) as i128;
        match i64::try_from(sum) {
            Ok(sum) => accept([0, 16, 32, 48, 64].map(|k| if k < 64 { (sum >> k) as u64 % 65536 } else { 0 })),
            Err(_) => refuse(16),
        }
    }

    fn capture(&mut self, i: usize, code: u64, shown: u128, step: u128) {
        if code == 0 {
            return;
        }
        let rising = code >= 9;
        let eighth = if rising { code - 9 } else { code - 1 };
        let stamp = Stamp { ns: timestamp(shown, step, eighth), rising };
        match self.stampers[i].len() {
            8 => self.latched |= OVERFLOW[i],
            n => {
                if n == 0 {
                    self.latched |= NOT_EMPTY[i];
                }
                self.stampers[i].push_back(stamp);
            }
        }
    }

    fn generate(&mut self, i: usize, shown: u128, step: u128) -> u64 {
        let Some(mut g) = self.generators[i] else { return 0 };
        let Some(eighth) = g.eighth(shown, step) else { return 0 };
        let code = if g.direction() == 0 { 9 + eighth } else { 1 + eighth };
        if g.mark {
            self.latched |= EVENT[i];
        }
        g.done += 1;
        self.generators[i] = Some(g);
        if g.done == g.count {
            self.latched |= SEQUENCE[i];
            self.generators[i] = None;
        } else {
            let next = g.instant(g.done);
            if next.num >= END * next.den {
                self.generators[i] = None;
            }
        }
        code
    }

    fn command(&mut self, write: u64, read: u64) -> Outcome {
        let [w1, w2, w3, w4, w5] = self.words;
        if (1..=3).contains(&read) && self.stampers[read as usize - 1].is_empty() {
            return refuse(7);
        }
        let ns = u128::from(w4 + (w5 % 16384) * 65536);
        let amount = u128::from(w5 << 24 | w4 << 8 | w3 >> 8);
        let count = (w3 % 256) << 16 | w2;
        match write {
            0 if ns >= NS || w5 >= 16384 => return refuse(8),
            1 | 2 if w5 >> 8 == 0 => return refuse(9),
            1 if w3 % 256 != 0 => return refuse(9),
            2 if count == 0 => return refuse(10),
            2 if self.waiting.is_some() => return refuse(11),
            0 => {
                let seconds = u128::from(w1) + (u128::from(w2) << 16) + (u128::from(w3) << 32);
                self.exact = (seconds * NS + ns) << 32;
                self.generators = [None, None];
            }
            1 => self.period = amount,
            2 => {
                let place = if self.adjustment.is_none() { &mut self.adjustment } else { &mut self.waiting };
                *place = Some(Adjustment { amount, cycles: count });
            }
            _ => {}
        }
        match read {
            8 => return accept([0; 5]),
            0 => self.words = words_of(self.exact >> 32, false),
            i => {
                let s = self.stampers[i as usize - 1].pop_front().expect("not empty, by number 7");
                self.words = words_of(s.ns, s.rising);
            }
        }
        accept(self.words)
    }

    fn arm(&mut self, f: &[u64; 8]) -> Outcome {
        let [which, seconds, ns, whole, num, den, count, mark] = *f;
        if num >= den {
            return refuse(12);
        }
        let place = which as usize - 1;
        if self.generators[place].is_some() {
            return refuse(13);
        }
        let start = u128::from(seconds) * NS + u128::from(ns);
        if start * 256 < self.shown() {
            return refuse(14);
        }
        self.generators[place] = Some(Generator {
            start: start * u128::from(den),
            whole: u128::from(whole),
            num: u128::from(num),
            den: u128::from(den),
            count,
            first: 0,
            mark: mark == 1,
            done: 0,
        });
        accept([0; 5])
    }
}

/// The time of a departure out of a correctionField and a software second, as sheet 000 has it in 6.13.7.3.2.
fn recover(software: u64, field: u64) -> Outcome {
    let field = i128::from(field as i64);
    if field < 0 {
        return refuse(17);
    }
    let ns = field >> 16;
    let mut difference = ns / NS as i128 - i128::from(software & 15);
    if difference < 0 {
        difference += 16;
    }
    let time = (i128::from(software) + difference) as u128 * NS + ns as u128 % NS;
    if time >= END {
        return refuse(17);
    }
    accept(words_of(time, false))
}

/// Number 6: every field of the op is in its list, and the fields that the op does not list are 0.
fn fields_listed(c: &Command) -> bool {
    let f = &c.f;
    let word32 = 1..1u64 << 32;
    let (listed, good) = match c.op {
        0 => (3, f[..3].iter().all(|&x| x <= 16)),
        1 => (5, f[..5].iter().all(|&x| x <= 65535)),
        2 => (2, [0, 1, 2, 16].contains(&f[0]) && [0, 1, 2, 3, 8].contains(&f[1])),
        3 => (
            8,
            [1, 2].contains(&f[0])
                && f[1] < 1 << 48
                && f[2] < 1_000_000_000
                && (256..=999_999_999).contains(&f[3])
                && f[4] < 1 << 32
                && word32.contains(&f[5])
                && word32.contains(&f[6])
                && f[7] <= 1,
        ),
        4 => (1, [1, 2].contains(&f[0])),
        6 => (1, f[0] & !0x3F7F == 0),
        9 => (1, (1..=1_000_000).contains(&f[0])),
        10 => (1, (1..=1_000).contains(&f[0])),
        11 => (1, true),
        12 => (2, f[0] < 1 << 48),
        _ => (0, true),
    };
    good && f[listed..].iter().all(|&x| x == 0)
}

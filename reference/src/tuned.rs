//! The engine as a good engineer would tune it by hand: one 64-bit number for what is below a second, compares before
//! products, no allocation in a tick. It is the yardstick of the benchmark; `compare` holds it to the reference.
use crate::engine::{Command, Outcome};

const NS: u64 = 1_000_000_000;
const SECOND: u64 = NS << 32;
const LAST: u64 = (1 << 48) - 1;

#[derive(Clone, Copy, Default)]
struct Stamp {
    sec: u64,
    ns: u32,
    rising: bool,
}

#[derive(Clone, Copy, Default)]
struct Fifo {
    entries: [Stamp; 8],
    count: u32,
}

#[derive(Clone, Copy, Default)]
struct Generator {
    sec: u64,
    ns: u32,
    rem: u32,
    whole: u32,
    num: u32,
    den: u32,
    left: u32,
    falling: bool,
    mark: bool,
}

#[derive(Clone, Copy)]
pub struct Engine {
    sec: u64,
    /// below a second, in 2^-32 ns
    sub: u64,
    period: u64,
    adjust: u64,
    waiting: u64,
    cycles: u32,
    waiting_cycles: u32,
    latched: u32,
    enabled: u32,
    words: [u32; 5],
    generators: [Generator; 2],
    fifos: [Fifo; 3],
}

pub(crate) const fn refuse(answer: u64) -> Outcome {
    Outcome { answer, values: [0; 5] }
}

const fn accept(values: [u64; 5]) -> Outcome {
    Outcome { answer: 0, values }
}

const DONE: Outcome = accept([0; 5]);

/// The departure time out of a correctionField and a software second.
#[inline(never)]
fn recover(f: &[u64; 8]) -> Outcome {
    let [software, field, ..] = *f;
    if software > LAST || f[2..].iter().fold(0, |a, &x| a | x) != 0 {
        return refuse(6);
    }
    let ns = field >> 16;
    let (sec, ns) = (ns / NS, ns % NS);
    let low = software & 15;
    let sec = software + sec + if sec < low { 16 } else { 0 } - low;
    if field >> 63 != 0 || sec > LAST {
        return refuse(17);
    }
    accept(words_of(sec, ns as u32, false).map(u64::from))
}

fn words_of(sec: u64, ns: u32, rising: bool) -> [u32; 5] {
    [
        sec as u32 & 0xFFFF,
        (sec >> 16) as u32 & 0xFFFF,
        (sec >> 32) as u32,
        ns & 0xFFFF,
        ns >> 16 | u32::from(rising) << 15,
    ]
}

impl Default for Engine {
    fn default() -> Self {
        Self::new()
    }
}

impl Engine {
    pub fn new() -> Self {
        Engine {
            sec: 0,
            sub: 0,
            period: 8 << 32,
            adjust: 0,
            waiting: 0,
            cycles: 0,
            waiting_cycles: 0,
            latched: 0,
            enabled: 0,
            words: [0; 5],
            generators: Default::default(),
            fifos: Default::default(),
        }
    }

    /// A sum over the clock, so that a loop of ticks cannot be left out.
    pub fn nanoseconds(&self) -> u64 {
        self.sub >> 32
    }

    /// Check 4, as far as the types leave it open.
    #[inline]
    pub fn is_valid(&self) -> bool {
        let amount = |x: u64| (1 << 32..1 << 40).contains(&x);
        let unused = |x: u64, cycles: u32| x | u64::from(cycles) == 0;
        let adjustment = |x: u64, cycles: u32| amount(x) && (1..1 << 24).contains(&cycles);
        let stamp = |s: &Stamp| s.sec <= LAST && u64::from(s.ns) < NS;
        let fifo = |f: &Fifo| {
            f.count <= 8
                && f.entries.iter().enumerate().all(|(i, s)| {
                    if i < f.count as usize { stamp(s) } else { s.sec == 0 && s.ns == 0 && !s.rising }
                })
        };
        let generator = |g: &Generator| {
            if g.left == 0 {
                return g.sec | u64::from(g.ns | g.rem | g.whole | g.num | g.den) == 0 && !g.falling && !g.mark;
            }
            g.sec <= LAST
                && u64::from(g.ns) < NS
                && g.rem < g.den
                && (256..1_000_000_000).contains(&g.whole)
                && g.num < g.den
                && self.not_passed(g)
        };
        self.sec <= LAST
            && self.sub < SECOND
            && amount(self.period)
            && (unused(self.adjust, self.cycles) || adjustment(self.adjust, self.cycles))
            && (unused(self.waiting, self.waiting_cycles)
                || self.cycles != 0 && adjustment(self.waiting, self.waiting_cycles))
            && self.latched & !0x3F37 == 0
            && self.enabled & !0x3F7F == 0
            && self.words.iter().all(|&w| w < 65536)
            && self.generators.iter().all(generator)
            && self.fifos.iter().all(fifo)
    }

    /// The pending instant is not before the time shown.
    fn not_passed(&self, g: &Generator) -> bool {
        let (ns, fraction) = (self.sub >> 32, self.sub >> 24 & 255);
        match (g.sec, u64::from(g.ns)).cmp(&(self.sec, ns)) {
            std::cmp::Ordering::Less => false,
            std::cmp::Ordering::Equal => u64::from(g.rem) * 256 >= fraction * u64::from(g.den),
            std::cmp::Ordering::Greater => true,
        }
    }

    #[inline]
    pub fn execute(&mut self, c: &Command) -> Outcome {
        if c.op > 8 {
            return self.run_line(c);
        }
        if !fields_listed(c) {
            return refuse(6);
        }
        match c.op {
            0 => self.tick(&c.f),
            1 => {
                for i in 0..5 {
                    self.words[i] = c.f[i] as u32;
                }
                DONE
            }
            2 => self.command(c.f[0], c.f[1]),
            3 => self.arm(&c.f),
            4 => {
                self.generators[c.f[0] as usize - 1] = Generator::default();
                DONE
            }
            5 => {
                let bits = self.latched;
                self.latched = 0;
                accept([u64::from(bits | if bits & self.enabled != 0 { 1 << 14 } else { 0 }), 0, 0, 0, 0])
            }
            6 => {
                self.enabled = c.f[0] as u32;
                DONE
            }
            7 => {
                let waits = |i: usize| u64::from(self.fifos[i].count != 0) << (7 + i);
                accept([waits(0) | waits(1) | waits(2), 0, 0, 0, 0])
            }
            _ => accept(self.words.map(u64::from)),
        }
    }

    /// Compiled into its two callers, as `generate` is, so that neither a command nor a run pays for the other.
    #[inline(always)]
    fn tick(&mut self, f: &[u64; 8]) -> Outcome {
        let amount = if self.cycles != 0 { self.adjust } else { self.period };
        let shown = self.sub >> 24;
        let next = self.sub + amount;
        let step = (next >> 24) - shown;
        if next >= SECOND && self.sec == LAST {
            return refuse(15);
        }
        for (i, &code) in f[..3].iter().enumerate() {
            if code != 0 {
                self.capture(i, code, shown, step);
            }
        }
        let v1 = self.generate(0, shown, step);
        let v2 = self.generate(1, shown, step);
        if self.cycles != 0 {
            self.cycles -= 1;
            if self.cycles == 0 {
                (self.adjust, self.cycles) = (self.waiting, self.waiting_cycles);
                (self.waiting, self.waiting_cycles) = (0, 0);
                self.latched |= 1;
            }
        }
        self.sub = next;
        if next >= SECOND {
            self.sub -= SECOND;
            self.sec += 1;
        }
        accept([v1, v2, 0, 0, 0])
    }

    /// Ops 9 to 12, and what is no op: by itself, so that the other ops cost what they cost without it.
    #[inline(never)]
    fn run_line(&mut self, c: &Command) -> Outcome {
        if c.op > 12 {
            return refuse(5);
        }
        if c.op == 12 {
            return recover(&c.f);
        }
        if c.f[1..].iter().fold(0, |a, &x| a | x) != 0 {
            return refuse(6);
        }
        if c.op == 10 {
            return self.preview(c.f[0]);
        }
        if c.op == 11 {
            return self.depart(c.f[0]);
        }
        self.run(c.f[0])
    }

    /// Where the clock would end after an adjust write and so many ticks: on clock and steering alone.
    #[inline(never)]
    fn preview(&self, ticks: u64) -> Outcome {
        let [_, w2, w3, w4, w5] = self.words.map(u64::from);
        let (amount, count) = (w5 << 24 | w4 << 8 | w3 >> 8, (w3 & 255) << 16 | w2);
        if !(1..=1000).contains(&ticks) {
            return refuse(6);
        }
        if w5 < 256 {
            return refuse(9);
        }
        if count == 0 {
            return refuse(10);
        }
        if self.waiting_cycles != 0 {
            return refuse(11);
        }
        let (mut adjust, mut cycles, mut waiting) = (amount, count, (0, 0));
        if self.cycles != 0 {
            (adjust, cycles, waiting) = (self.adjust, u64::from(self.cycles), (amount, count));
        }
        let (mut sec, mut sub) = (self.sec, self.sub);
        for _ in 0..ticks {
            sub += if cycles != 0 { adjust } else { self.period };
            if sub >= SECOND {
                if sec == LAST {
                    return refuse(15);
                }
                (sec, sub) = (sec + 1, sub - SECOND);
            }
            if cycles != 0 {
                cycles -= 1;
                if cycles == 0 {
                    ((adjust, cycles), waiting) = (waiting, (0, 0));
                }
            }
        }
        accept(words_of(sec, (sub >> 32) as u32, false).map(u64::from))
    }

    /// The low four bits of the seconds and the ns, added to a correctionField.
    #[inline(never)]
    fn depart(&self, field: u64) -> Outcome {
        let low = ((self.sec & 15) * 1_000_000_000 + (self.sub >> 32)) << 16;
        match (field as i64).checked_add(low as i64) {
            Some(sum) => {
                let p = sum as u64;
                accept([p & 0xFFFF, p >> 16 & 0xFFFF, p >> 32 & 0xFFFF, p >> 48, 0])
            }
            None => refuse(16),
        }
    }

    /// Ticks without inputs, at most so many, up to an edge or the end of time.
    pub fn run(&mut self, most: u64) -> Outcome {
        if !(1..=1_000_000).contains(&most) {
            return refuse(6);
        }
        let (mut done, mut v1, mut v2) = (0, 0, 0);
        while done < most && v1 | v2 == 0 {
            let tick = self.tick(&[0; 8]);
            if tick.answer != 0 {
                break;
            }
            done += 1;
            [v1, v2, ..] = tick.values;
        }
        if done == 0 {
            return refuse(15);
        }
        accept([v1, v2, done & 0xFFFF, done >> 16, 0])
    }

    fn capture(&mut self, i: usize, code: u64, shown: u64, step: u64) {
        let fifo = &mut self.fifos[i];
        if fifo.count == 8 {
            self.latched |= 0x200 << (2 * i);
            return;
        }
        if fifo.count == 0 {
            self.latched |= 0x100 << (2 * i);
        }
        let mut ns = (shown * 8 + (code - 1 & 7) * step + 1024) >> 11;
        let mut sec = self.sec;
        if ns >= NS {
            if sec == LAST {
                ns = NS - 1;
            } else {
                ns -= NS;
                sec += 1;
            }
        }
        fifo.entries[fifo.count as usize] = Stamp { sec, ns: ns as u32, rising: code >= 9 };
        fifo.count += 1;
    }

    #[inline(always)]
    fn generate(&mut self, i: usize, shown: u64, step: u64) -> u64 {
        let g = &mut self.generators[i];
        if g.left == 0 || g.sec > self.sec + 1 {
            return 0;
        }
        let ahead = (g.sec - self.sec) * NS + u64::from(g.ns) - (shown >> 8);
        if ahead > 256 {
            return 0;
        }
        let den = u64::from(g.den);
        let far = (ahead * 256 - (shown & 255)) * den + u64::from(g.rem) * 256;
        if far >= step * den {
            return 0;
        }
        let code = 8 * far / (step * den) + if g.falling { 1 } else { 9 };
        if g.mark {
            self.latched |= [2, 16][i];
        }
        g.left -= 1;
        if g.left == 0 {
            *g = Generator::default();
            self.latched |= [4, 32][i];
            return code;
        }
        g.falling = !g.falling;
        let mut rem = u64::from(g.rem) + u64::from(g.num);
        let mut ns = u64::from(g.ns) + u64::from(g.whole);
        if rem >= den {
            rem -= den;
            ns += 1;
        }
        if ns >= NS {
            ns -= NS;
            g.sec += 1;
        }
        g.rem = rem as u32;
        g.ns = ns as u32;
        if g.sec > LAST {
            *g = Generator::default();
        }
        code
    }

    fn command(&mut self, write: u64, read: u64) -> Outcome {
        let [w1, w2, w3, w4, w5] = self.words.map(u64::from);
        if (1..=3).contains(&read) && self.fifos[read as usize - 1].count == 0 {
            return refuse(7);
        }
        let amount = w5 << 24 | w4 << 8 | w3 >> 8;
        match write {
            0 => {
                let ns = w4 | w5 << 16;
                if ns >= NS {
                    return refuse(8);
                }
                self.sec = w1 | w2 << 16 | w3 << 32;
                self.sub = ns << 32;
                self.generators = Default::default();
            }
            1 => {
                if w5 < 256 || w3 & 255 != 0 {
                    return refuse(9);
                }
                self.period = amount;
            }
            2 => {
                let count = (w3 & 255) << 16 | w2;
                if w5 < 256 {
                    return refuse(9);
                }
                if count == 0 {
                    return refuse(10);
                }
                if self.waiting_cycles != 0 {
                    return refuse(11);
                }
                if self.cycles == 0 {
                    (self.adjust, self.cycles) = (amount, count as u32);
                } else {
                    (self.waiting, self.waiting_cycles) = (amount, count as u32);
                }
            }
            _ => {}
        }
        match read {
            8 => return DONE,
            0 => self.words = words_of(self.sec, (self.sub >> 32) as u32, false),
            i => {
                let fifo = &mut self.fifos[i as usize - 1];
                let s = fifo.entries[0];
                fifo.entries.copy_within(1.., 0);
                fifo.entries[7] = Stamp::default();
                fifo.count -= 1;
                self.words = words_of(s.sec, s.ns, s.rising);
            }
        }
        accept(self.words.map(u64::from))
    }

    fn arm(&mut self, f: &[u64; 8]) -> Outcome {
        let [which, sec, ns, whole, num, den, left, mark] = *f;
        let g = &mut self.generators[which as usize - 1];
        if num >= den {
            return refuse(12);
        }
        if g.left != 0 {
            return refuse(13);
        }
        if (sec, ns << 8) < (self.sec, self.sub >> 24) {
            return refuse(14);
        }
        *g = Generator {
            sec,
            ns: ns as u32,
            rem: 0,
            whole: whole as u32,
            num: num as u32,
            den: den as u32,
            left: left as u32,
            falling: false,
            mark: mark != 0,
        };
        DONE
    }
}

#[inline]
fn fields_listed(c: &Command) -> bool {
    let f = &c.f;
    let zero = |from: usize| f[from..].iter().fold(0, |a, &x| a | x) == 0;
    match c.op {
        0 => f[0] <= 16 && f[1] <= 16 && f[2] <= 16 && zero(3),
        1 => f[..5].iter().all(|&x| x <= 65535) && zero(5),
        2 => matches!(f[0], 0..=2 | 16) && matches!(f[1], 0..=3 | 8) && zero(2),
        3 => {
            (1..=2).contains(&f[0])
                && f[1] <= LAST
                && f[2] < NS
                && (256..NS).contains(&f[3])
                && f[4] < 1 << 32
                && (1..1 << 32).contains(&f[5])
                && (1..1 << 32).contains(&f[6])
                && f[7] <= 1
        }
        4 => (1..=2).contains(&f[0]) && zero(1),
        6 => f[0] & !0x3F7F == 0 && zero(1),
        _ => zero(0),
    }
}

//! Random numbers and random sheets, the same for the same seed.
use crate::engine::{Command, Engine};

/// Op 1 with these words.
fn load([a, b, c, d, e]: [u64; 5]) -> Command {
    Command { op: 1, f: [a, b, c, d, e, 0, 0, 0] }
}

/// splitmix64.
pub struct Random(pub u64);

impl Random {
    pub fn next(&mut self) -> u64 {
        self.0 = self.0.wrapping_add(0x9E37_79B9_7F4A_7C15);
        let mut z = self.0;
        z = (z ^ z >> 30).wrapping_mul(0xBF58_476D_1CE4_E5B9);
        z = (z ^ z >> 27).wrapping_mul(0x94D0_49BB_1331_11EB);
        z ^ z >> 31
    }

    /// Below n.
    pub fn below(&mut self, n: u64) -> u64 {
        self.next() % n
    }

    pub fn one_of(&mut self, all: &[u64]) -> u64 {
        all[self.below(all.len() as u64) as usize]
    }

    pub fn chance(&mut self, percent: u64) -> bool {
        self.below(100) < percent
    }

    /// A number of any size, often at a limit.
    pub fn hostile(&mut self) -> u64 {
        let edge = [0, 1, 2, 8, 9, 10, 16, 17, 255, 256, 65535, 65536, 999_999_999, 1_000_000_000, 1 << 24];
        let large = [u64::MAX, u64::MAX - 1, 1 << 32, (1 << 32) - 1, 1 << 48, (1 << 48) - 1, 0x3F7F, 0x4000, 0x80];
        match self.below(4) {
            0 => self.one_of(&edge),
            1 => self.one_of(&large),
            2 => self.below(65536),
            _ => {
                let bits = self.below(64);
                self.next() >> bits
            }
        }
    }

    /// Below the nanoseconds of some ticks, or of a long run.
    fn span(&mut self) -> u64 {
        let most = self.one_of(&[3000, 3000, 3000, 100_000, 10_000_000]);
        self.below(most)
    }

    /// How many ticks a run line asks for: mostly few, and about the limits.
    fn cycles(&mut self) -> u64 {
        match self.below(200) {
            0..=159 => 1 + self.below(400),
            160..=189 => 1 + self.below(10_000),
            190..=192 => 1 + self.below(1_000_000),
            193 => self.one_of(&[65_535, 65_536, 65_537, 999_999, 1_000_000]),
            194..=196 => self.one_of(&[0, 1, 1_000_001]),
            // allowed, were it not for a high bit
            197 => 1 << (20 + self.below(44)) | self.below(400),
            _ => self.hostile(),
        }
    }

    /// How many ticks a preview asks for: as a run, up to its own limit.
    fn previewed(&mut self) -> u64 {
        match self.below(20) {
            0..=13 => 1 + self.below(400),
            14..=16 => 1 + self.below(1000),
            17..=18 => self.one_of(&[0, 1, 999, 1000, 1001]),
            _ => self.hostile(),
        }
    }

    /// A correctionField: any, of some departure, about 0 and about the largest.
    fn field(&mut self) -> u64 {
        let departure = self.below(16_000_000_000 << 16);
        match self.below(6) {
            0 => 0,
            1 => departure,
            2 => departure.wrapping_neg(),
            3 => (1 << 63) - 1 - departure,
            4 => self.next(),
            _ => self.hostile(),
        }
    }

    /// A software second: any, or about the ends of time.
    fn second(&mut self) -> u64 {
        let near = self.below(40);
        match self.below(3) {
            0 => near,
            1 => (1 << 48) - 1 - near,
            _ => self.hostile(),
        }
    }

    /// Words of an amount of some nanoseconds, with a count that ticks use up, or only runs.
    fn steering(&mut self) -> [u64; 5] {
        let most = if self.chance(2) { 65_535 } else { self.one_of(&[3, 30, 30, 400, 2000]) };
        let ns = self.one_of(&[40, 40, 255]);
        let (fine, coarse) = (self.below(65536), (1 + self.below(ns)) << 8 | self.below(256));
        [0, 1 + self.below(most), self.below(256) << 8, fine, coarse]
    }

    fn words(&mut self) -> [u64; 5] {
        let mut w = [0; 5].map(|_| self.below(65536));
        match self.below(6) {
            0 | 1 => {
                w = self.steering();
                if self.chance(5) {
                    w[2] |= self.below(20);
                }
            }
            // near the end of time, or of second 0
            2 => {
                let (sec, ns) = (self.one_of(&[65535, 0]), 999_999_999 - self.span());
                w = [sec, sec, sec, ns % 65536, ns / 65536];
            }
            // a time in range
            3 => w[4] = self.below(15_258),
            4 => w = [0, self.below(3), self.below(2) << 8, w[3], self.below(3) << 8],
            _ => {}
        }
        w
    }

    pub fn command(&mut self) -> [u64; 9] {
        let mut c = [0; 9];
        match self.below(100) {
            0..=37 => {
                for i in 1..4 {
                    if self.chance(20) {
                        c[i] = self.below(17);
                    }
                }
            }
            38 => {
                c[0] = 11;
                c[1] = self.field();
            }
            39 => {
                c[0] = 12;
                c[1] = self.second();
                c[2] = self.field();
            }
            40..=52 => {
                c[0] = 9;
                c[1] = self.cycles();
            }
            53..=54 => {
                c[0] = 10;
                c[1] = self.previewed();
            }
            55..=64 => {
                c[0] = 1;
                c[1..6].copy_from_slice(&self.words());
            }
            65..=76 => {
                c[0] = 2;
                c[1] = self.one_of(&[0, 1, 1, 2, 2, 16, 16, 16]);
                c[2] = self.one_of(&[0, 1, 2, 3, 8, 8]);
            }
            77..=85 => {
                c[0] = 3;
                c[1] = 1 + self.below(2);
                // near the start of a second, or near its end
                c[2] = self.one_of(&[0, 0, 0, 0, 1, (1 << 48) - 1]);
                c[3] = self.span();
                if self.chance(20) {
                    c[3] = 999_999_999 - c[3];
                }
                let most = self.one_of(&[400, 400, 400, 400, 5000, 100_000, 999_999_744]);
                c[4] = 256 + self.below(most);
                c[6] = 1 + self.hostile() % ((1 << 32) - 1);
                c[5] = self.below(c[6] + 1);
                let most = self.one_of(&[9, 9, 9, 1000]);
                c[7] = 1 + self.below(most);
                c[8] = self.below(2);
            }
            86..=88 => {
                c[0] = 4;
                c[1] = 1 + self.below(2);
            }
            89..=91 => c[0] = 5,
            92..=93 => {
                c[0] = 6;
                c[1] = self.below(65536) & 0x3F7F;
            }
            94..=95 => c[0] = 7 + self.below(2),
            _ => c = c.map(|_| self.hostile()),
        }
        if self.chance(4) {
            let i = self.below(9) as usize;
            c[i] = self.hostile();
        }
        c
    }

    /// A command for this engine: a generator is often armed for an instant about the time shown, or within a run from
    /// it; a departure time is often added to a field that brings the sum to a limit, or taken out of the field of one
    /// at the time shown; and for an adjust write whose count would outlast most lists other words are loaded, nearly
    /// always.
    fn command_at(&mut self, e: &Engine) -> Command {
        let mut c = self.command();
        if c[..2] == [2, 2] && e.words[2] % 256 != 0 && self.chance(95) {
            return load(self.steering());
        }
        if c[0] == 3 && self.chance(80) {
            let shown = e.shown() >> 8;
            let (seconds, nanoseconds) = ((shown / 1_000_000_000) as u64, (shown % 1_000_000_000) as u64);
            let ahead = self.one_of(&[3, 700, 700, 700, 20_000, 5_000_000]);
            let start = (nanoseconds + self.below(ahead)).saturating_sub(u64::from(ahead == 3));
            (c[2], c[3]) = (seconds + start / 1_000_000_000, start % 1_000_000_000);
            match self.below(4) {
                // its second instant meets the second's end
                0 => (c[4], c[5]) = (1_000_000_000 - c[3], 0),
                // in step with the other, if that is too
                1 => [c[3], c[4], c[5], c[6]] = [c[3] / 256 * 256 + 256, 256, 0, 1],
                _ => {}
            }
        }
        if [11, 12].contains(&c[0]) && self.chance(60) {
            let departure = e.depart(0).values.iter().rev().skip(1).fold(0, |p, w| p << 16 | w);
            if c[0] == 11 {
                // the sum is about 2^63, or about 0
                let sum: u64 = self.one_of(&[1 << 63, 0]);
                c[1] = sum.wrapping_sub(departure).wrapping_add(self.below(3)).wrapping_sub(1);
            } else {
                let seconds = (e.shown() / 256_000_000_000) as u64;
                (c[1], c[2]) = ((seconds + 2).saturating_sub(self.below(20)), departure);
            }
        }
        let [op, f @ ..] = c;
        Command { op, f }
    }

    /// What comes next for this engine: a command, ticks sometimes many times in a row and runs some, from edge to
    /// edge; or adjust writes in quick succession.
    pub fn commands_at(&mut self, e: &Engine, many: u64) -> Vec<Command> {
        if self.chance(3) {
            return self.adjustments();
        }
        let c = self.command_at(e);
        let times = match c.op {
            0 => self.one_of(&[1, 1, 1, many]),
            9 if c.f[0] <= 10_000 => self.one_of(&[1, 1, 5]),
            _ => 1,
        };
        vec![c; times as usize]
    }

    /// Two or three adjust writes, some with a preview before them, and now and then another command behind one.
    fn adjustments(&mut self) -> Vec<Command> {
        let mut all = Vec::new();
        for _ in 0..2 + self.below(2) {
            all.push(load(self.steering()));
            if self.chance(30) {
                all.push(Command { op: 10, f: [self.previewed(), 0, 0, 0, 0, 0, 0, 0] });
            }
            all.push(Command { op: 2, f: [2, self.one_of(&[0, 8, 8, 8]), 0, 0, 0, 0, 0, 0] });
            if self.chance(30) {
                let [op, f @ ..] = self.command();
                all.push(Command { op, f });
            }
        }
        all
    }

    /// A number as a sheet may write it, in base 16 in so many of a hundred.
    fn written(&mut self, n: u64, percent: u64) -> String {
        if self.chance(percent) {
            format!("{n:#x}")
        } else {
            n.to_string()
        }
    }

    /// A sheet: some are damaged, some too long, some no sheet at all.
    pub fn sheet(&mut self) -> Vec<u8> {
        if self.chance(3) {
            return (0..self.below(300)).map(|_| self.one_of(&[10, 13, 32, 44, 48, 49, 111, 255]) as u8).collect();
        }
        let mut text = b"op,a,b,c,d,e,f,g,h\n".to_vec();
        let most = self.one_of(&[0, 1, 3, 30, 300, 3000]);
        let base_16 = self.one_of(&[0, 0, 10, 50, 100]);
        let mut engine = Engine::new();
        for _ in 0..self.below(most + 1) {
            for c in self.commands_at(&engine, 40) {
                let op = self.written(c.op, base_16);
                let line = c.f.iter().fold(op, |line, &n| line + "," + &self.written(n, base_16)) + "\n";
                if text.len() + line.len() <= 65536 {
                    text.extend_from_slice(line.as_bytes());
                    engine.execute(&c);
                }
            }
        }
        if self.chance(2) {
            text.resize(65530 + self.below(12) as usize, b'\n');
        }
        if self.chance(3) {
            // a value of a bad form, or of a good one that makes a number of values too many or another number
            let forms = [
                "0x", "0X1f", "0x1F", "0x01", "0x00", "00x1", "x1", "0xg", "-0x1", "0x0", "0xffffffffffffffff",
                "0x10000000000000000", "0x123456789abcdef01", "0x 1",
            ];
            let form = forms[self.below(forms.len() as u64) as usize];
            let commas: Vec<usize> = (19..text.len()).filter(|&i| text[i] == b',').collect();
            if !commas.is_empty() {
                let from = commas[self.below(commas.len() as u64) as usize] + 1;
                let length = text[from..].iter().position(|b| b",\n".contains(b)).unwrap_or(0);
                text.splice(from..from + length, form.bytes());
            }
        }
        if self.chance(10) {
            let at = self.below(text.len() as u64) as usize;
            match self.below(3) {
                0 => text[at] = self.one_of(&[10, 13, 32, 43, 44, 45, 48, 57, 120, 0, 255]) as u8,
                1 => text.truncate(at),
                _ => {
                    text.remove(at);
                }
            }
        }
        text
    }
}

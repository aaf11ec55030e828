//! How far the drive has come: one line on a terminal, else one for each tenth.
use std::io::IsTerminal;
use std::time::{Duration, Instant};

pub struct Progress {
    began: Instant,
    shown: Option<Instant>,
    tenth: u128,
    end: u128,
    terminal: bool,
}

fn days_and_hours(time: u128) -> String {
    let hours = time / crate::HOUR;
    format!("{} d {:02} h", hours / 24, hours % 24)
}

impl Progress {
    /// Towards an engine time in 2^-32 ns.
    pub fn begin(end: u128) -> Progress {
        Progress { began: Instant::now(), shown: None, tenth: 0, end, terminal: std::io::stderr().is_terminal() }
    }

    pub fn told(&mut self, time: u128) {
        let now = Instant::now();
        let due = if self.terminal {
            self.shown.map_or(true, |shown| now - shown > Duration::from_millis(500))
        } else {
            time * 10 / self.end > self.tenth
        };
        if !due {
            return;
        }
        self.shown = Some(now);
        self.tenth = time * 10 / self.end;
        let share = time as f64 / self.end as f64;
        let left = ((now - self.began).as_secs_f64() * (1.0 - share) / share) as u64;
        let (reached, end) = (days_and_hours(time), days_and_hours(self.end));
        let line = format!("engine time {reached} of {end}, {} min {:02} s left", left / 60, left % 60);
        if self.terminal {
            eprint!("\r{line:<70}");
        } else {
            eprintln!("{line}");
        }
    }

    pub fn end(&self) {
        if self.terminal {
            eprint!("\r{:<70}\r", "");
        }
    }
}

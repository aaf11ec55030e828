//! Measures the static library beside the tuned engine, both in this one process and built for release: nanoseconds,
//! and instructions where valgrind is present. Each row is the best of several runs; a ratio below 1 says that Lendaru
//! is the faster.
//!
//!     bench            prints the table
//!     bench FILE       prints one row of it, for the sheet in this file
//!     bench ROW N WHO  does N units of one row or file, for valgrind to count (of a row of runs, sheets with N each)
mod runs;

use engine::{Command, Outcome};
use reference::record::Record;
use reference::{engine, tuned, tuned_sheet};
use std::hint::black_box;
use std::process::Command as Process;
use std::time::Instant;

/// The tuned engine once more, for the lent record: a second caller of the first would change how the compiler puts it
/// into the loops of the other rows.
#[allow(dead_code)]
#[path = "../src/tuned.rs"]
mod lent_tuned;

#[link(name = "lendaru", kind = "static")]
extern "C" {
    fn lendaru_results_room() -> usize;
    fn lendaru_run_sheet(sheet: *const u8, sheet_length: usize, out: *mut u8, out_length: usize) -> usize;
}

#[link(name = "tick_bench", kind = "static")]
extern "C" {
    fn tick_bench_ticks(n: u64, cycles: u64, edges: u64, stamps: u64, code: u64, checked: u64) -> u64;
}

#[link(name = "lendaru_panel", kind = "static")]
extern "C" {
    fn lendaru_power_on() -> Record;
    fn lendaru_execute(e: &mut Record, c: Command) -> Outcome;
}

#[link(name = "lendaru_run", kind = "static")]
extern "C" {
    fn lendaru_run(e: &mut Record, a: u64) -> Outcome;
}

fn command(op: u64, fields: &[u64]) -> Command {
    let mut f = [0; 8];
    f[..fields.len()].copy_from_slice(fields);
    Command { op, f }
}

/// What ticks work on: adjust cycles, edges of each train, timestamps in each FIFO, and the code on each input.
#[derive(Clone, Copy)]
struct Load {
    cycles: u64,
    edges: u64,
    stamps: u64,
    code: u64,
}

const IDLE: Load = Load { cycles: 0, edges: 0, stamps: 0, code: 0 };
const BUSY: Load = Load { cycles: 65535, edges: 4_294_967_295, stamps: 0, code: 16 };
const PARTLY: Load = Load { stamps: 3, code: 0, ..BUSY };

/// The bits of all that n ticks tell. The record is the caller's, so no part of it can be left out.
#[inline(never)]
fn tuned_ticked(e: &mut tuned::Engine, code: u64, n: u64, checked: bool) -> u64 {
    let tick = command(0, &[code, code, code]);
    let mut told = 0;
    for _ in 0..n {
        if checked && !e.is_valid() {
            break;
        }
        let o = e.execute(&tick);
        told |= o.answer | o.values[0] | o.values[1];
    }
    told
}

/// The orders that `tick_bench` gives.
fn orders(load: Load) -> [Command; 4] {
    [
        command(1, &[0, load.cycles, 0, 0, 1920]),
        command(2, &[2, 8]),
        command(3, &[1, 0, 3, 256, 1, 3, load.edges, 1]),
        command(3, &[2, 0, 5, 300, 6, 7, load.edges, 1]),
    ]
}

/// The tuned engine with the orders and timestamps that `tick_bench` gives, then n ticks.
fn tuned_ticks(n: u64, load: Load, checked: bool) -> u64 {
    let mut e = tuned::Engine::new();
    for c in &orders(load) {
        e.execute(c);
    }
    let before = tuned_ticked(&mut e, 16, load.stamps, false);
    let told = tuned_ticked(&mut e, load.code, n, checked);
    e.nanoseconds() | before | told
}

/// A command on a lent record, with the same call as the panel's library: check 4, then the command.
#[inline(never)]
extern "C" fn tuned_execute(e: &mut lent_tuned::Engine, c: Command) -> Outcome {
    if e.is_valid() {
        tuned_checked(e, &c)
    } else {
        Outcome { answer: 4, values: [0; 5] }
    }
}

/// The command by itself: compiled into the check's function it would take a twentieth more instructions.
#[inline(never)]
fn tuned_checked(e: &mut lent_tuned::Engine, c: &Command) -> Outcome {
    e.execute(c)
}

/// The bits of all that n commands tell, a call for each, the two by turns, after the orders of a load.
fn calls<E>(n: u64, load: Load, turns: &[Command; 2], e: &mut E, execute: impl Fn(&mut E, Command) -> Outcome) -> u64 {
    let mut told = 0;
    for c in orders(load) {
        told |= execute(e, c).answer;
    }
    for i in 0..n as usize {
        let o = execute(e, turns[i % 2]);
        told |= o.values.iter().fold(o.answer, |bits, v| bits | v);
    }
    told
}

/// A sheet of n lines: tick lines; or a busy one, with two trains, steering, inputs, and timestamps and interrupts
/// read.
fn sheet_of(n: u64, busy: bool) -> Vec<u8> {
    let mut s = b"op,a,b,c,d,e,f,g,h\n".to_vec();
    for i in 0..n {
        let line: &[u8] = match if busy { i % 40 } else { 99 } {
            _ if busy && i == 0 => b"3,1,0,3,256,1,3,4294967295,1\n",
            _ if busy && i == 1 => b"3,2,0,5,300,6,7,4294967295,1\n",
            5 => b"1,0,9,0,0,1920,0,0,0\n",
            6 => b"2,2,8,0,0,0,0,0,0\n",
            7 | 27 => b"0,16,3,0,0,0,0,0,0\n",
            8 | 28 => b"2,16,1,0,0,0,0,0,0\n",
            9 | 29 => b"2,16,2,0,0,0,0,0,0\n",
            10 => b"5,0,0,0,0,0,0,0,0\n",
            _ => b"0,0,0,0,0,0,0,0,0\n",
        };
        s.extend_from_slice(line);
    }
    assert!(s.len() <= 65536);
    s
}

/// A sheet of 1,000 loads of the same words, in decimal or in base 16.
fn loads(base_16: bool) -> Vec<u8> {
    let line: &[u8] = match base_16 {
        true => b"1,0x5678,0x1234,0x0,0xc9ff,0x3b9a,0,0,0\n",
        false => b"1,22136,4660,0,51711,15258,0,0,0\n",
    };
    [b"op,a,b,c,d,e,f,g,h\n".to_vec(), line.repeat(1000)].concat()
}

/// What a row does: ticks on a load, with check 4 before each or without; a whole sheet again and again; two commands
/// by turns on a lent record with a load; or runs.
enum Work {
    Ticks(Load, bool),
    Sheet(Vec<u8>),
    Lent(Load, [Command; 2]),
    Runs(runs::Runs),
}
use Work::{Lent, Runs, Sheet, Ticks};

fn rows() -> Vec<(&'static str, Work)> {
    let tick = |code| command(0, &[code, code, code]);
    let stored_and_read = [command(0, &[16]), command(2, &[16, 1])];
    let mut rows = vec![
        ("tick, idle", Ticks(IDLE, false)),
        ("tick, idle, check 4", Ticks(IDLE, true)),
        ("tick, busy", Ticks(BUSY, false)),
        ("tick, busy, check 4", Ticks(BUSY, true)),
        ("tick, FIFOs partly filled", Ticks(PARTLY, false)),
        ("tick, FIFOs partly filled, check 4", Ticks(PARTLY, true)),
        ("line of a sheet of 10 ticks", Sheet(sheet_of(10, false))),
        ("line of a sheet of 100 ticks", Sheet(sheet_of(100, false))),
        ("line of a sheet of 1,000 ticks", Sheet(sheet_of(1000, false))),
        ("line of a sheet of 3,600 ticks", Sheet(sheet_of(3600, false))),
        ("line of a busy sheet of 3,500", Sheet(sheet_of(3500, true))),
        ("command on a lent record, idle tick", Lent(IDLE, [tick(IDLE.code); 2])),
        ("command on a lent record, busy tick", Lent(BUSY, [tick(BUSY.code); 2])),
        ("command on a lent record, timestamp stored and read by turns", Lent(IDLE, stored_and_read)),
    ];
    rows.extend(runs::rows().into_iter().map(|(name, runs)| (name, Runs(runs))));
    rows.push(("line of a sheet of 1,000 loads in decimal", Sheet(loads(false))));
    rows.push(("line of a sheet of 1,000 loads in base 16", Sheet(loads(true))));
    rows
}

impl Work {
    /// A row by its index, or a sheet by the name of its file.
    fn named(row: &str) -> Work {
        match row.parse::<usize>() {
            Ok(index) => rows().into_iter().nth(index).expect("a row").1,
            Err(_) => Sheet(std::fs::read(row).expect("a file")),
        }
    }

    /// How many units come at once: one tick or command, or the lines of a sheet.
    fn whole(&self) -> u64 {
        match self {
            Ticks(..) | Lent(..) | Runs(_) => 1,
            Sheet(sheet) => sheet.iter().filter(|&&b| b == b'\n').count().max(2) as u64 - 1,
        }
    }

    /// How many units are done where n are wanted.
    fn units(&self, n: u64) -> u64 {
        n.div_ceil(self.whole()) * self.whole()
    }

    /// Does them, by Lendaru or by the tuned engine.
    fn run(&self, n: u64, ours: bool) {
        match self {
            Ticks(load, checked) => ticks(n, black_box(*load), *checked, ours),
            Sheet(sheet) => sheets(n.div_ceil(self.whole()), sheet, ours),
            Lent(load, turns) => lent(n, black_box(*load), black_box(turns), ours),
            Runs(runs) => runs.run(n, ours),
        }
    }
}

fn ticks(n: u64, load: Load, checked: bool, ours: bool) {
    let Load { cycles, edges, stamps, code } = load;
    black_box(if ours {
        // SAFETY: it takes numbers.
        unsafe { tick_bench_ticks(n, cycles, edges, stamps, code, checked.into()) }
    } else {
        tuned_ticks(n, load, checked)
    });
}

fn lent(n: u64, load: Load, turns: &[Command; 2], ours: bool) {
    if ours {
        // SAFETY: it takes nothing.
        let mut e = unsafe { lendaru_power_on() };
        // SAFETY: the record is lent for the call alone.
        black_box(calls(n, load, turns, &mut e, |e, c| unsafe { lendaru_execute(e, c) }));
        black_box(&e);
    } else {
        let mut e = lent_tuned::Engine::new();
        black_box(calls(n, load, turns, &mut e, |e, c| tuned_execute(e, c)));
        black_box(&e);
    }
}

fn sheets(times: u64, sheet: &[u8], ours: bool) {
    // SAFETY: it takes nothing.
    let mut out = vec![0; unsafe { lendaru_results_room() }];
    let (mut commands, mut text) = (Vec::with_capacity(3640), Vec::with_capacity(out.len()));
    for _ in 0..times {
        if ours {
            // SAFETY: both are slices of Rust, and they do not overlap.
            black_box(unsafe { lendaru_run_sheet(sheet.as_ptr(), sheet.len(), out.as_mut_ptr(), out.len()) });
        } else {
            tuned_sheet::results(black_box(sheet), &mut commands, &mut text);
            black_box(&text);
        }
    }
}

/// Nanoseconds of a unit, Lendaru's and the tuned engine's: the best of many short runs by turns, so that a change of
/// the machine's clock meets both.
fn nanoseconds(row: &Work) -> [f64; 2] {
    if let Runs(runs) = row {
        return runs.nanoseconds();
    }
    let units = row.units(30_000) as f64;
    let mut best = [f64::INFINITY; 2];
    for _ in 0..60 {
        for (who, best) in best.iter_mut().enumerate() {
            let start = Instant::now();
            row.run(30_000, who == 0);
            *best = best.min(start.elapsed().as_nanos() as f64 / units);
        }
    }
    best
}

/// Instructions of a unit: the difference of two runs under valgrind, so that start-up does not count.
fn instructions(row: &str, ours: bool) -> Option<f64> {
    let me = std::env::current_exe().ok()?;
    let count = |n: u64| -> Option<f64> {
        let said = Process::new("valgrind")
            .args(["--tool=callgrind", "--callgrind-out-file=/dev/null"])
            .arg(&me)
            .args([row, &n.to_string(), if ours { "1" } else { "0" }])
            .output()
            .ok()?;
        let text = String::from_utf8_lossy(&said.stderr).into_owned();
        let line = text.lines().find(|l| l.contains("Collected"))?.to_string();
        line.split(':').nth(1)?.trim().parse().ok()
    };
    let work = Work::named(row);
    let ([few, many], units) = match &work {
        Runs(runs) => (runs.counts(ours), runs.units(ours)),
        _ => ([18_000, 36_000], (work.units(36_000) - work.units(18_000)) as f64),
    };
    Some((count(many)? - count(few)?) / units)
}

fn print_row(name: &str, row: &str) {
    let [a, b] = nanoseconds(&Work::named(row));
    let counted = match (instructions(row, true), instructions(row, false)) {
        (Some(x), Some(y)) => format!("{x:.0} | {y:.0} | {}", ratio(x / y)),
        _ => "- | - | -".to_string(),
    };
    println!("| {name} | {a:.1} | {b:.1} | {} | {counted} |", ratio(a / b));
}

/// Two digits behind the point, and more where they would all be 0.
fn ratio(x: f64) -> String {
    if x < 0.01 {
        format!("{x:.6}")
    } else {
        format!("{x:.2}")
    }
}

fn main() {
    let args: Vec<String> = std::env::args().skip(1).collect();
    if let [row, n, ours] = &args[..] {
        return Work::named(row).run(n.parse().expect("a number"), ours == "1");
    }
    println!("| Row | ns | tuned Rust, ns | ratio | instructions | tuned Rust | ratio |");
    println!("|---|---|---|---|---|---|---|");
    if let [file] = &args[..] {
        return print_row(file, file);
    }
    for (i, (name, _)) in rows().iter().enumerate() {
        print_row(name, &i.to_string());
    }
    println!("\nA sheet's record is checked once by Lendaru, and at every line by the tuned engine.");
    println!("Record of the tuned engine: {} bytes.", std::mem::size_of::<tuned::Engine>());
}

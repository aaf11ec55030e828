//! The command sheet: its checks, its run, and what the runner prints.
use crate::engine::{Command, Engine, Outcome};
use std::fmt::Write;

const FIRST: &[u8] = b"op,a,b,c,d,e,f,g,h\n";
const HEAD: &str = "line,answer,v1,v2,v3,v4,v5\n";

/// Digits of a base, lower-case, without a leading zero, below 2^64.
fn number(text: &[u8], base: u32) -> Option<u64> {
    if text.is_empty() || (text[0] == b'0' && text.len() > 1) || text.iter().any(u8::is_ascii_uppercase) {
        return None;
    }
    text.iter().try_fold(0u64, |n, &b| {
        let digit = char::from(b).to_digit(base)?;
        n.checked_mul(u64::from(base))?.checked_add(u64::from(digit))
    })
}

fn value(text: &[u8]) -> Option<u64> {
    match text.strip_prefix(b"0x") {
        Some(digits) => number(digits, 16),
        None => number(text, 10),
    }
}

fn command(line: &[u8]) -> Option<Command> {
    let numbers: Vec<u64> = line.split(|&b| b == b',').map(value).collect::<Option<_>>()?;
    let (op, f) = numbers.split_first()?;
    Some(Command { op: *op, f: f.try_into().ok()? })
}

/// The commands of a sheet, or the line and number of its refusal.
pub fn commands(sheet: &[u8]) -> Result<Vec<Command>, (usize, u64)> {
    if sheet.len() > 65536 {
        return Err((0, 1));
    }
    let mut rest = sheet.strip_prefix(FIRST).ok_or((1, 2))?;
    let mut all = Vec::new();
    while !rest.is_empty() {
        let bad = (all.len() + 2, 3);
        let end = rest.iter().position(|&b| b == b'\n').ok_or(bad)?;
        all.push(command(&rest[..end]).ok_or(bad)?);
        rest = &rest[end + 1..];
    }
    Ok(all)
}

/// What the runner prints.
pub fn results(sheet: &[u8]) -> String {
    results_seen(sheet, |_, _, _| {})
}

/// The same, with an onlooker who sees the record after each command, the command and its outcome.
pub fn results_seen(sheet: &[u8], mut seen: impl FnMut(&Engine, &Command, &Outcome)) -> String {
    let mut out = String::from(HEAD);
    match commands(sheet) {
        Err((line, number)) => writeln!(out, "{line},{number},0,0,0,0,0").expect("a String takes every text"),
        Ok(all) => {
            let mut engine = Engine::new();
            for (i, c) in all.iter().enumerate() {
                let o = engine.execute(c);
                seen(&engine, c, &o);
                let [v1, v2, v3, v4, v5] = o.values;
                writeln!(out, "{},{},{v1},{v2},{v3},{v4},{v5}", i + 2, o.answer).expect("a String takes every text");
            }
        }
    }
    out
}

//! The command sheet of the tuned engine: read once into a vector, run, and written into a buffer.
use crate::engine::{Command, Outcome};
use crate::tuned::{refuse, Engine};

/// The digits behind 0x.
fn base_16(line: &[u8], at: &mut usize) -> Option<u64> {
    let mut v = 0u64;
    loop {
        let digit = match line.get(*at) {
            Some(d @ b'0'..=b'9') => d - b'0',
            Some(d @ b'a'..=b'f') => d - b'a' + 10,
            _ => return Some(v),
        };
        if v >> 60 != 0 {
            return None;
        }
        v = v << 4 | u64::from(digit);
        *at += 1;
    }
}

fn command(line: &[u8], at: &mut usize) -> Option<Command> {
    let mut n = [0u64; 9];
    for (i, n) in n.iter_mut().enumerate() {
        let mut start = *at;
        let mut v = 0u64;
        while let Some(d @ b'0'..=b'9') = line.get(*at) {
            v = v.checked_mul(10)?.checked_add(u64::from(d - b'0'))?;
            *at += 1;
        }
        if *at == start + 1 && line[start] == b'0' && line.get(*at) == Some(&b'x') {
            *at += 1;
            start = *at;
            v = base_16(line, at)?;
        }
        if *at == start || (line[start] == b'0' && *at > start + 1) {
            return None;
        }
        if *line.get(*at)? != if i < 8 { b',' } else { b'\n' } {
            return None;
        }
        *at += 1;
        *n = v;
    }
    let [op, f @ ..] = n;
    Some(Command { op, f })
}

fn put(out: &mut Vec<u8>, n: u64, end: u8) {
    if n < 10 {
        out.extend_from_slice(&[b'0' + n as u8, end]);
        return;
    }
    let mut digits = [end; 21];
    let mut at = 20;
    let mut n = n;
    while n != 0 {
        at -= 1;
        digits[at] = b'0' + (n % 10) as u8;
        n /= 10;
    }
    out.extend_from_slice(&digits[at..]);
}

fn put_line(out: &mut Vec<u8>, line: u64, o: &Outcome) {
    put(out, line, b',');
    put(out, o.answer, b',');
    for i in 0..5 {
        put(out, o.values[i], if i < 4 { b',' } else { b'\n' });
    }
}

/// What the runner prints, into a buffer that is used again; the record is checked at every line, as the table says.
pub fn results(sheet: &[u8], commands: &mut Vec<Command>, out: &mut Vec<u8>) {
    const FIRST: &[u8] = b"op,a,b,c,d,e,f,g,h\n";
    out.clear();
    commands.clear();
    out.extend_from_slice(b"line,answer,v1,v2,v3,v4,v5\n");
    if sheet.len() > 65536 {
        return put_line(out, 0, &refuse(1));
    }
    if !sheet.starts_with(FIRST) {
        return put_line(out, 1, &refuse(2));
    }
    let mut at = FIRST.len();
    while at < sheet.len() {
        match command(sheet, &mut at) {
            Some(c) => commands.push(c),
            None => return put_line(out, commands.len() as u64 + 2, &refuse(3)),
        }
    }
    let mut e = Engine::new();
    for (i, c) in commands.iter().enumerate() {
        let o = if e.is_valid() { e.execute(c) } else { refuse(4) };
        put_line(out, i as u64 + 2, &o);
    }
}

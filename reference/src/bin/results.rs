//! Prints the results of each sheet that is named, under its name, or of the sheet on standard input.
use std::io::{Read, Write};

fn main() -> std::io::Result<()> {
    let mut out = std::io::stdout().lock();
    let names: Vec<String> = std::env::args().skip(1).collect();
    if names.is_empty() {
        let mut sheet = Vec::new();
        std::io::stdin().take(65537).read_to_end(&mut sheet)?;
        return out.write_all(reference::sheet::results(&sheet).as_bytes());
    }
    for name in names {
        let sheet = std::fs::read(&name)?;
        write!(out, "{name}:\n{}", reference::sheet::results(&sheet))?;
    }
    Ok(())
}

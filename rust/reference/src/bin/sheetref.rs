//! Reads a sheet on standard input and writes the reference's answer to standard output.

use std::io::{self, Read, Write};

fn main() -> io::Result<()> {
    let mut sheet = Vec::new();
    io::stdin().lock().read_to_end(&mut sheet)?;
    let mut out = io::stdout().lock();
    out.write_all(&reference::answer_sheet(&sheet))?;
    out.flush()
}

//! The streaming baseline as a program, for timing one process against another.

use std::io;

fn main() -> io::Result<()> {
    reference::baseline::answer_stream(io::stdin().lock(), io::stdout().lock())
}

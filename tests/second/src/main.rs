//! Speaks the protocol of DRIVE.md on standard input and output: "One answer line for each command,
//! flushed at once. [...] Input ends: exit status 0."

use second::drive::Driver;
use std::io::{self, BufRead, Write};

fn main() -> io::Result<()> {
    let mut input = io::stdin().lock();
    let mut output = io::stdout().lock();
    let mut driver = Driver::new();
    let mut line = Vec::new();
    loop {
        line.clear();
        if input.read_until(b'\n', &mut line)? == 0 {
            return Ok(());
        }
        if line.last() == Some(&b'\n') {
            line.pop();
        }
        writeln!(output, "{}", driver.answer(&line))?;
        output.flush()?;
    }
}

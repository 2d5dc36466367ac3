//! Reads standard input and writes what the bench program must write.

use second::{core::Second, script};
use std::io::{self, Read, Write};

fn main() -> io::Result<()> {
    let mut input = Vec::new();
    io::stdin().read_to_end(&mut input)?;
    io::stdout().write_all(&script::run(&Second, &input))
}

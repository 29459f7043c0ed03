//! Reads a sheet on standard input and prints its report, or `refused NUMBER at PLACE`.

use std::io::{stdin, stdout, Read, Write};

fn main() -> std::io::Result<()> {
    let mut sheet = Vec::new();
    stdin().read_to_end(&mut sheet)?;
    stdout().write_all(&reference::report::printed(&sheet))
}

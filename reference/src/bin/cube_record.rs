//! Reads a log on standard input and writes the record that it leaves to
//! standard output.

use std::io::{self, stdin, stdout, Write};

fn main() -> io::Result<()> {
    stdout().write_all(&cube_reference::log::record_after(stdin().lock())?)
}

//! The bench on the plain version: a file on standard input, its text on standard output.

use std::io::{self, Read, Write};

use loargwen_host::words_file;

fn main() -> io::Result<()> {
    let mut input = Vec::new();
    io::stdin().lock().take(65_537).read_to_end(&mut input)?;
    io::stdout().lock().write_all(&words_file::run(&input))
}

//! The listing program: standard input to standard output.

use std::io::{self, Read, Write};

use second::Second;

fn main() -> io::Result<()> {
    let mut input = Vec::new();
    io::stdin().lock().read_to_end(&mut input)?;
    io::stdout().lock().write_all(&Second::TRUE.listing(&input))
}

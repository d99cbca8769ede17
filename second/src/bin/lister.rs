//! The bench lister: a job record on standard input, its text on standard output.

use std::io::{self, Read, Write};

fn main() -> io::Result<()> {
    let mut input = Vec::new();
    // One byte more than a job record shows that there are bytes after it.
    io::stdin().lock().take(20).read_to_end(&mut input)?;
    io::stdout().write_all(second::listing::listing(&input).as_bytes())
}

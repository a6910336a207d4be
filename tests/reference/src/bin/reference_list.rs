//! The listing of the record file on standard input.

use std::io::{self, Read, Write};

fn main() -> io::Result<()> {
    let mut file = vec![];
    io::stdin().read_to_end(&mut file)?;
    io::stdout().write_all(&reference::listing(&file))
}

//! The program of document 01, "Report": reads standard input to its end and
//! prints the matches, a refusal or `too large`.

use std::io::{self, Read, Write};

fn main() -> io::Result<()> {
    let mut stdin = Vec::new();
    io::stdin().lock().read_to_end(&mut stdin)?;
    io::stdout().write_all(&reference::program::program(&stdin))
}

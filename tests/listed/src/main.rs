//! The reference's listing of the file on standard input: `listed < FILE`.

use std::io::{stdin, stdout, Error, Read, Write};

fn main() -> Result<(), Error> {
    let mut file = Vec::new();
    stdin().read_to_end(&mut file)?;
    stdout().write_all(&reference::listing(&file))
}

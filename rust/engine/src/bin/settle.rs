//! Reads a problem from standard input and prints its result.

use std::io::{self, Read, Write};

fn main() -> io::Result<()> {
    let mut problem = Vec::new();
    io::stdin().lock().read_to_end(&mut problem)?;
    io::stdout()
        .lock()
        .write_all(&kb_engine::settle_text(&problem))
}

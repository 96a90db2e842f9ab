//! Reads a guide on standard input and prints its listing and its plate.

use std::io::{self, Read, Write};

fn main() -> io::Result<()> {
    let mut guide = Vec::new();
    io::stdin().lock().read_to_end(&mut guide)?;
    io::stdout().lock().write_all(&model::show::plateshow(&guide))
}

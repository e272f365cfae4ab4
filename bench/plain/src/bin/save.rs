//! Runs a script as `plain-edit` does, and writes the file of the drawing at the end to standard output.

use std::io::{self, Read, Write};

const MOST: usize = 65_536;

fn main() -> io::Result<()> {
    let mut script = Vec::new();
    io::stdin().lock().take(MOST as u64 + 1).read_to_end(&mut script)?;
    if script.len() > MOST {
        eprintln!("too long");
        std::process::exit(1);
    }
    let mut drawing = plain::Drawing::empty();
    plain::run(&mut drawing, &script);
    io::stdout().write_all(&plain::file_of(&drawing))
}

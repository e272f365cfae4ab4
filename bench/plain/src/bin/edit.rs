//! The program `edit` of document 01.

use std::io::{self, Read, Write};

const MOST: usize = 65_536;

fn main() -> io::Result<()> {
    let mut script = Vec::new();
    io::stdin().lock().take(MOST as u64 + 1).read_to_end(&mut script)?;
    if script.len() > MOST {
        return writeln!(io::stdout(), "too long");
    }
    let mut drawing = plain::Drawing::empty();
    let mut text = String::new();
    for answer in plain::run(&mut drawing, &script) {
        text += &format!("{} {} {} {}\n", answer.number, answer.first, answer.new, answer.removed);
    }
    let (_, euler) = plain::euler(&drawing);
    writeln!(io::stdout(), "{text}euler {euler} cells {}", drawing.cells.len())
}

//! The stored vectors: scripts, what `edit` prints for them, the file of the drawing at the end, and, where they are stored,
//! answers of star, Euler, pieces and the soundness test on it, and what the soundness test says of damaged drawings.

use std::fs::{self, File};
use std::io;
use std::path::{Path, PathBuf};
use std::process::{Command, Stdio};

use cores::{Core, LONGEST_FILE};
use plain::{Block, Drawing, Verdict};

use crate::cells;

/// The names (paths without an ending) of the vectors in a folder.
pub fn names(folder: &Path) -> io::Result<Vec<PathBuf>> {
    let mut names = Vec::new();
    for entry in fs::read_dir(folder)? {
        let path = entry?.path();
        if path.extension().is_some_and(|ending| ending == "script") {
            names.push(path.with_extension(""));
        }
    }
    names.sort();
    Ok(names)
}

/// Tries a core on a vector; nothing where the vector is for the program alone.
pub fn try_core(core: &mut dyn Core, name: &Path) -> io::Result<Option<bool>> {
    let script = fs::read(name.with_extension("script"))?;
    let Ok(file) = fs::read(name.with_extension("file")) else { return Ok(None) };
    core.open(&[0x01, 0x00]);
    let mut text = String::new();
    for line in core.run(&script) {
        text += &format!("{} {} {} {}\n", line.number, line.first, line.new, line.removed);
    }
    let mut buffer = vec![0; LONGEST_FILE];
    let (_, length) = core.file(&mut buffer);
    let Ok(drawing) = plain::read(&buffer[..length]) else { return Ok(Some(false)) };
    let euler = if core.has_queries() { core.euler().1 } else { plain::euler(&drawing).1 };
    text += &format!("euler {euler} cells {}\n", drawing.cells.len());
    let expected = fs::read(name.with_extension("expected"))?;
    let same = text.as_bytes() == expected && buffer[..length] == file;
    let calls = fs::read_to_string(name.with_extension("calls")).unwrap_or_default();
    Ok(Some(same && (!core.has_queries() || calls.lines().all(|call| answered(core, call)))))
}

/// Whether a call gets its answer: `euler: number value`, `pieces: number count`, `first_fault: yes visited`, or `star ID ROOM:
/// number count ids..` with ROOM places lent.
fn answered(core: &mut dyn Core, call: &str) -> bool {
    let Some((asked, answer)) = call.split_once(": ") else { return false };
    let words: Vec<&str> = asked.split(' ').collect();
    let numbers: Vec<usize> = words[1..].iter().filter_map(|word| word.parse().ok()).collect();
    let got = match (words[0], &numbers[..]) {
        ("euler", []) => {
            let (number, value) = core.euler();
            format!("{number} {value}")
        }
        ("pieces", []) => {
            let (number, count) = core.pieces();
            format!("{number} {count}")
        }
        ("first_fault", []) => {
            let verdict = core.check();
            format!("{} {}", u32::from(verdict.sound), verdict.visited)
        }
        ("star", &[id, room]) => {
            let mut buffer = vec![0; room];
            let (number, count) = core.star(id as u32, &mut buffer);
            buffer.truncate(if number == 0 { count } else { 0 });
            let ids: String = buffer.iter().map(|id| format!(" {id}")).collect();
            format!("{number} {count}{ids}")
        }
        _ => return false,
    };
    got == answer
}

/// A damaged drawing, or one that is still sound, and the right verdict.
pub struct Fault {
    /// The cells as they stand, in the form of a file.
    bytes: Vec<u8>,
    drawing: Drawing,
    right: Verdict,
}

/// The damaged drawings of a vector, one of each line `cells - yes visited`: none where no file has them.
pub fn faults(name: &Path) -> io::Result<Vec<Fault>> {
    let Ok(text) = fs::read_to_string(name.with_extension("faults")) else { return Ok(vec![]) };
    let bad = |line: &str| io::Error::new(io::ErrorKind::InvalidData, format!("{}: {line}", name.display()));
    text.lines().map(|line| fault(line).ok_or_else(|| bad(line))).collect()
}

fn fault(line: &str) -> Option<Fault> {
    let words: Vec<&str> = line.split(' ').collect();
    let &[cells, "-", yes, visited] = &words[..] else { return None };
    let digits = cells.as_bytes().chunks(2).map(|pair| std::str::from_utf8(pair).ok());
    let bytes = digits.map(|pair| u8::from_str_radix(pair?, 16).ok()).collect::<Option<Vec<u8>>>()?;
    let right =
        Verdict { sound: ["0", "1"].iter().position(|word| *word == yes)? == 1, visited: visited.parse().ok()? };
    Some(Fault { drawing: cells::read(&bytes)?, bytes, right })
}

impl Fault {
    /// Tries the ordinary core's walk over the cells of a drawing.
    pub fn try_walk(&self) -> bool {
        plain::check(&self.drawing) == self.right
    }

    /// Tries a core: on a block that has the cells, and on their bytes, which are refused where a number is too long or the
    /// cells are more than a block holds.
    pub fn try_core(&self, core: &mut dyn Core) -> bool {
        let block = Block::of(&self.drawing);
        let fits = plain::cells_of(&self.bytes).is_some() && block.drawing().is_some();
        core.check_block(&block) == self.right && core.check_file(&self.bytes) == fits.then_some(self.right)
    }
}

/// Tries a program on a vector: its output must be what the file beside the script with this ending holds.
pub fn try_program(program: &Path, name: &Path, ending: &str) -> io::Result<Option<bool>> {
    let Ok(expected) = fs::read(name.with_extension(ending)) else { return Ok(None) };
    let script = File::open(name.with_extension("script"))?;
    let output = Command::new(program).stdin(Stdio::from(script)).output()?;
    Ok(Some(output.stdout == expected))
}

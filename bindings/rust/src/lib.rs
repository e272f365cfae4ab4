//! A sheet of the boundary register, edited by the proved core.
//!
//! The core is proved to do what document 01 and notes 1 to 3 of document 02 say, whatever the bytes. This crate lends it a block of
//! memory for each drawing and slices, and turns its numbers into Rust's types; it has no dependencies.
//!
//! ```
//! use dazolbei::{Done, Question, Sheet, Verdict};
//!
//! // Vertex 1 at zero, open edge 2 from 1 to 1, face 3 whose cycle is edge 2.
//! let mut script = vec![0x01];
//! script.extend([0; 16]);
//! script.extend([0x02, 0x01, 0x01, 0x00, 0x04, 0x01, 0x01, 0x04]);
//!
//! let mut sheet = Sheet::new();
//! for line in sheet.run(&script)? {
//!     let done = line.answer?;
//!     println!("{} new, from id {}, {} removed", done.new, done.first, done.removed);
//! }
//! assert_eq!(sheet.euler(), 1);
//! assert_eq!(sheet.star(1)?, [2, 3]);
//! assert_eq!(sheet.pieces(), 1);
//!
//! // Move vertex 1; the edge and the face stay at it.
//! let mut move_vertex = vec![0x05, 0x01];
//! move_vertex.extend([1.0f64, 2.0].map(f64::to_le_bytes).concat());
//! assert_eq!(sheet.command(&move_vertex), Ok(Done { first: 0, new: 0, removed: 0 }));
//!
//! // Cut edge 2 halfway, uncut vertex 4; there is no cell 9 to delete, and 10 is no kind.
//! let lines = sheet.run(&[0x0A, 0x02, 0x00, 0x0E, 0x04, 0x06, 0x09, 0x10])?;
//! assert_eq!(lines[0].answer, Ok(Done { first: 4, new: 3, removed: 1 }));
//! assert_eq!(lines[1].answer, Ok(Done { first: 7, new: 1, removed: 3 }));
//! assert_eq!(lines[2].answer, Err(Question::Live));
//! assert_eq!(lines[3].answer, Err(Question::Whole));
//! assert_eq!(lines[3].rest, 1);
//!
//! // Renumber: vertex 1, face 3 and edge 7 become 1, 2 and 3. Ids from before mean nothing now.
//! assert_eq!(sheet.star(1)?, [3, 7]);
//! assert_eq!(sheet.command(&[0x0F]), Ok(Done { first: 0, new: 0, removed: 0 }));
//! assert_eq!(sheet.star(1)?, [2, 3]);
//!
//! // A drawing has one file.
//! let again = Sheet::open(&sheet.save())?;
//! assert_eq!(again, sheet);
//! assert_eq!(Sheet::open(&[0x01]), Err(Question::File));
//!
//! // Next id 3, faces 1 and 3 without cycles: no sound drawing's file. The second cell is at fault, its id is too high.
//! let damaged = [0x03, 0x02, 0x01, 0x03, 0x00, 0x03, 0x03, 0x00];
//! assert_eq!(Sheet::open(&damaged), Err(Question::File));
//! assert_eq!(Sheet::check_file(&damaged)?, Verdict { sound: false, visited: 2 });
//! # Ok::<(), Question>(())
//! ```
//!
//! A call of the core uses less than 256 KB of stack; the main thread has 8 MB, and a thread of Rust's 2 MB unless it asks
//! for less.

use std::error::Error;
use std::fmt;
use std::hash::{Hash, Hasher};

pub mod raw;

/// The most bytes of a file.
pub const FILE_MOST: usize = 65_536;

/// The most ids of a star.
pub const STAR_MOST: usize = 256;

/// How many numbers the core tells of a command.
pub const LINE_WIDTH: usize = 5;

/// The question of document 01 that got a no.
///
/// Later versions may ask more, so a `match` needs an arm for the others. This one has none and is not compiled:
///
/// ```compile_fail,E0004
/// use dazolbei::Question::{self, *};
///
/// fn short(question: Question) -> bool {
///     match question {
///         Buffer => true,
///         Sound | Whole | Bounds | Live | Exists | Rule | Ids | Ceilings | File | Unknown(_) => false,
///     }
/// }
/// ```
#[derive(Clone, Copy, Debug, PartialEq, Eq, Hash)]
#[non_exhaustive]
pub enum Question {
    /// 1: is the drawing sound?
    Sound,
    /// 2: do the bytes begin with a whole command, kind and every number well spelled?
    Whole,
    /// 3: is every coordinate in bounds?
    Bounds,
    /// 4: is every cell named live and of a kind the command takes?
    Live,
    /// 5: is every count, place, flag, cycle and corner one that exists?
    Exists,
    /// 6: do cycles join, and does the rule of the command hold?
    Rule,
    /// 7: do the ids suffice?
    Ids,
    /// 8: does the result keep the ceilings?
    Ceilings,
    /// 9: is the lent buffer long enough?
    Buffer,
    /// 10: are the bytes, all of them, a sound drawing's file?
    File,
    /// Any other number but 0. The core gives none; one that is newer than this crate might.
    Unknown(u32),
}

impl Question {
    /// The question of a number: none of 0, which means done, and `Unknown` of those above 10.
    pub fn from_number(number: u32) -> Option<Question> {
        Some(match number {
            0 => return None,
            1 => Question::Sound,
            2 => Question::Whole,
            3 => Question::Bounds,
            4 => Question::Live,
            5 => Question::Exists,
            6 => Question::Rule,
            7 => Question::Ids,
            8 => Question::Ceilings,
            9 => Question::Buffer,
            10 => Question::File,
            other => Question::Unknown(other),
        })
    }

    /// The number in document 01.
    pub fn number(self) -> u32 {
        match self {
            Question::Sound => 1,
            Question::Whole => 2,
            Question::Bounds => 3,
            Question::Live => 4,
            Question::Exists => 5,
            Question::Rule => 6,
            Question::Ids => 7,
            Question::Ceilings => 8,
            Question::Buffer => 9,
            Question::File => 10,
            Question::Unknown(number) => number,
        }
    }
}

impl fmt::Display for Question {
    fn fmt(&self, f: &mut fmt::Formatter) -> fmt::Result {
        let no = match self {
            Question::Sound => "the drawing is not sound",
            Question::Whole => "the bytes do not begin with a whole command",
            Question::Bounds => "a coordinate is out of bounds",
            Question::Live => "a cell is not live, or of a kind that the command does not take",
            Question::Exists => "a count, place, flag, cycle or corner does not exist",
            Question::Rule => "a cycle does not join, or the command's rule does not hold",
            Question::Ids => "the ids do not suffice",
            Question::Ceilings => "the result would pass a ceiling",
            Question::Buffer => "the lent buffer is too short",
            Question::File => "the bytes are no sound drawing's file",
            Question::Unknown(_) => "no question that is known here",
        };
        write!(f, "{} ({no})", self.number())
    }
}

impl Error for Question {}

/// A number of the core as a result: 0 alone is done.
fn asked(number: u32) -> Result<(), Question> {
    match Question::from_number(number) {
        None => Ok(()),
        Some(question) => Err(question),
    }
}

/// What a command did.
#[derive(Clone, Copy, Debug, PartialEq, Eq, Hash)]
pub struct Done {
    /// The first new id, 0 if there is none.
    pub first: u32,
    /// How many ids are new.
    pub new: u32,
    /// How many ids are gone; 0 for a renumbering, at which no cell goes.
    pub removed: u32,
}

/// What the soundness test says, as a call of its own.
#[derive(Clone, Copy, Debug, PartialEq, Eq, Hash)]
pub struct Verdict {
    /// Whether the drawing is sound.
    pub sound: bool,
    /// How many cells were visited: all of a sound drawing; else none where the next id or the count of cells is out of bounds,
    /// or those up to and with the first one at which a rule about it, or a ceiling on the totals so far, fails. Cells looked up
    /// for another's sake are not counted.
    pub visited: u32,
}

impl Verdict {
    /// From the numbers of the core: 1 alone is sound.
    fn new(sound: u32, visited: u32) -> Verdict {
        Verdict { sound: sound == 1, visited }
    }
}

/// A command of a script.
#[derive(Clone, Copy, Debug, PartialEq, Eq, Hash)]
pub struct Line {
    /// What it did, or the question that it got a no to.
    pub answer: Result<Done, Question>,
    /// How many bytes of the script are left after it; all that it was handed at 2.
    pub rest: usize,
}

impl Line {
    fn new(numbers: &[u32]) -> Line {
        let done = Done { first: numbers[1], new: numbers[2], removed: numbers[3] };
        Line { answer: asked(numbers[0]).map(|()| done), rest: numbers[4] as usize }
    }
}

/// A sound drawing, in a block of its own that the core edits in place.
///
/// Two sheets are equal if their drawings are, which is to say their files.
#[derive(Clone)]
pub struct Sheet {
    block: Box<raw::Block>,
}

impl Sheet {
    /// The empty drawing.
    pub fn new() -> Sheet {
        Sheet { block: Box::new(raw::Block::EMPTY) }
    }

    /// The drawing of a file.
    pub fn open(file: &[u8]) -> Result<Sheet, Question> {
        let mut sheet = Sheet::new();
        asked(raw::block_open(&mut sheet.block, file))?;
        Ok(sheet)
    }

    /// Runs the command at the front of a script. One that is refused leaves the drawing as it was.
    pub fn command(&mut self, script: &[u8]) -> Result<Done, Question> {
        let told = raw::block_command(&mut self.block, script);
        asked(told.number)?;
        Ok(Done { first: told.first, new: told.new, removed: told.removed })
    }

    /// The bytes after the command at the front of a script; all of them where it is not read (2).
    pub fn rest<'a>(&self, script: &'a [u8]) -> &'a [u8] {
        &script[script.len() - raw::block_rest(&self.block, script)..]
    }

    /// Runs the commands of a script, each on the drawing that the one before it gave, until no byte is left or one is not
    /// read (2). A command that is refused leaves the drawing as it was, and the run goes on behind it.
    ///
    /// Refused as a whole, with the drawing as it was, is only a script of 4 GiB or more (9).
    pub fn run(&mut self, script: &[u8]) -> Result<Vec<Line>, Question> {
        // No command is shorter than a byte.
        let mut lines = vec![0; LINE_WIDTH * script.len()];
        let (number, commands) = raw::block_run(&mut self.block, script, &mut lines);
        asked(number)?;
        Ok(lines.chunks_exact(LINE_WIDTH).take(commands).map(Line::new).collect())
    }

    /// The ids, rising, of the cells whose boundary holds the cell.
    pub fn star(&self, id: u32) -> Result<Vec<u32>, Question> {
        let mut buffer = [0; STAR_MOST];
        let (number, count) = raw::block_star(&self.block, id, &mut buffer);
        asked(number)?;
        Ok(buffer[..count].to_vec())
    }

    /// The Euler number: vertices minus open edges plus 2 - k for each face of k cycles.
    pub fn euler(&self) -> i32 {
        let (number, value) = raw::block_euler(&self.block);
        // The only no is that the drawing is not sound, and every call leaves it sound.
        assert_eq!(number, 0);
        value
    }

    /// The number of pieces: two cells are in one if one is in the other's boundary, and so on through chains. 0 for the empty
    /// drawing.
    pub fn pieces(&self) -> u32 {
        let (number, count) = raw::block_pieces(&self.block);
        // As for the Euler number.
        assert_eq!(number, 0);
        count
    }

    /// The soundness test: a sheet is sound, and all its cells are visited.
    pub fn check(&self) -> Verdict {
        raw::block_check(&self.block)
    }

    /// The soundness test of cells in the form of a file, which need not be a sound drawing's; refused (10) where the bytes
    /// are no such cells, or more than a sheet holds.
    pub fn check_file(bytes: &[u8]) -> Result<Verdict, Question> {
        let (number, verdict) = raw::check(bytes);
        asked(number)?;
        Ok(verdict)
    }

    /// The drawing's file. A drawing has one file, so a sheet that was opened and not edited gives the very bytes again.
    pub fn save(&self) -> Vec<u8> {
        let mut file = vec![0; FILE_MOST];
        // Every file fits.
        let length = self.save_to(&mut file).unwrap_or_else(|question| panic!("{question}"));
        file.truncate(length);
        file
    }

    /// The drawing's file, in the first places of a buffer: its length. The other places stay as they are, and all of them
    /// where the file does not fit (9).
    pub fn save_to(&self, buffer: &mut [u8]) -> Result<usize, Question> {
        let (number, count) = raw::block_write(&self.block, buffer);
        asked(number)?;
        Ok(count)
    }
}

impl PartialEq for Sheet {
    fn eq(&self, other: &Sheet) -> bool {
        self.save() == other.save()
    }
}

impl Eq for Sheet {}

impl Hash for Sheet {
    fn hash<H: Hasher>(&self, state: &mut H) {
        self.save().hash(state);
    }
}

impl fmt::Debug for Sheet {
    fn fmt(&self, f: &mut fmt::Formatter) -> fmt::Result {
        f.debug_struct("Sheet").field("file", &self.save()).finish()
    }
}

impl Default for Sheet {
    fn default() -> Sheet {
        Sheet::new()
    }
}

#[cfg(test)]
mod tests {
    use super::*;

    #[test]
    fn nought_alone_is_done() {
        assert_eq!(asked(0), Ok(()));
        for number in (1..=300).chain([u32::MAX - 1, u32::MAX]) {
            assert_eq!(asked(number).map_err(Question::number), Err(number));
        }
        for number in [11, 255, u32::MAX] {
            assert_eq!(asked(number), Err(Question::Unknown(number)));
        }
    }

    #[test]
    fn one_alone_is_sound() {
        assert_eq!(Verdict::new(1, 3), Verdict { sound: true, visited: 3 });
        for number in [0, 2, 257, u32::MAX] {
            assert!(!Verdict::new(number, 3).sound);
        }
    }

    #[test]
    fn lines() {
        assert_eq!(Line::new(&[0, 4, 3, 1, 2]), Line { answer: Ok(Done { first: 4, new: 3, removed: 1 }), rest: 2 });
        assert_eq!(Line::new(&[6, 0, 0, 0, 2]), Line { answer: Err(Question::Rule), rest: 2 });
        for number in [11, 255, u32::MAX] {
            // whatever the counts say
            assert_eq!(Line::new(&[number, 4, 3, 1, 2]), Line { answer: Err(Question::Unknown(number)), rest: 2 });
        }
    }
}

//! One trait over the cores that are compared, and its implementors: the ordinary one, the proved one (feature
//! `proved`), its calls on structs (feature `structs`), and flawed ones that a comparison must find out.

use std::time::Duration;

use plain::{Block, Verdict};

pub mod flawed;
mod ordinary;
#[cfg(feature = "proved")]
mod proved;
#[cfg(feature = "structs")]
mod structs;

pub use ordinary::Ordinary;
#[cfg(feature = "proved")]
pub use proved::Proved;
#[cfg(feature = "structs")]
pub use structs::Structs;

/// What one command answers, and how many bytes its rest has.
#[derive(Clone, Copy, PartialEq, Eq, Debug)]
pub struct Line {
    pub number: u32,
    pub first: u32,
    pub new: u32,
    pub removed: u32,
    pub rest: usize,
}

/// A core that holds one drawing, at first the empty one.
pub trait Core {
    fn name(&self) -> &'static str;

    /// Whether star, Euler, the soundness test and the pieces can be asked of it.
    fn has_queries(&self) -> bool {
        true
    }

    /// Reads a file: 0, or 10 and the empty drawing.
    fn open(&mut self, file: &[u8]) -> u32;

    /// Runs the commands of a script until no byte is left or one gets 2 (or 1).
    fn run(&mut self, script: &[u8]) -> Vec<Line>;

    /// The star of a cell, written to the buffer: number and count.
    fn star(&mut self, id: u32, buffer: &mut [u32]) -> (u32, usize);

    /// Number and Euler number.
    fn euler(&mut self) -> (u32, i64);

    /// The soundness test of the drawing.
    fn check(&mut self) -> Verdict;

    /// The soundness test of a block of any contents.
    fn check_block(&mut self, block: &Block) -> Verdict;

    /// The soundness test of cells in the form of a file; nothing where the bytes are refused (10).
    fn check_file(&mut self, bytes: &[u8]) -> Option<Verdict>;

    /// Number and count of the drawing's pieces.
    fn pieces(&mut self) -> (u32, u32);

    /// The same of a block of any contents.
    fn pieces_block(&mut self, block: &Block) -> (u32, u32);

    /// The same of the drawing of a file, which the bytes may not be (10).
    fn pieces_file(&mut self, bytes: &[u8]) -> (u32, u32);

    /// The drawing's file, written to the buffer: number and count.
    fn file(&mut self, buffer: &mut [u8]) -> (u32, usize);

    /// The time of `rounds` calls between two readings of the clock, each on a state like the one that is held now, which
    /// stays as it is.
    fn time(&mut self, call: Call, rounds: usize) -> Duration;
}

/// A call to be timed.
#[derive(Clone, Copy, Debug)]
pub enum Call<'a> {
    Command(&'a [u8]),
    Star(u32),
    Euler,
    Check,
    Pieces,
    Write,
    /// The file replaces the state.
    Read(&'a [u8]),
    /// The commands of a script, one after another, from the empty drawing.
    Script(&'a [u8]),
    /// A file in, the commands of a script, the file at the end out.
    FileToFile(&'a [u8], &'a [u8]),
}

/// Longer than any file: 256 cells, 512 cycles, 2,048 steps and as many bends with every number at its longest.
pub const LONGEST_FILE: usize = 65_536;

/// The other cores to compare with: those that are linked.
pub fn others() -> Vec<Box<dyn Core>> {
    vec![
        #[cfg(feature = "proved")]
        Box::new(Proved::new()),
        #[cfg(feature = "structs")]
        Box::new(Structs::new()),
    ]
}

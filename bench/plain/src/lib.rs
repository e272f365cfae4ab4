//! The boundary complex of document 01, with notes 1 to 3 of document 02, in ordinary Rust.
//!
//! A drawing is a sorted vector of cells. [`edit`] runs one command in place, [`command`] on a copy; both ask
//! questions 1 to 8 in their order, and a refused command leaves the drawing as it was. [`star`], [`euler`], [`check`],
//! [`pieces`], [`write`] and [`read`] are the other calls; [`run`] is a script from first to last command. [`check_block`]
//! and [`check_file`] are the soundness test of cells in arrays and in bytes, whatever they hold; [`pieces_block`] and
//! [`pieces_file`] count the pieces of such.

mod block;
mod block_walk;
mod bytes;
mod create;
mod cut_edge;
mod cut_face;
mod decode;
mod drawing;
mod editor;
mod file;
mod glue;
mod pieces;
mod query;
mod remove;
mod renumber;
mod sound;
mod uncut;
mod unglue;
mod uses;

pub use block::Block;
pub use block_walk::check_block;
pub use bytes::{put_bends, put_cycles, put_number, put_position};
pub use decode::{decode, Command};
pub use drawing::{Cell, Cycle, Drawing, Halfedge, Position, Shape};
pub use file::{cells_of, check_file, file_of, pieces_file, read, write};
pub use pieces::{pieces, pieces_block};
pub use query::{euler, star};
pub use sound::{check, sound, Sizes, Verdict, BOUND, CEILINGS, END_OF_IDS};

use editor::Editor;

/// The question that got a no.
#[derive(Clone, Copy, PartialEq, Eq, Debug)]
pub enum Refusal {
    Unsound = 1,
    Spelling = 2,
    OutOfBounds = 3,
    NotLive = 4,
    Absent = 5,
    Rule = 6,
    Ids = 7,
    Ceiling = 8,
    Buffer = 9,
    File = 10,
}

impl Refusal {
    /// Document 01's number of the question.
    pub fn number(self) -> u32 {
        self as u32
    }
}

/// What a command answers beside the drawing; on a refusal the three counts are 0.
#[derive(Clone, Copy, PartialEq, Eq, Debug, Default)]
pub struct Outcome {
    pub number: u32,
    pub first: u32,
    pub new: u32,
    pub removed: u32,
}

impl Outcome {
    fn refused(refusal: Refusal) -> Outcome {
        Outcome { number: refusal.number(), ..Outcome::default() }
    }
}

/// A command's whole answer.
#[derive(Clone, PartialEq, Debug)]
pub struct Answer {
    pub number: u32,
    pub first: u32,
    pub new: u32,
    pub removed: u32,
    pub drawing: Drawing,
}

/// Runs the command at the start of `bytes` in place.
pub fn edit(drawing: &mut Drawing, bytes: &[u8]) -> Outcome {
    match try_edit(drawing, bytes) {
        Ok(outcome) => outcome,
        Err(refusal) => Outcome::refused(refusal),
    }
}

fn try_edit(drawing: &mut Drawing, bytes: &[u8]) -> Result<Outcome, Refusal> {
    let sizes = sound(drawing).ok_or(Refusal::Unsound)?;
    let (command, _) = decode(bytes).ok_or(Refusal::Spelling)?;
    if !command.in_bounds() {
        return Err(Refusal::OutOfBounds);
    }
    Editor::new(drawing, sizes).run(command)
}

/// Runs the command at the start of `bytes` on a copy of the drawing.
pub fn command(drawing: &Drawing, bytes: &[u8]) -> Answer {
    let mut drawing = drawing.clone();
    let Outcome { number, first, new, removed } = edit(&mut drawing, bytes);
    Answer { number, first, new, removed, drawing }
}

/// The bytes that are left after the command, or all of them where the command gets 1 or 2.
pub fn rest<'a>(drawing: &Drawing, bytes: &'a [u8]) -> &'a [u8] {
    if sound(drawing).is_none() {
        return bytes;
    }
    decode(bytes).map_or(bytes, |(_, rest)| rest)
}

/// Runs the commands of a script, until no byte is left or one gets 2 (or 1, which would not end either).
pub fn run(drawing: &mut Drawing, script: &[u8]) -> Vec<Outcome> {
    let (mut outcomes, mut left) = (Vec::new(), script);
    while !left.is_empty() {
        let rest = rest(drawing, left);
        let outcome = edit(drawing, left);
        outcomes.push(outcome);
        if outcome.number == 1 || outcome.number == 2 {
            break;
        }
        left = rest;
    }
    outcomes
}

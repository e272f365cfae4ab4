//! A command decoded from bytes (question 2), and the bounds of its coordinates (question 3).

use crate::bytes::Cursor;
use crate::drawing::{Cycle, Position};
use crate::sound::{all_in_bounds, in_bounds};

/// The fifteen kinds of command with their fields.
#[derive(Clone, PartialEq, Debug)]
pub enum Command {
    Vertex { at: Position },
    OpenEdge { start: u32, end: u32, bends: Vec<Position> },
    ClosedEdge { bends: Vec<Position> },
    Face { cycles: Vec<Cycle> },
    Move { vertex: u32, to: Position },
    Delete { cell: u32 },
    GlueVertices { a: u32, b: u32 },
    GlueEdges { a: u32, b: u32, flag: u32 },
    Unglue { cell: u32 },
    CutEdge { edge: u32, place: u32 },
    CutFaceAtVertex { face: u32, at: Position },
    CutFaceAlongOpen { face: u32, from: Corner, to: Corner, bends: Vec<Position>, moved: Vec<u32> },
    CutFaceAlongClosed { face: u32, bends: Vec<Position>, moved: Vec<u32> },
    Uncut { cell: u32 },
    Renumber,
}

/// Where a step begins: cycle and step, counted from 0.
#[derive(Clone, Copy, PartialEq, Eq, Debug)]
pub struct Corner {
    pub cycle: u32,
    pub step: u32,
}

/// The command that the bytes begin with, and the bytes after it.
pub fn decode(bytes: &[u8]) -> Option<(Command, &[u8])> {
    let mut cursor = Cursor::new(bytes);
    let kind = cursor.byte()?;
    let command = fields(kind, &mut cursor)?;
    Some((command, cursor.left))
}

fn fields(kind: u8, c: &mut Cursor) -> Option<Command> {
    Some(match kind {
        0x01 => Command::Vertex { at: c.position()? },
        0x02 => Command::OpenEdge { start: c.number()?, end: c.number()?, bends: c.bends()? },
        0x03 => Command::ClosedEdge { bends: c.bends()? },
        0x04 => Command::Face { cycles: c.cycles()? },
        0x05 => Command::Move { vertex: c.number()?, to: c.position()? },
        0x06 => Command::Delete { cell: c.number()? },
        0x07 => Command::GlueVertices { a: c.number()?, b: c.number()? },
        0x08 => Command::GlueEdges { a: c.number()?, b: c.number()?, flag: c.number()? },
        0x09 => Command::Unglue { cell: c.number()? },
        0x0A => Command::CutEdge { edge: c.number()?, place: c.number()? },
        0x0B => Command::CutFaceAtVertex { face: c.number()?, at: c.position()? },
        0x0C => Command::CutFaceAlongOpen {
            face: c.number()?,
            from: corner(c)?,
            to: corner(c)?,
            bends: c.bends()?,
            moved: c.numbers()?,
        },
        0x0D => Command::CutFaceAlongClosed { face: c.number()?, bends: c.bends()?, moved: c.numbers()? },
        0x0E => Command::Uncut { cell: c.number()? },
        0x0F => Command::Renumber,
        _ => return None,
    })
}

fn corner(c: &mut Cursor) -> Option<Corner> {
    Some(Corner { cycle: c.number()?, step: c.number()? })
}

impl Command {
    /// Question 3.
    pub fn in_bounds(&self) -> bool {
        match self {
            Command::Vertex { at } | Command::Move { to: at, .. } | Command::CutFaceAtVertex { at, .. } => {
                in_bounds(*at)
            }
            Command::OpenEdge { bends, .. }
            | Command::ClosedEdge { bends }
            | Command::CutFaceAlongOpen { bends, .. }
            | Command::CutFaceAlongClosed { bends, .. } => all_in_bounds(bends),
            _ => true,
        }
    }
}

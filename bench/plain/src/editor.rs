//! A sound drawing under edit: runs a decoded command, asking questions 4 to 8 before it changes anything.

use crate::decode::Command;
use crate::drawing::{Cell, Cycle, Drawing, Shape};
use crate::sound::{Sizes, CEILINGS, END_OF_IDS};
use crate::{Outcome, Refusal};

pub struct Editor<'a> {
    pub drawing: &'a mut Drawing,
    sizes: Sizes,
}

/// What a command answers, or the question that refuses it.
pub type Edit = Result<Outcome, Refusal>;

/// A no to question 4, 5 or 6 unless the condition holds.
pub fn ask(condition: bool, refusal: Refusal) -> Result<(), Refusal> {
    if condition {
        Ok(())
    } else {
        Err(refusal)
    }
}

impl<'a> Editor<'a> {
    pub fn new(drawing: &'a mut Drawing, sizes: Sizes) -> Editor<'a> {
        Editor { drawing, sizes }
    }

    pub fn run(&mut self, command: Command) -> Edit {
        match command {
            Command::Vertex { at } => self.create(Shape::Vertex(at)),
            Command::OpenEdge { start, end, bends } => self.open_edge(start, end, bends),
            Command::ClosedEdge { bends } => self.closed_edge(bends),
            Command::Face { cycles } => self.face(cycles),
            Command::Move { vertex, to } => self.move_vertex(vertex, to),
            Command::Delete { cell } => self.delete(cell),
            Command::GlueVertices { a, b } => self.glue_vertices(a, b),
            Command::GlueEdges { a, b, flag } => self.glue_edges(a, b, flag),
            Command::Unglue { cell } => self.unglue(cell),
            Command::CutEdge { edge, place } => self.cut_edge(edge, place),
            Command::CutFaceAtVertex { face, at } => self.cut_face_at_vertex(face, at),
            Command::CutFaceAlongOpen { face, from, to, bends, moved } => {
                self.cut_face_along_open(face, from, to, bends, &moved)
            }
            Command::CutFaceAlongClosed { face, bends, moved } => self.cut_face_along_closed(face, bends, &moved),
            Command::Uncut { cell } => self.uncut(cell),
            Command::Renumber => self.renumber(),
        }
    }

    /// Questions 7 and 8, for a command that makes `new` cells and changes the totals by `change`.
    pub fn admit(&mut self, new: usize, change: Sizes) -> Result<(), Refusal> {
        ask(self.drawing.next as usize + new <= END_OF_IDS as usize, Refusal::Ids)?;
        let after = self.sizes.plus(change);
        ask(after.within(CEILINGS), Refusal::Ceiling)?;
        self.sizes = after;
        Ok(())
    }

    /// The answer of a done command, after its last change.
    pub fn done(&self, new: usize, removed: usize) -> Edit {
        debug_assert_eq!(crate::sound(self.drawing), Some(self.sizes));
        let first = if new == 0 { 0 } else { self.drawing.next - new as u32 };
        Ok(Outcome { number: 0, first, new: new as u32, removed: removed as u32 })
    }

    /// Appends a cell under the next id.
    pub fn issue(&mut self, shape: Shape) -> u32 {
        let id = self.drawing.next;
        self.drawing.cells.push(Cell { id, shape });
        self.drawing.next += 1;
        id
    }

    /// Takes a live cell out.
    pub fn take(&mut self, id: u32) -> Option<Shape> {
        let row = self.drawing.row(id)?;
        Some(self.drawing.cells.remove(row).shape)
    }

    /// The cycles of a face, to change.
    pub fn cycles_of(&mut self, face: u32) -> Option<&mut Vec<Cycle>> {
        let row = self.drawing.row(face)?;
        match &mut self.drawing.cells[row].shape {
            Shape::Face { cycles } => Some(cycles),
            _ => None,
        }
    }
}

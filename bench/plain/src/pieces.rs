//! The call pieces: two cells are linked if one is in the other's boundary, and so on through chains.

use crate::block::Block;
use crate::block_walk::check_block;
use crate::drawing::{Cycle, Drawing, Shape};
use crate::sound::sound;
use crate::Refusal;

/// How many linked pieces a drawing falls into: number and count.
pub fn pieces(drawing: &Drawing) -> (u32, u32) {
    if sound(drawing).is_none() {
        return (Refusal::Unsound.number(), 0);
    }
    let mut links = Links::new(drawing.cells.len());
    for (row, cell) in drawing.cells.iter().enumerate() {
        match &cell.shape {
            Shape::Vertex(_) | Shape::Closed { .. } => {}
            Shape::Open { start, end, .. } => [*start, *end].into_iter().for_each(|end| links.link(drawing, row, end)),
            Shape::Face { cycles } => cycles.iter().for_each(|cycle| links.link_cycle(drawing, row, cycle)),
        }
    }
    (0, links.pieces)
}

/// The same of a block of any contents.
pub fn pieces_block(block: &Block) -> (u32, u32) {
    match block.drawing() {
        Some(drawing) if check_block(block).sound => pieces(&drawing),
        _ => (Refusal::Unsound.number(), 0),
    }
}

/// Rows of cells that are linked so far: each leads to a row of its piece that is no higher, the lowest to itself.
struct Links {
    toward: Vec<usize>,
    pieces: u32,
}

impl Links {
    fn new(rows: usize) -> Links {
        Links { toward: (0..rows).collect(), pieces: rows as u32 }
    }

    /// The lowest row of the piece; the way there is halved.
    fn lowest(&mut self, mut row: usize) -> usize {
        while self.toward[row] != row {
            self.toward[row] = self.toward[self.toward[row]];
            row = self.toward[row];
        }
        row
    }

    fn link(&mut self, drawing: &Drawing, row: usize, id: u32) {
        let Some(other) = drawing.row(id) else { return };
        let (a, b) = (self.lowest(row), self.lowest(other));
        if a != b {
            self.toward[a.max(b)] = a.min(b);
            self.pieces -= 1;
        }
    }

    /// Links a face's row with the cells of a cycle. The ends of its edges are linked by the edges.
    fn link_cycle(&mut self, drawing: &Drawing, row: usize, cycle: &Cycle) {
        match cycle {
            Cycle::Lone(vertex) => self.link(drawing, row, *vertex),
            Cycle::Path(path) => path.iter().for_each(|step| self.link(drawing, row, step.edge)),
        }
    }
}

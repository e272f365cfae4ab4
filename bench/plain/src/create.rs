//! Kinds 01 to 05: new cells, and a vertex moved.

use crate::drawing::{Cycle, Drawing, Position, Shape};
use crate::editor::{ask, Edit, Editor};
use crate::sound::{joins, Sizes};
use crate::Refusal;

impl Editor<'_> {
    /// Questions 7 and 8 of one new cell, which is then made.
    pub fn create(&mut self, shape: Shape) -> Edit {
        self.admit(1, Sizes::of(&shape))?;
        self.issue(shape);
        self.done(1, 0)
    }

    pub fn open_edge(&mut self, start: u32, end: u32, bends: Vec<Position>) -> Edit {
        ask(self.drawing.is_vertex(start) && self.drawing.is_vertex(end), Refusal::NotLive)?;
        self.create(Shape::Open { start, end, bends })
    }

    pub fn closed_edge(&mut self, bends: Vec<Position>) -> Edit {
        ask(!bends.is_empty(), Refusal::Absent)?;
        self.create(Shape::Closed { bends })
    }

    pub fn face(&mut self, cycles: Vec<Cycle>) -> Edit {
        ask(cycles.iter().all(|cycle| names_live(self.drawing, cycle)), Refusal::NotLive)?;
        ask(cycles.iter().all(|cycle| closes(self.drawing, cycle)), Refusal::Rule)?;
        self.create(Shape::Face { cycles })
    }

    pub fn move_vertex(&mut self, vertex: u32, to: Position) -> Edit {
        let row = self.drawing.row(vertex).ok_or(Refusal::NotLive)?;
        let Shape::Vertex(position) = &mut self.drawing.cells[row].shape else {
            return Err(Refusal::NotLive);
        };
        *position = to;
        self.done(0, 0)
    }
}

/// A lone place names a vertex, a step an edge of either sort.
fn names_live(drawing: &Drawing, cycle: &Cycle) -> bool {
    match cycle {
        Cycle::Lone(vertex) => drawing.is_vertex(*vertex),
        Cycle::Path(path) => path.iter().all(|step| drawing.is_edge(step.edge)),
    }
}

fn closes(drawing: &Drawing, cycle: &Cycle) -> bool {
    match cycle {
        Cycle::Lone(_) => true,
        Cycle::Path(path) => joins(drawing, path),
    }
}

//! Kinds 07 and 08: two vertices or two edges become one.

use crate::drawing::{Cycle, Drawing, Halfedge, Shape};
use crate::editor::{ask, Edit, Editor};
use crate::sound::Sizes;
use crate::Refusal;

impl Editor<'_> {
    /// Every use of b becomes a; b goes.
    pub fn glue_vertices(&mut self, a: u32, b: u32) -> Edit {
        ask(self.drawing.is_vertex(a) && self.drawing.is_vertex(b), Refusal::NotLive)?;
        ask(a != b, Refusal::Rule)?;
        self.admit(0, Sizes { cells: -1, ..Sizes::default() })?;
        self.take(b);
        rename_vertex(self.drawing, b, a);
        self.done(0, 1)
    }

    /// b's steps become a's, reversed if the flag is 1; b goes.
    pub fn glue_edges(&mut self, a: u32, b: u32, flag: u32) -> Edit {
        ask(self.drawing.is_edge(a) && self.drawing.is_edge(b), Refusal::NotLive)?;
        ask(flag <= 1, Refusal::Absent)?;
        let reversed = flag == 1;
        ask(a != b && fit(self.drawing, a, b, reversed), Refusal::Rule)?;
        self.admit(0, Sizes { cells: -1, bends: -self.bends_of(b), ..Sizes::default() })?;
        self.take(b);
        self.replace_steps(b, |step, out| out.push(Halfedge { edge: a, ..step }.turned(reversed)));
        self.done(0, 1)
    }

    pub fn bends_of(&self, edge: u32) -> i64 {
        match self.drawing.shape(edge) {
            Some(Shape::Open { bends, .. } | Shape::Closed { bends }) => bends.len() as i64,
            _ => 0,
        }
    }

    /// Puts other steps in the place of every step of an edge.
    pub fn replace_steps(&mut self, edge: u32, instead: impl Fn(Halfedge, &mut Vec<Halfedge>)) {
        for cycle in self.drawing.cycles_mut() {
            let Cycle::Path(path) = cycle else { continue };
            if path.iter().all(|step| step.edge != edge) {
                continue;
            }
            let mut other = Vec::with_capacity(path.len());
            for &step in path.iter() {
                if step.edge == edge {
                    instead(step, &mut other);
                } else {
                    other.push(step);
                }
            }
            *path = other;
        }
    }
}

/// Both closed, or open with equal ends, or with swapped ends where one is reversed.
fn fit(drawing: &Drawing, a: u32, b: u32, reversed: bool) -> bool {
    match (drawing.ends(Halfedge::forward(a)), drawing.ends(Halfedge::forward(b).turned(reversed))) {
        (None, None) => true,
        (ends_a, ends_b) => ends_a == ends_b,
    }
}

fn rename_vertex(drawing: &mut Drawing, old: u32, new: u32) {
    for cell in &mut drawing.cells {
        if let Shape::Open { start, end, .. } = &mut cell.shape {
            rename(start, old, new);
            rename(end, old, new);
        }
    }
    for cycle in drawing.cycles_mut() {
        if let Cycle::Lone(vertex) = cycle {
            rename(vertex, old, new);
        }
    }
}

fn rename(id: &mut u32, old: u32, new: u32) {
    if *id == old {
        *id = new;
    }
}

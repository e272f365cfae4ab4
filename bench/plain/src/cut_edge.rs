//! Kind 0A: a new vertex on an edge.

use crate::drawing::{Halfedge, Position, Shape};
use crate::editor::{ask, Edit, Editor};
use crate::sound::Sizes;
use crate::uses::uses_of;
use crate::Refusal;

impl Editor<'_> {
    pub fn cut_edge(&mut self, edge: u32, place: u32) -> Edit {
        let place = place as usize;
        match self.drawing.shape(edge) {
            Some(Shape::Open { .. }) => self.cut_open(edge, place),
            Some(Shape::Closed { bends }) => {
                let bends = bends.clone();
                self.cut_closed(edge, &bends, place)
            }
            _ => Err(Refusal::NotLive),
        }
    }

    /// A new vertex v, a from the start to v, b from v to the end.
    fn cut_open(&mut self, edge: u32, place: usize) -> Edit {
        let Some(Shape::Open { start, end, bends }) = self.drawing.shape(edge).cloned() else {
            return Err(Refusal::NotLive);
        };
        ask(place <= 2 * bends.len(), Refusal::Absent)?;
        let uses = uses_of(self.drawing, edge).len() as i64;
        let (i, at_bend) = (place / 2, place % 2);
        self.admit(3, Sizes { cells: 2, cycles: 0, steps: uses, bends: -(at_bend as i64) })?;
        let at = if at_bend == 1 {
            bends[i]
        } else {
            let from = if i == 0 { self.position_of(start) } else { bends[i - 1] };
            let to = if i == bends.len() { self.position_of(end) } else { bends[i] };
            from.midpoint(to)
        };
        let (before, after) = (bends[..i].to_vec(), bends[i + at_bend..].to_vec());
        self.take(edge);
        let v = self.issue(Shape::Vertex(at));
        let a = self.issue(Shape::Open { start, end: v, bends: before });
        let b = self.issue(Shape::Open { start: v, end, bends: after });
        self.replace_steps(edge, |step, path| {
            let (first, second) = if step.backward { (b, a) } else { (a, b) };
            path.push(Halfedge { edge: first, ..step });
            path.push(Halfedge { edge: second, ..step });
        });
        self.done(3, 1)
    }

    /// A new vertex v, and an open edge from v to v with the other bends in order onward from v.
    fn cut_closed(&mut self, edge: u32, bends: &[Position], place: usize) -> Edit {
        ask(place < 2 * bends.len(), Refusal::Absent)?;
        let (i, at_bend) = (place / 2, place % 2);
        self.admit(2, Sizes { cells: 1, cycles: 0, steps: 0, bends: -(at_bend as i64) })?;
        let at = if at_bend == 1 { bends[i] } else { bends[i].midpoint(bends[(i + 1) % bends.len()]) };
        let onward = [&bends[i + 1..], &bends[..i + 1 - at_bend]].concat();
        self.take(edge);
        let v = self.issue(Shape::Vertex(at));
        let round = self.issue(Shape::Open { start: v, end: v, bends: onward });
        self.replace_steps(edge, |step, path| path.push(Halfedge { edge: round, ..step }));
        self.done(2, 1)
    }

    pub fn position_of(&self, vertex: u32) -> Position {
        match self.drawing.shape(vertex) {
            Some(Shape::Vertex(position)) => *position,
            _ => unreachable!("an edge of a sound drawing ends at vertices"),
        }
    }
}

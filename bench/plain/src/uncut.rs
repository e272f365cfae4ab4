//! Kind 0E: the inverses of the cuts.

use crate::drawing::{Cycle, Halfedge, Position, Shape};
use crate::editor::{ask, Edit, Editor};
use crate::sound::Sizes;
use crate::uses::{ends_at, lone_cycles, passages, uses_of, EdgeEnd, Use};
use crate::Refusal;

impl Editor<'_> {
    pub fn uncut(&mut self, cell: u32) -> Edit {
        match self.drawing.shape(cell) {
            Some(&Shape::Vertex(position)) => self.uncut_vertex(cell, position),
            Some(Shape::Open { .. }) => self.uncut_open(cell),
            Some(Shape::Closed { .. }) => self.uncut_closed(cell),
            _ => Err(Refusal::NotLive),
        }
    }

    fn uncut_vertex(&mut self, vertex: u32, position: Position) -> Edit {
        let ends = ends_at(self.drawing, vertex);
        let lones = lone_cycles(self.drawing, vertex);
        match (&ends[..], &lones[..]) {
            ([], [(face, cycle)]) => self.uncut_lone(vertex, *face, *cycle),
            ([first, second], []) if first.edge == second.edge => self.uncut_loop(vertex, position, &ends),
            ([_, _], []) => self.uncut_joint(vertex, position, &ends),
            _ => Err(Refusal::Rule),
        }
    }

    /// A vertex whose only use is a lone cycle: both go.
    fn uncut_lone(&mut self, vertex: u32, face: u32, cycle: usize) -> Edit {
        self.admit(0, Sizes { cells: -1, cycles: -1, steps: -1, bends: 0 })?;
        self.take(vertex);
        self.cycles_of(face).expect("a face").remove(cycle);
        self.done(0, 1)
    }

    /// The two ends of one edge: vertex and edge become a closed edge.
    fn uncut_loop(&mut self, vertex: u32, position: Position, ends: &[EdgeEnd]) -> Edit {
        let turns = passages(self.drawing, ends).iter().any(|(from, to)| from == to);
        ask(!turns, Refusal::Rule)?;
        self.admit(1, Sizes { cells: -1, cycles: 0, steps: 0, bends: 1 })?;
        let edge = ends[0].edge;
        let mut bends = vec![position];
        bends.append(&mut self.take_bends(edge));
        self.take(vertex);
        let round = self.issue(Shape::Closed { bends });
        self.replace_steps(edge, |step, path| path.push(Halfedge { edge: round, ..step }));
        self.done(1, 2)
    }

    /// One end each of two edges a and b: a new edge directed as a has the bends of both.
    fn uncut_joint(&mut self, vertex: u32, position: Position, ends: &[EdgeEnd]) -> Edit {
        let turns = passages(self.drawing, ends).iter().any(|(from, to)| from == to);
        ask(!turns, Refusal::Rule)?;
        let (a, b) = (ends[0], ends[1]);
        let dropped = uses_of(self.drawing, b.edge).len() as i64;
        self.admit(1, Sizes { cells: -2, cycles: 0, steps: -dropped, bends: 1 })?;
        let joint = self.joined(a, b, position);
        self.take(vertex);
        let joint = self.issue(joint);
        self.replace_steps(a.edge, |step, path| path.push(Halfedge { edge: joint, ..step }));
        self.replace_steps(b.edge, |_, _| {});
        self.done(1, 3)
    }

    /// Takes both edges out and joins them at these ends: from a's far end on to b's, then directed as a.
    fn joined(&mut self, a: EdgeEnd, b: EdgeEnd, between: Position) -> Shape {
        let (far_a, far_b) = (self.far_end(a), self.far_end(b));
        let mut bends = self.take_bends(a.edge);
        let mut onward = self.take_bends(b.edge);
        if !a.is_end {
            bends.reverse();
        }
        if b.is_end {
            onward.reverse();
        }
        bends.push(between);
        bends.append(&mut onward);
        if a.is_end {
            return Shape::Open { start: far_a, end: far_b, bends };
        }
        bends.reverse();
        Shape::Open { start: far_b, end: far_a, bends }
    }

    /// The vertex at the other end of an edge.
    fn far_end(&self, end: EdgeEnd) -> u32 {
        let (start, finish) = self.drawing.ends(Halfedge::forward(end.edge)).expect("an open edge");
        if end.is_end {
            start
        } else {
            finish
        }
    }

    /// Takes an edge out and hands on its bends.
    fn take_bends(&mut self, edge: u32) -> Vec<Position> {
        match self.take(edge) {
            Some(Shape::Open { bends, .. } | Shape::Closed { bends }) => bends,
            _ => unreachable!("an edge"),
        }
    }

    fn uncut_open(&mut self, edge: u32) -> Edit {
        let uses = uses_of(self.drawing, edge);
        let [one, other] = two_opposite(&uses)?;
        if one.face != other.face {
            return self.merge_faces(edge, one, other);
        }
        ask(one.cycle == other.cycle, Refusal::Rule)?;
        let (forward, backward) = if one.backward { (other, one) } else { (one, other) };
        self.split_cycle(edge, forward, backward)
    }

    /// The edge lies between two faces: the lower one takes the other's cycles.
    fn merge_faces(&mut self, edge: u32, low: Use, high: Use) -> Edit {
        let (start, _) = self.drawing.ends(Halfedge::forward(edge)).expect("an open edge");
        let mut merged = self.path_after(low);
        merged.append(&mut self.path_after(high));
        let left = i64::from(merged.is_empty());
        self.admit(0, Sizes { cells: -2, cycles: -1, steps: left - 2, bends: -self.bends_of(edge) })?;
        let mut others = self.take_face(high.face);
        others.remove(high.cycle);
        let cycles = self.cycles_of(low.face).expect("a face");
        cycles[low.cycle] = cycle_or_lone(merged, start);
        cycles.append(&mut others);
        self.take(edge);
        self.done(0, 2)
    }

    /// Both steps are in one cycle, which falls apart: what follows the backward step takes its place, what follows
    /// the forward step goes last.
    fn split_cycle(&mut self, edge: u32, forward: Use, backward: Use) -> Edit {
        let (start, end) = self.drawing.ends(Halfedge::forward(edge)).expect("an open edge");
        let mut placed = self.path_after(backward);
        let length = placed.len() + 1;
        let mut last = placed.split_off((forward.step + length - backward.step - 1) % length);
        last.remove(0);
        let lones = i64::from(placed.is_empty()) + i64::from(last.is_empty());
        self.admit(0, Sizes { cells: -1, cycles: 1, steps: lones - 2, bends: -self.bends_of(edge) })?;
        let cycles = self.cycles_of(forward.face).expect("a face");
        cycles[forward.cycle] = cycle_or_lone(placed, start);
        cycles.push(cycle_or_lone(last, end));
        self.take(edge);
        self.done(0, 1)
    }

    /// A closed edge between two faces: both its cycles go, the lower face takes the other's.
    fn uncut_closed(&mut self, edge: u32) -> Edit {
        let uses = uses_of(self.drawing, edge);
        let [low, high] = two_opposite(&uses)?;
        ask(low.face != high.face, Refusal::Rule)?;
        self.admit(0, Sizes { cells: -2, cycles: -2, steps: -2, bends: -self.bends_of(edge) })?;
        let mut others = self.take_face(high.face);
        others.remove(high.cycle);
        let cycles = self.cycles_of(low.face).expect("a face");
        cycles.remove(low.cycle);
        cycles.append(&mut others);
        self.take(edge);
        self.done(0, 2)
    }

    /// What follows a step in its cycle, round the end, up to the step itself.
    fn path_after(&mut self, one: Use) -> Vec<Halfedge> {
        let path = self.cycles_of(one.face).expect("a face")[one.cycle].path();
        [&path[one.step + 1..], &path[..one.step]].concat()
    }

    fn take_face(&mut self, face: u32) -> Vec<Cycle> {
        match self.take(face) {
            Some(Shape::Face { cycles }) => cycles,
            _ => unreachable!("a face"),
        }
    }
}

/// Exactly two steps, opposite, in the order of uses.
fn two_opposite(uses: &[Use]) -> Result<[Use; 2], Refusal> {
    match uses {
        [one, other] if one.backward != other.backward => Ok([*one, *other]),
        _ => Err(Refusal::Rule),
    }
}

/// Nothing left means the vertex, alone.
fn cycle_or_lone(path: Vec<Halfedge>, vertex: u32) -> Cycle {
    if path.is_empty() {
        Cycle::Lone(vertex)
    } else {
        Cycle::Path(path)
    }
}

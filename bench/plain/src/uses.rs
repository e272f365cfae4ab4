//! Where cells are used: steps of an edge, ends at a vertex, passages through it, lone cycles.

use crate::drawing::{Cycle, Drawing, Halfedge, Shape};

/// A step of an edge and where it stands.
#[derive(Clone, Copy, PartialEq, Eq, Debug)]
pub struct Use {
    pub face: u32,
    pub cycle: usize,
    pub step: usize,
    pub backward: bool,
}

/// The steps of an edge, by face id, cycle and step.
pub fn uses_of(drawing: &Drawing, edge: u32) -> Vec<Use> {
    let mut uses = Vec::new();
    for (face, cycles) in drawing.faces() {
        for (c, cycle) in cycles.iter().enumerate() {
            for (s, step) in cycle.path().iter().enumerate() {
                if step.edge == edge {
                    uses.push(Use { face, cycle: c, step: s, backward: step.backward });
                }
            }
        }
    }
    uses
}

/// One end of an open edge: its start, or its end.
#[derive(Clone, Copy, PartialEq, Eq, PartialOrd, Ord, Debug)]
pub struct EdgeEnd {
    pub edge: u32,
    pub is_end: bool,
}

impl EdgeEnd {
    /// The end that a step leaves by.
    fn left_by(step: Halfedge) -> EdgeEnd {
        EdgeEnd { edge: step.edge, is_end: step.backward }
    }

    /// The end that a step arrives at.
    fn reached_by(step: Halfedge) -> EdgeEnd {
        EdgeEnd { edge: step.edge, is_end: !step.backward }
    }
}

/// The edge ends at a vertex, by edge id, start before end.
pub fn ends_at(drawing: &Drawing, vertex: u32) -> Vec<EdgeEnd> {
    let mut ends = Vec::new();
    for cell in &drawing.cells {
        if let Shape::Open { start, end, .. } = cell.shape {
            if start == vertex {
                ends.push(EdgeEnd { edge: cell.id, is_end: false });
            }
            if end == vertex {
                ends.push(EdgeEnd { edge: cell.id, is_end: true });
            }
        }
    }
    ends
}

/// How often cycles pass from one of the given ends (all ends at a vertex) to another: pairs of places in the list.
pub fn passages(drawing: &Drawing, ends: &[EdgeEnd]) -> Vec<(usize, usize)> {
    let mut found = Vec::new();
    for (_, cycles) in drawing.faces() {
        for cycle in cycles {
            let path = cycle.path();
            for (s, &step) in path.iter().enumerate() {
                let Ok(from) = ends.binary_search(&EdgeEnd::reached_by(step)) else { continue };
                let next = path[(s + 1) % path.len()];
                if let Ok(to) = ends.binary_search(&EdgeEnd::left_by(next)) {
                    found.push((from, to));
                }
            }
        }
    }
    found
}

/// The lone cycles of a vertex: face id and cycle, in this order.
pub fn lone_cycles(drawing: &Drawing, vertex: u32) -> Vec<(u32, usize)> {
    let mut found = Vec::new();
    for (face, cycles) in drawing.faces() {
        for (c, cycle) in cycles.iter().enumerate() {
            if *cycle == Cycle::Lone(vertex) {
                found.push((face, c));
            }
        }
    }
    found
}

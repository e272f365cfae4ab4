//! The calls star and Euler.

use crate::drawing::{Cycle, Drawing, Halfedge, Shape};
use crate::sound::sound;
use crate::Refusal;

/// Writes the ids of the cells whose boundary holds `id` into the buffer's first places: number and count.
pub fn star(drawing: &Drawing, id: u32, buffer: &mut [u32]) -> (u32, usize) {
    if sound(drawing).is_none() {
        return (Refusal::Unsound.number(), 0);
    }
    if drawing.row(id).is_none() {
        return (Refusal::NotLive.number(), 0);
    }
    let star = star_of(drawing, id);
    if star.len() > buffer.len() {
        return (Refusal::Buffer.number(), star.len());
    }
    buffer[..star.len()].copy_from_slice(&star);
    (0, star.len())
}

/// The ids, rising, of the cells whose boundary holds `id`.
fn star_of(drawing: &Drawing, id: u32) -> Vec<u32> {
    let around = drawing.cells.iter().filter(|cell| bounded_by(drawing, &cell.shape, id));
    around.map(|cell| cell.id).collect()
}

/// Whether a cell's boundary holds `id`.
fn bounded_by(drawing: &Drawing, shape: &Shape, id: u32) -> bool {
    match shape {
        Shape::Vertex(_) | Shape::Closed { .. } => false,
        Shape::Open { start, end, .. } => *start == id || *end == id,
        Shape::Face { cycles } => cycles.iter().any(|cycle| passes(drawing, cycle, id)),
    }
}

/// Whether a cycle has `id` as its lone vertex, as a step's edge or as an end of one.
fn passes(drawing: &Drawing, cycle: &Cycle, id: u32) -> bool {
    match cycle {
        Cycle::Lone(vertex) => *vertex == id,
        Cycle::Path(path) => path.iter().any(|&step| step.edge == id || begins_at(drawing, step, id)),
    }
}

/// In a cycle each vertex is where some step begins, so ends need no test.
fn begins_at(drawing: &Drawing, step: Halfedge, vertex: u32) -> bool {
    drawing.ends(step).is_some_and(|(tail, _)| tail == vertex)
}

/// Vertices minus open edges plus 2 - k for each face with k cycles: number and Euler number.
pub fn euler(drawing: &Drawing) -> (u32, i64) {
    if sound(drawing).is_none() {
        return (Refusal::Unsound.number(), 0);
    }
    (0, drawing.cells.iter().map(|cell| share(&cell.shape)).sum())
}

fn share(shape: &Shape) -> i64 {
    match shape {
        Shape::Vertex(_) => 1,
        Shape::Open { .. } => -1,
        Shape::Closed { .. } => 0,
        Shape::Face { cycles } => 2 - cycles.len() as i64,
    }
}

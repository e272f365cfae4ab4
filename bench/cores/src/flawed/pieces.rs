//! What a flawed count of pieces answers of cells, given the right answer.

use plain::{Cycle, Drawing, Shape};

use super::Flaw;

/// Of the cells that a call was handed, where there are any as they stand.
pub fn falsified(flaw: Flaw, cells: Option<&Drawing>, right: (u32, u32)) -> (u32, u32) {
    let Some(drawing) = cells else { return right };
    if right.0 != 0 {
        return if flaw == Flaw::CountBesideANo { (right.0, drawing.cells.len() as u32) } else { right };
    }
    let is_vertex = |shape: &Shape| matches!(shape, Shape::Vertex(_));
    match flaw {
        Flaw::FacesNotLinked => pieces_with(drawing, |cycles| cycles.clear()),
        Flaw::FirstCycleLinked => pieces_with(drawing, |cycles| cycles.truncate(1)),
        Flaw::LoneNotLinked => pieces_with(drawing, |cycles| cycles.retain(|cycle| matches!(cycle, Cycle::Path(_)))),
        Flaw::ClosedNotCounted => without_closed(drawing),
        Flaw::OneWithoutCells => (0, right.1.max(1)),
        Flaw::VerticesCounted => (0, drawing.cells.iter().filter(|cell| is_vertex(&cell.shape)).count() as u32),
        _ => right,
    }
}

/// The pieces of the same cells with fewer cycles.
fn pieces_with(drawing: &Drawing, fewer: impl Fn(&mut Vec<Cycle>)) -> (u32, u32) {
    let mut other = drawing.clone();
    for cell in &mut other.cells {
        if let Shape::Face { cycles } = &mut cell.shape {
            fewer(cycles);
        }
    }
    plain::pieces(&other)
}

/// The pieces without the closed edges and the cycles that go round them.
fn without_closed(drawing: &Drawing) -> (u32, u32) {
    let is_closed = |id| matches!(drawing.shape(id), Some(Shape::Closed { .. }));
    let mut other = drawing.clone();
    other.cells.retain(|cell| !is_closed(cell.id));
    pieces_with(&other, |cycles| cycles.retain(|cycle| !cycle.path().iter().any(|step| is_closed(step.edge))))
}

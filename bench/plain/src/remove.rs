//! Kind 06: a cell goes with all that rests on it.

use std::collections::BTreeSet;

use crate::drawing::{Cycle, Drawing, Shape};
use crate::editor::{ask, Edit, Editor};
use crate::sound::Sizes;
use crate::Refusal;

impl Editor<'_> {
    pub fn delete(&mut self, cell: u32) -> Edit {
        ask(self.drawing.row(cell).is_some(), Refusal::NotLive)?;
        let doomed = resting_on(self.drawing, cell);
        self.admit(0, loss(self.drawing, &doomed))?;
        self.drawing.cells.retain(|cell| !doomed.contains(&cell.id));
        self.done(0, doomed.len())
    }
}

/// The cell itself, the edges that end at a doomed vertex, and the faces that name a doomed vertex or edge.
fn resting_on(drawing: &Drawing, cell: u32) -> BTreeSet<u32> {
    let mut doomed = BTreeSet::from([cell]);
    for edge in &drawing.cells {
        if let Shape::Open { start, end, .. } = &edge.shape {
            if doomed.contains(start) || doomed.contains(end) {
                doomed.insert(edge.id);
            }
        }
    }
    for (id, cycles) in drawing.faces() {
        if cycles.iter().any(|cycle| names_any(cycle, &doomed)) {
            doomed.insert(id);
        }
    }
    doomed
}

fn names_any(cycle: &Cycle, ids: &BTreeSet<u32>) -> bool {
    match cycle {
        Cycle::Lone(vertex) => ids.contains(vertex),
        Cycle::Path(path) => path.iter().any(|step| ids.contains(&step.edge)),
    }
}

/// What the totals lose with these cells.
fn loss(drawing: &Drawing, ids: &BTreeSet<u32>) -> Sizes {
    let going = drawing.cells.iter().filter(|cell| ids.contains(&cell.id));
    let held = going.fold(Sizes::default(), |sum, cell| sum.plus(Sizes::of(&cell.shape)));
    Sizes { cells: -held.cells, cycles: -held.cycles, steps: -held.steps, bends: -held.bends }
}

//! Question 1: soundness, and the totals that the ceilings are about. One walk over the cells answers it, and says how far it
//! came.

use crate::drawing::{Cell, Cycle, Drawing, Halfedge, Position, Shape};

/// The greatest size of a coordinate.
pub const BOUND: f64 = 1_048_576.0;

/// The first number that is no id; the next id is at most this.
pub const END_OF_IDS: u32 = 65_536;

/// How much of each a drawing holds.
#[derive(Clone, Copy, PartialEq, Eq, Debug, Default)]
pub struct Sizes {
    pub cells: i64,
    pub cycles: i64,
    pub steps: i64,
    pub bends: i64,
}

pub const CEILINGS: Sizes = Sizes { cells: 256, cycles: 512, steps: 2_048, bends: 2_048 };

impl Sizes {
    pub fn plus(self, more: Sizes) -> Sizes {
        Sizes {
            cells: self.cells + more.cells,
            cycles: self.cycles + more.cycles,
            steps: self.steps + more.steps,
            bends: self.bends + more.bends,
        }
    }

    pub fn within(self, most: Sizes) -> bool {
        self.cells <= most.cells && self.cycles <= most.cycles && self.steps <= most.steps && self.bends <= most.bends
    }

    /// What one cell adds.
    pub fn of(shape: &Shape) -> Sizes {
        let mut sizes = Sizes { cells: 1, ..Sizes::default() };
        match shape {
            Shape::Vertex(_) => {}
            Shape::Open { bends, .. } | Shape::Closed { bends } => sizes.bends = bends.len() as i64,
            Shape::Face { cycles } => {
                sizes.cycles = cycles.len() as i64;
                sizes.steps = steps_of(cycles);
            }
        }
        sizes
    }
}

/// The steps of a list of cycles, a lone vertex counted as one.
pub fn steps_of(cycles: &[Cycle]) -> i64 {
    cycles.iter().map(|cycle| cycle.steps() as i64).sum()
}

/// What the soundness test answers as a call of its own.
#[derive(Clone, Copy, PartialEq, Eq, Debug)]
pub struct Verdict {
    pub sound: bool,
    /// How many cells were visited: all of a sound drawing, else up to and with the first one at fault, and none where the
    /// next id or the count of cells is out of bounds.
    pub visited: u32,
}

impl Verdict {
    pub fn yes(visited: usize) -> Verdict {
        Verdict { sound: true, visited: visited as u32 }
    }

    pub fn no(visited: usize) -> Verdict {
        Verdict { sound: false, visited: visited as u32 }
    }
}

/// The soundness test of any drawing.
pub fn check(drawing: &Drawing) -> Verdict {
    match walk(drawing) {
        Ok(_) => Verdict::yes(drawing.cells.len()),
        Err(visited) => Verdict::no(visited),
    }
}

/// The totals of a sound drawing; nothing for a damaged one.
pub fn sound(drawing: &Drawing) -> Option<Sizes> {
    walk(drawing).ok()
}

/// What finds the shape of the first cell that has an id.
trait Look<'a>: Copy + Fn(u32) -> Option<&'a Shape> {}

impl<'a, F: Copy + Fn(u32) -> Option<&'a Shape>> Look<'a> for F {}

/// Takes the cells as they stand: the totals, or how many cells were visited when the first fault was met.
fn walk(drawing: &Drawing) -> Result<Sizes, usize> {
    let cells = &drawing.cells;
    if !(1..=END_OF_IDS).contains(&drawing.next) || cells.len() as i64 > CEILINGS.cells {
        return Err(0);
    }
    let ordered = ordered(drawing);
    if ordered == cells.len() {
        return visit(cells, |id| drawing.shape(id));
    }
    // Only ids that rise can be found by halving.
    visit(&cells[..ordered], |id| cells.iter().find(|cell| cell.id == id).map(|cell| &cell.shape))?;
    Err(ordered + 1)
}

/// How many cells from the first on have an id above the one before it, or from 1 on, and below the next id.
fn ordered(drawing: &Drawing) -> usize {
    let mut below = 0;
    for (row, cell) in drawing.cells.iter().enumerate() {
        if cell.id <= below || cell.id >= drawing.next {
            return row;
        }
        below = cell.id;
    }
    drawing.cells.len()
}

/// The same of cells whose ids are in order.
fn visit<'a>(cells: &[Cell], look: impl Look<'a>) -> Result<Sizes, usize> {
    let mut sizes = Sizes::default();
    for (row, cell) in cells.iter().enumerate() {
        sizes = sizes.plus(Sizes::of(&cell.shape));
        if !sizes.within(CEILINGS) || !sound_shape(look, &cell.shape) {
            return Err(row + 1);
        }
    }
    Ok(sizes)
}

fn sound_shape<'a>(look: impl Look<'a>, shape: &Shape) -> bool {
    match shape {
        Shape::Vertex(position) => in_bounds(*position),
        Shape::Open { start, end, bends } => is_vertex(look, *start) && is_vertex(look, *end) && all_in_bounds(bends),
        Shape::Closed { bends } => !bends.is_empty() && all_in_bounds(bends),
        Shape::Face { cycles } => cycles.iter().all(|cycle| sound_cycle(look, cycle)),
    }
}

fn is_vertex<'a>(look: impl Look<'a>, id: u32) -> bool {
    matches!(look(id), Some(Shape::Vertex(_)))
}

fn sound_cycle<'a>(look: impl Look<'a>, cycle: &Cycle) -> bool {
    match cycle {
        Cycle::Lone(vertex) => is_vertex(look, *vertex),
        Cycle::Path(path) => joined(look, path),
    }
}

/// Whether steps of a sound drawing make a cycle.
pub fn joins(drawing: &Drawing, path: &[Halfedge]) -> bool {
    joined(|id| drawing.shape(id), path)
}

/// Whether steps make a cycle: all of open edges, each ending where the next begins, last to first; or all one
/// closed edge in one direction.
fn joined<'a>(look: impl Look<'a>, path: &[Halfedge]) -> bool {
    let Some(&first) = path.first() else {
        return false;
    };
    match look(first.edge) {
        Some(Shape::Closed { .. }) => path.iter().all(|&step| step == first),
        Some(Shape::Open { .. }) => walks_round(look, path),
        _ => false,
    }
}

fn walks_round<'a>(look: impl Look<'a>, path: &[Halfedge]) -> bool {
    let (mut origin, mut at) = (None, None);
    for &step in path {
        let Some((tail, head)) = look(step.edge).and_then(|shape| shape.ends(step.backward)) else {
            return false;
        };
        if at.is_some_and(|at| at != tail) {
            return false;
        }
        origin = origin.or(Some(tail));
        at = Some(head);
    }
    at == origin
}

pub fn in_bounds(position: Position) -> bool {
    let within = |c: f64| (-BOUND..=BOUND).contains(&c);
    within(position.x) && within(position.y)
}

pub fn all_in_bounds(bends: &[Position]) -> bool {
    bends.iter().all(|&bend| in_bounds(bend))
}

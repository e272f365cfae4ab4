//! Picks of cells, walks, corners and cycles that fit a command.

use plain::{Cycle, Drawing, Halfedge, Shape};

use crate::random::Random;

pub fn ids(drawing: &Drawing, fits: impl Fn(&Shape) -> bool) -> Vec<u32> {
    drawing.cells.iter().filter(|cell| fits(&cell.shape)).map(|cell| cell.id).collect()
}

pub fn is_vertex(shape: &Shape) -> bool {
    matches!(shape, Shape::Vertex(_))
}

pub fn is_open(shape: &Shape) -> bool {
    matches!(shape, Shape::Open { .. })
}

pub fn is_closed(shape: &Shape) -> bool {
    matches!(shape, Shape::Closed { .. })
}

pub fn is_edge(shape: &Shape) -> bool {
    is_open(shape) || is_closed(shape)
}

pub fn is_face(shape: &Shape) -> bool {
    matches!(shape, Shape::Face { .. })
}

/// A cell that fits, old and new ones alike, or in half of the cases one of the last made.
pub fn cell(random: &mut Random, drawing: &Drawing, fits: impl Fn(&Shape) -> bool) -> Option<u32> {
    let ids = ids(drawing, fits);
    if random.chance(50) && ids.len() > 8 {
        return random.pick(&ids[ids.len() - 8..]);
    }
    random.pick(&ids)
}

/// Two different cells that fit.
pub fn pair(random: &mut Random, drawing: &Drawing, fits: impl Fn(&Shape) -> bool) -> Option<(u32, u32)> {
    let ids = ids(drawing, fits);
    let a = random.pick(&ids)?;
    let others: Vec<u32> = ids.into_iter().filter(|&id| id != a).collect();
    Some((a, random.pick(&others)?))
}

/// Two edges that can be glued, and the flag.
pub fn gluable(random: &mut Random, drawing: &Drawing) -> Option<(u32, u32, u32)> {
    if random.one_in(4) {
        let (a, b) = pair(random, drawing, is_closed)?;
        return Some((a, b, random.below(2) as u32));
    }
    let mut found = Vec::new();
    for a in open_steps(drawing).iter().filter(|step| !step.backward) {
        for b in open_steps(drawing) {
            if a.edge != b.edge && drawing.ends(*a) == drawing.ends(b) {
                found.push((a.edge, b.edge, u32::from(b.backward)));
            }
        }
        if found.len() > 4 {
            break;
        }
    }
    random.pick(&found)
}

/// Both directions of every open edge.
fn open_steps(drawing: &Drawing) -> Vec<Halfedge> {
    ids(drawing, is_open).iter().flat_map(|&edge| [Halfedge::forward(edge), Halfedge::backward(edge)]).collect()
}

/// A closed walk of open edges: it goes on until it comes home or has gone far enough, and then turns back.
pub fn walk(random: &mut Random, drawing: &Drawing, far: usize) -> Option<Vec<Halfedge>> {
    let steps = open_steps(drawing);
    let first = random.pick(&steps)?;
    let (home, mut at) = drawing.ends(first)?;
    let mut path = vec![first];
    while path.len() < far && (at != home || random.one_in(3)) {
        let onward: Vec<Halfedge> = steps.iter().copied().filter(|&step| begins_at(drawing, step, at)).collect();
        let step = random.pick(&onward)?;
        at = drawing.ends(step)?.1;
        path.push(step);
    }
    if at != home {
        let back: Vec<Halfedge> = path.iter().rev().map(|step| step.turned(true)).collect();
        path.extend(back);
    }
    Some(path)
}

fn begins_at(drawing: &Drawing, step: Halfedge, vertex: u32) -> bool {
    drawing.ends(step).is_some_and(|(tail, _)| tail == vertex)
}

/// A cycle for a face, of up to about `far` steps.
pub fn cycle(random: &mut Random, drawing: &Drawing, far: usize) -> Option<Cycle> {
    match random.below(8) {
        0 | 1 => Some(Cycle::Lone(cell(random, drawing, is_vertex)?)),
        2 => {
            let edge = cell(random, drawing, is_closed)?;
            let step = Halfedge { edge, backward: random.chance(50) };
            Some(Cycle::Path(vec![step; random.between(1, far)]))
        }
        _ => Some(Cycle::Path(walk(random, drawing, far)?)),
    }
}

/// The cycles of a face.
pub fn cycles_of(drawing: &Drawing, face: u32) -> &[Cycle] {
    match drawing.shape(face) {
        Some(Shape::Face { cycles }) => cycles,
        _ => &[],
    }
}

/// How many corners a cycle has.
pub fn corners(drawing: &Drawing, cycle: &Cycle) -> usize {
    match cycle {
        Cycle::Lone(_) => 1,
        Cycle::Path(path) if drawing.ends(path[0]).is_some() => path.len(),
        Cycle::Path(_) => 0,
    }
}

/// A face in which some cycle has a corner.
pub fn face_with_corner(random: &mut Random, drawing: &Drawing) -> Option<u32> {
    let cornered = |shape: &Shape| match shape {
        Shape::Face { cycles } => cycles.iter().any(|cycle| corners(drawing, cycle) > 0),
        _ => false,
    };
    cell(random, drawing, cornered)
}

/// A random corner of a face: cycle and step.
pub fn corner(random: &mut Random, drawing: &Drawing, face: u32) -> Option<(u32, u32)> {
    let cycles = cycles_of(drawing, face);
    let cornered: Vec<usize> = (0..cycles.len()).filter(|&c| corners(drawing, &cycles[c]) > 0).collect();
    let cycle = random.pick(&cornered)?;
    let step = random.below(corners(drawing, &cycles[cycle]));
    Some((cycle as u32, step as u32))
}

/// Some of the numbers below `end`, rising, without `not`.
pub fn some_below(random: &mut Random, end: usize, not: Option<u32>) -> Vec<u32> {
    let percent = [0, 20, 50, 100][random.below(4)];
    (0..end as u32).filter(|&c| Some(c) != not && random.chance(percent)).collect()
}

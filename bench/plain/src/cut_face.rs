//! Kinds 0B, 0C and 0D: a face cut at a vertex, along an open edge or along a closed edge.

use crate::decode::Corner;
use crate::drawing::{Cycle, Drawing, Halfedge, Position, Shape};
use crate::editor::{ask, Edit, Editor};
use crate::sound::Sizes;
use crate::Refusal;

impl Editor<'_> {
    /// The lone cycle of a new vertex goes last.
    pub fn cut_face_at_vertex(&mut self, face: u32, at: Position) -> Edit {
        self.cycles_of(face).ok_or(Refusal::NotLive)?;
        self.admit(1, Sizes { cells: 1, cycles: 1, steps: 1, bends: 0 })?;
        let vertex = self.issue(Shape::Vertex(at));
        self.cycles_of(face).expect("a face").push(Cycle::Lone(vertex));
        self.done(1, 0)
    }

    /// A new edge e from one corner to another.
    pub fn cut_face_along_open(
        &mut self,
        face: u32,
        from: Corner,
        to: Corner,
        bends: Vec<Position>,
        moved: &[u32],
    ) -> Edit {
        let cycles = self.cycles_of(face).ok_or(Refusal::NotLive)?;
        ask(rising_below(moved, cycles.len()) && !moved.contains(&from.cycle), Refusal::Absent)?;
        ask(from.cycle == to.cycle || moved.is_empty(), Refusal::Absent)?;
        let start = self.corner(face, from)?;
        let end = self.corner(face, to)?;
        let edge = Shape::Open { start, end, bends };
        if from.cycle == to.cycle {
            self.split_face(face, from, to.step as usize, edge, moved)
        } else {
            self.join_cycles(face, from, to, edge)
        }
    }

    /// The vertex at a corner, if there is such a corner; a closed cycle has none.
    fn corner(&mut self, face: u32, corner: Corner) -> Result<u32, Refusal> {
        let cycles = self.cycles_of(face).ok_or(Refusal::NotLive)?;
        let cycle = cycles.get(corner.cycle as usize).ok_or(Refusal::Absent)?;
        match cycle {
            Cycle::Lone(vertex) if corner.step == 0 => Ok(*vertex),
            Cycle::Lone(_) => Err(Refusal::Absent),
            Cycle::Path(path) => {
                let step = *path.get(corner.step as usize).ok_or(Refusal::Absent)?;
                tail(self.drawing, step).ok_or(Refusal::Absent)
            }
        }
    }

    /// One cycle, P Q from the first corner: P e⁻ takes its place, a new face gets Q e and the moved cycles.
    fn split_face(&mut self, face: u32, from: Corner, to_step: usize, edge: Shape, moved: &[u32]) -> Edit {
        let place = from.cycle as usize;
        let cycle = &mut self.cycles_of(face).expect("a face")[place];
        let mut kept = path_from(cycle, from.step as usize);
        let lone = kept.is_empty();
        let mut parted = kept.split_off(distance(from.step as usize, to_step, kept.len()));
        self.admit(2, Sizes { cells: 2, cycles: 1, steps: 2 - i64::from(lone), bends: Sizes::of(&edge).bends })?;
        let e = self.issue(edge);
        kept.push(Halfedge::backward(e));
        parted.push(Halfedge::forward(e));
        let cycles = self.cycles_of(face).expect("a face");
        cycles[place] = Cycle::Path(kept);
        let mut other = vec![Cycle::Path(parted)];
        other.append(&mut take_moved(cycles, moved));
        self.issue(Shape::Face { cycles: other });
        self.done(2, 0)
    }

    /// Two cycles become one: the first from its corner, e, the second from its corner, e⁻.
    fn join_cycles(&mut self, face: u32, from: Corner, to: Corner, edge: Shape) -> Edit {
        let (place, gone) = (from.cycle as usize, to.cycle as usize);
        let cycles = self.cycles_of(face).expect("a face");
        let mut joined = path_from(&cycles[place], from.step as usize);
        let second = path_from(&cycles[gone], to.step as usize);
        let lones = i64::from(joined.is_empty()) + i64::from(second.is_empty());
        self.admit(1, Sizes { cells: 1, cycles: -1, steps: 2 - lones, bends: Sizes::of(&edge).bends })?;
        let e = self.issue(edge);
        joined.push(Halfedge::forward(e));
        joined.extend(second);
        joined.push(Halfedge::backward(e));
        let cycles = self.cycles_of(face).expect("a face");
        cycles[place] = Cycle::Path(joined);
        cycles.remove(gone);
        self.done(1, 0)
    }

    /// A new closed edge goes last, forward; a new face gets it backward and then the moved cycles.
    pub fn cut_face_along_closed(&mut self, face: u32, bends: Vec<Position>, moved: &[u32]) -> Edit {
        let cycles = self.cycles_of(face).ok_or(Refusal::NotLive)?;
        ask(!bends.is_empty() && rising_below(moved, cycles.len()), Refusal::Absent)?;
        self.admit(2, Sizes { cells: 2, cycles: 2, steps: 2, bends: bends.len() as i64 })?;
        let e = self.issue(Shape::Closed { bends });
        let cycles = self.cycles_of(face).expect("a face");
        let mut other = vec![Cycle::Path(vec![Halfedge::backward(e)])];
        other.append(&mut take_moved(cycles, moved));
        cycles.push(Cycle::Path(vec![Halfedge::forward(e)]));
        self.issue(Shape::Face { cycles: other });
        self.done(2, 0)
    }
}

/// Where a step of an open edge begins.
fn tail(drawing: &Drawing, step: Halfedge) -> Option<u32> {
    drawing.ends(step).map(|(tail, _)| tail)
}

/// Strictly rising, and all below the end.
fn rising_below(list: &[u32], end: usize) -> bool {
    list.windows(2).all(|pair| pair[0] < pair[1]) && list.last().is_none_or(|&last| (last as usize) < end)
}

/// The whole walk of a cycle from a step on, round the end; empty for a lone vertex.
fn path_from(cycle: &Cycle, step: usize) -> Vec<Halfedge> {
    let mut path = cycle.path().to_vec();
    path.rotate_left(step);
    path
}

/// How many steps lead from one corner on to another, in a cycle of so many steps.
fn distance(from: usize, to: usize, length: usize) -> usize {
    if to >= from {
        to - from
    } else {
        to + length - from
    }
}

/// Takes the moved cycles out; the others keep their order.
fn take_moved(cycles: &mut Vec<Cycle>, moved: &[u32]) -> Vec<Cycle> {
    let mut taken = Vec::with_capacity(moved.len());
    let mut kept = Vec::with_capacity(cycles.len());
    for (c, cycle) in cycles.drain(..).enumerate() {
        if moved.binary_search(&(c as u32)).is_ok() {
            taken.push(cycle);
        } else {
            kept.push(cycle);
        }
    }
    *cycles = kept;
    taken
}

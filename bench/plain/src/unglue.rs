//! Kind 09: uses of a vertex or an edge get copies of their own.

use crate::drawing::{Cycle, Position, Shape};
use crate::editor::{ask, Edit, Editor};
use crate::sound::Sizes;
use crate::uses::{ends_at, lone_cycles, passages, uses_of, EdgeEnd};
use crate::Refusal;

impl Editor<'_> {
    pub fn unglue(&mut self, cell: u32) -> Edit {
        match self.drawing.shape(cell) {
            Some(&Shape::Vertex(position)) => self.unglue_vertex(cell, position),
            Some(Shape::Open { .. }) => self.unglue_open(cell),
            Some(Shape::Closed { .. }) => self.unglue_closed(cell),
            _ => Err(Refusal::NotLive),
        }
    }

    /// Every step after the first gets a new copy of the edge.
    fn unglue_open(&mut self, edge: u32) -> Edit {
        let uses = uses_of(self.drawing, edge);
        self.admit_copies(edge, uses.len())?;
        for again in &uses[1..] {
            let copy = self.copy_of(edge);
            if let Some(Cycle::Path(path)) = self.cycle_mut(again.face, again.cycle) {
                path[again.step].edge = copy;
            }
        }
        self.done(uses.len() - 1, 0)
    }

    /// Every cycle after the first gets a new copy of the edge, for all its steps.
    fn unglue_closed(&mut self, edge: u32) -> Edit {
        let mut uses = uses_of(self.drawing, edge);
        uses.dedup_by_key(|one| (one.face, one.cycle));
        self.admit_copies(edge, uses.len())?;
        for again in &uses[1..] {
            let copy = self.copy_of(edge);
            if let Some(Cycle::Path(path)) = self.cycle_mut(again.face, again.cycle) {
                path.iter_mut().for_each(|step| step.edge = copy);
            }
        }
        self.done(uses.len() - 1, 0)
    }

    /// Questions 6 to 8 for an edge that comes apart into so many.
    fn admit_copies(&mut self, edge: u32, parts: usize) -> Result<(), Refusal> {
        ask(parts >= 2, Refusal::Rule)?;
        let copies = parts as i64 - 1;
        self.admit(parts - 1, Sizes { cells: copies, bends: copies * self.bends_of(edge), ..Sizes::default() })
    }

    fn copy_of(&mut self, edge: u32) -> u32 {
        let copy = self.drawing.shape(edge).cloned();
        self.issue(copy.expect("the edge is live"))
    }

    fn cycle_mut(&mut self, face: u32, cycle: usize) -> Option<&mut Cycle> {
        self.cycles_of(face)?.get_mut(cycle)
    }

    /// The first group of ends and lone cycles keeps the vertex, each other gets a copy.
    fn unglue_vertex(&mut self, vertex: u32, position: Position) -> Edit {
        let ends = ends_at(self.drawing, vertex);
        let lones = lone_cycles(self.drawing, vertex);
        let (group_of, groups) = group(&passages(self.drawing, &ends), ends.len());
        let parts = groups + lones.len();
        ask(parts >= 2, Refusal::Rule)?;
        self.admit(parts - 1, Sizes { cells: parts as i64 - 1, ..Sizes::default() })?;
        let owners = self.vertex_for_each(parts, vertex, position);
        for (&end, &g) in ends.iter().zip(&group_of) {
            self.set_end(end, owners[g]);
        }
        for (&(face, cycle), &owner) in lones.iter().zip(&owners[groups..]) {
            if let Some(lone) = self.cycle_mut(face, cycle) {
                *lone = Cycle::Lone(owner);
            }
        }
        self.done(parts - 1, 0)
    }

    /// The vertex itself for the first part, a new one at its position for each other.
    fn vertex_for_each(&mut self, parts: usize, vertex: u32, position: Position) -> Vec<u32> {
        let mut owners = vec![vertex];
        for _ in 1..parts {
            owners.push(self.issue(Shape::Vertex(position)));
        }
        owners
    }

    fn set_end(&mut self, edge_end: EdgeEnd, vertex: u32) {
        let Some(row) = self.drawing.row(edge_end.edge) else { return };
        if let Shape::Open { start, end, .. } = &mut self.drawing.cells[row].shape {
            *(if edge_end.is_end { end } else { start }) = vertex;
        }
    }
}

/// The group of each of `count` ends, numbered in order of first members, and the number of groups. Ends that a
/// passage links are in one group.
fn group(passages: &[(usize, usize)], count: usize) -> (Vec<usize>, usize) {
    let mut links = vec![Vec::new(); count];
    for &(a, b) in passages {
        links[a].push(b);
        links[b].push(a);
    }
    let mut group_of = vec![None; count];
    let mut groups = 0;
    for end in 0..count {
        if group_of[end].is_none() {
            mark(end, groups, &links, &mut group_of);
            groups += 1;
        }
    }
    (group_of.into_iter().flatten().collect(), groups)
}

/// Puts an end and all that it is linked with into a group.
fn mark(end: usize, group: usize, links: &[Vec<usize>], group_of: &mut [Option<usize>]) {
    let mut waiting = vec![end];
    while let Some(end) = waiting.pop() {
        if group_of[end].is_none() {
            group_of[end] = Some(group);
            waiting.extend_from_slice(&links[end]);
        }
    }
}

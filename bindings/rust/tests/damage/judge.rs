//! Question 1 of a block, by the rules of document 01, note 2 of document 02 and those of the block; its pieces, by note 3.

use dazolbei::raw::Block;
use dazolbei::Verdict;

fn in_bounds(x: f64) -> bool {
    (-1_048_576.0..=1_048_576.0).contains(&x)
}

fn row(block: &Block, id: u32) -> Option<usize> {
    block.ids[..block.count].iter().position(|&other| other == id)
}

fn is_kind(block: &Block, id: u32, kind: u32) -> bool {
    row(block, id).is_some_and(|row| block.kinds[row] == kind)
}

/// Where a step of an open edge begins and ends.
fn ends(block: &Block, step: u32) -> Option<(u32, u32)> {
    let row = row(block, step / 2).filter(|&row| block.kinds[row] == 1)?;
    let (start, end) = (block.starts[row], block.ends[row]);
    Some(if step.is_multiple_of(2) { (start, end) } else { (end, start) })
}

/// Whether steps make a cycle: one closed edge in one direction, or open edges that join, last to first.
fn joins(block: &Block, path: &[u32]) -> bool {
    if is_kind(block, path[0] / 2, 2) {
        return path.iter().all(|&step| step == path[0]);
    }
    let Some(walked) = path.iter().map(|&step| ends(block, step)).collect::<Option<Vec<_>>>() else { return false };
    (0..walked.len()).all(|i| walked[i].1 == walked[(i + 1) % walked.len()].0)
}

/// What is not yet taken of the lists that cells share.
struct Left<'a> {
    cycles: &'a [u32],
    steps: &'a [u32],
    bx: &'a [f64],
    by: &'a [f64],
}

/// The first so many, if there are, which are taken off.
fn take<'a, T>(list: &mut &'a [T], count: u32) -> Option<&'a [T]> {
    let (taken, left) = list.split_at_checked(count as usize)?;
    *list = left;
    Some(taken)
}

impl Left<'_> {
    fn bends(&mut self, count: u32) -> bool {
        let (Some(xs), Some(ys)) = (take(&mut self.bx, count), take(&mut self.by, count)) else { return false };
        xs.iter().chain(ys).all(|&x| in_bounds(x))
    }

    fn cycles(&mut self, block: &Block, count: u32) -> bool {
        let Some(lengths) = take(&mut self.cycles, count) else { return false };
        lengths.iter().all(|&length| {
            let Some(path) = take(&mut self.steps, length.max(1)) else { return false };
            if length == 0 {
                is_kind(block, path[0], 0)
            } else {
                joins(block, path)
            }
        })
    }
}

fn sound_row(block: &Block, i: usize, left: &mut Left) -> bool {
    let (start, end, bends, cycles) = (block.starts[i], block.ends[i], block.bends[i], block.counts[i]);
    match block.kinds[i] {
        0 => (start, end, bends, cycles) == (0, 0, 0, 0) && in_bounds(block.px[i]) && in_bounds(block.py[i]),
        1 => cycles == 0 && is_kind(block, start, 0) && is_kind(block, end, 0) && left.bends(bends),
        2 => (start, end, cycles) == (0, 0, 0) && bends > 0 && left.bends(bends),
        3 => (start, end, bends) == (0, 0, 0) && left.cycles(block, cycles),
        _ => false,
    }
}

fn sound_id(block: &Block, i: usize) -> bool {
    let before = if i == 0 { 0 } else { block.ids[i - 1] };
    before < block.ids[i] && block.ids[i] < block.next
}

/// The soundness test, with the count of cells up to and with the first at fault.
pub fn verdict(block: &Block) -> Verdict {
    if !(1..=65_536).contains(&block.next) || block.count > 256 {
        return Verdict { sound: false, visited: 0 };
    }
    let mut left = Left { cycles: &block.cycles, steps: &block.steps, bx: &block.bx, by: &block.by };
    let at_fault = (0..block.count).find(|&i| !sound_id(block, i) || !sound_row(block, i, &mut left));
    Verdict { sound: at_fault.is_none(), visited: at_fault.map_or(block.count, |i| i + 1) as u32 }
}

pub fn sound(block: &Block) -> bool {
    verdict(block).sound
}

/// What a step brings into a face's boundary: its edge and the ends of that.
fn edge_and_ends(block: &Block, step: u32) -> Vec<u32> {
    let ends = ends(block, step).map(|(start, end)| [start, end]);
    [step / 2].into_iter().chain(ends.into_iter().flatten()).collect()
}

/// The ids in the boundary of a cell of a sound block.
fn boundary(block: &Block, i: usize, left: &mut Left) -> Vec<u32> {
    if block.kinds[i] == 1 {
        return vec![block.starts[i], block.ends[i]];
    }
    let mut held = Vec::new();
    for &length in take(&mut left.cycles, block.counts[i]).expect("cycles") {
        let path = take(&mut left.steps, length.max(1)).expect("steps");
        match length {
            0 => held.push(path[0]),
            _ => held.extend(path.iter().flat_map(|&step| edge_and_ends(block, step))),
        }
    }
    held
}

/// How many pieces a sound block falls into: each cell that a boundary holds gets the piece of the cell that it bounds.
pub fn pieces(block: &Block) -> u32 {
    let mut left = Left { cycles: &block.cycles, steps: &block.steps, bx: &block.bx, by: &block.by };
    let mut piece: Vec<usize> = (0..block.count).collect();
    for i in 0..block.count {
        for id in boundary(block, i, &mut left) {
            let (from, to) = (piece[row(block, id).expect("a live cell")], piece[i]);
            if from != to {
                piece.iter_mut().filter(|piece| **piece == from).for_each(|piece| *piece = to);
            }
        }
    }
    piece.sort();
    piece.dedup();
    piece.len() as u32
}

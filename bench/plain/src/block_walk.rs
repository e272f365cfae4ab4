//! The soundness test of a block of any contents: a walk of its own over the arrays, by document 02's note 2, the rules of
//! document 01 and those of the block. It shares nothing with the walk over a drawing, so that each tries the other.

use crate::block::Block;
use crate::sound::Verdict;

/// What earlier cells have left of the lists. These are as long as the ceilings, so a total passes its ceiling where a list
/// does not suffice.
struct Left<'a> {
    cycles: &'a [u32],
    steps: &'a [u32],
    bx: &'a [f64],
    by: &'a [f64],
}

/// Visits one cell after another, up to the first at fault.
pub fn check_block(block: &Block) -> Verdict {
    if block.next == 0 || block.next > 65_536 || block.count > 256 {
        return Verdict::no(0);
    }
    let mut left = Left { cycles: &block.cycles, steps: &block.steps, bx: &block.bx, by: &block.by };
    for row in 0..block.count {
        if !id_is_right(block, row) || !cell_is_right(block, row, &mut left) {
            return Verdict::no(row + 1);
        }
    }
    Verdict::yes(block.count)
}

/// Above the id before it, or from 1 on, and below the next id.
fn id_is_right(block: &Block, row: usize) -> bool {
    let before = if row == 0 { 0 } else { block.ids[row - 1] };
    before < block.ids[row] && block.ids[row] < block.next
}

fn cell_is_right(block: &Block, row: usize, left: &mut Left) -> bool {
    let (start, end, bends, cycles) = (block.starts[row], block.ends[row], block.bends[row], block.counts[row]);
    let endless = start == 0 && end == 0;
    match block.kinds[row] {
        0 => endless && bends == 0 && cycles == 0 && in_range(block.px[row]) && in_range(block.py[row]),
        1 => cycles == 0 && is_vertex(block, start) && is_vertex(block, end) && left.bends_are_right(bends),
        2 => endless && cycles == 0 && bends != 0 && left.bends_are_right(bends),
        3 => endless && bends == 0 && left.cycles_are_right(block, cycles),
        _ => false,
    }
}

impl Left<'_> {
    fn bends_are_right(&mut self, count: u32) -> bool {
        let (Some(xs), Some(ys)) = (take(&mut self.bx, count), take(&mut self.by, count)) else { return false };
        xs.iter().chain(ys).all(|&coordinate| in_range(coordinate))
    }

    fn cycles_are_right(&mut self, block: &Block, count: u32) -> bool {
        let Some(lengths) = take(&mut self.cycles, count) else { return false };
        lengths.iter().all(|&length| match take(&mut self.steps, length.max(1)) {
            Some([vertex]) if length == 0 => is_vertex(block, *vertex),
            Some(steps) => goes_round(block, steps),
            None => false,
        })
    }
}

/// Takes the first so many off a list, if it has them.
fn take<'a, T>(list: &mut &'a [T], count: u32) -> Option<&'a [T]> {
    let (taken, left) = list.split_at_checked(count as usize)?;
    *list = left;
    Some(taken)
}

fn in_range(coordinate: f64) -> bool {
    (-1_048_576.0..=1_048_576.0).contains(&coordinate)
}

/// The row of the first cell that has the id, and its kind.
fn first(block: &Block, id: u32) -> Option<(usize, u32)> {
    let row = block.ids[..block.count].iter().position(|&other| other == id)?;
    Some((row, block.kinds[row]))
}

fn is_vertex(block: &Block, id: u32) -> bool {
    matches!(first(block, id), Some((_, 0)))
}

/// Whether each step begins where the one before it ends, the first where the last does; or all are one closed edge in one
/// direction.
fn goes_round(block: &Block, steps: &[u32]) -> bool {
    if matches!(first(block, steps[0] / 2), Some((_, 2))) {
        return steps.iter().all(|&step| step == steps[0]);
    }
    let Some(ends) = steps.iter().map(|&step| ends_of(block, step)).collect::<Option<Vec<_>>>() else { return false };
    let before = ends.iter().cycle().skip(ends.len() - 1);
    before.zip(&ends).all(|((_, head), (tail, _))| head == tail)
}

/// Where a step of an open edge begins and ends.
fn ends_of(block: &Block, step: u32) -> Option<(u32, u32)> {
    let (row, 1) = first(block, step / 2)? else { return None };
    let (start, end) = (block.starts[row], block.ends[row]);
    Some(if step.is_multiple_of(2) { (start, end) } else { (end, start) })
}

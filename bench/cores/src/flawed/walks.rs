//! What a flawed walk answers of a block, given the right answer.

use std::collections::BTreeSet;

use plain::{Block, Verdict};

use super::Flaw;

pub fn falsified(flaw: Flaw, block: &Block, right: Verdict) -> Verdict {
    let mut verdict = right;
    if flaw == Flaw::BoundsAtTheEnd && !right.sound && right.visited == 0 {
        verdict.visited = block.count.min(256) as u32;
    }
    if right.sound || right.visited == 0 {
        return verdict;
    }
    // The row of the cell at fault.
    let row = right.visited as usize - 1;
    let all = block.count as u32;
    match flaw {
        Flaw::AllCounted => verdict.visited = all,
        Flaw::PlaceNotCount => verdict.visited = row as u32,
        Flaw::EarlierBlamed if row > 0 && block.ids[row] <= block.ids[row - 1] => verdict.visited = row as u32,
        Flaw::LastLookedUp => verdict.visited = misled(block, row).map_or(right.visited, |row| row as u32 + 1),
        Flaw::TotalsAtTheEnd if past_a_ceiling(block, row) => verdict.visited = all,
        Flaw::NextIdAtTheEnd if block.ids[row] >= block.next => verdict.visited = all,
        Flaw::LookedUpCounted => {
            let later = rows_named(block, row).into_iter().filter(|&named| named > row);
            verdict.visited += later.collect::<BTreeSet<usize>>().len() as u32;
        }
        _ => {}
    }
    verdict
}

/// Whether the totals with a row, the first at fault, pass a ceiling.
fn past_a_ceiling(block: &Block, row: usize) -> bool {
    let total = |counts: &[u32]| counts.iter().map(|&count| u64::from(count)).sum::<u64>();
    let (bends, cycles) = (total(&block.bends[..=row]), total(&block.counts[..=row]));
    let steps = block.cycles.iter().take(cycles as usize).map(|&length| u64::from(length.max(1))).sum::<u64>();
    bends > 2_048 || cycles > 512 || steps > 2_048
}

/// The first row before the one at fault with a name whose last cell is not of the kind that its first one is of.
fn misled(block: &Block, row: usize) -> Option<usize> {
    let differs = |id: &u32| {
        let ids = &block.ids[..block.count];
        let rows = ids.iter().position(|other| other == id).zip(ids.iter().rposition(|other| other == id));
        rows.is_some_and(|(first, last)| block.kinds[first] != block.kinds[last])
    };
    let mut taken = Taken::default();
    (0..row).find(|&row| names(block, row, &mut taken).iter().any(differs))
}

/// The rows of the cells that the rows before the one at fault name.
fn rows_named(block: &Block, row: usize) -> Vec<usize> {
    let mut taken = Taken::default();
    let named = (0..row).flat_map(|row| names(block, row, &mut taken));
    named.filter_map(|id| block.ids[..block.count].iter().position(|&other| other == id)).collect()
}

/// The places of the lists that earlier rows have.
#[derive(Default)]
struct Taken {
    cycles: usize,
    steps: usize,
}

/// The ids that a right row names: ends, lone vertices, edges of steps.
fn names(block: &Block, row: usize, taken: &mut Taken) -> Vec<u32> {
    match block.kinds[row] {
        1 => vec![block.starts[row], block.ends[row]],
        3 => (0..block.counts[row]).flat_map(|_| names_of_cycle(block, taken)).collect(),
        _ => vec![],
    }
}

fn names_of_cycle(block: &Block, taken: &mut Taken) -> Vec<u32> {
    let length = block.cycles[taken.cycles] as usize;
    let steps = &block.steps[taken.steps..taken.steps + length.max(1)];
    taken.cycles += 1;
    taken.steps += steps.len();
    steps.iter().map(|&step| if length == 0 { step } else { step / 2 }).collect()
}

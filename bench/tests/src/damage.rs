//! Blocks with damage of one cause or of several. Now and then a block is still sound.

use plain::{Block, Drawing, BOUND, END_OF_IDS};

use crate::random::Random;

type Damage = fn(&mut Random, &mut Block);

/// What is damaged, each with its name.
pub const DAMAGES: [(&str, Damage); 19] = [
    ("next id", next_id),
    ("count of cells", count),
    ("id", id),
    ("repeated id", repeated_id),
    ("falling ids", falling_ids),
    ("odd id, named so", odd_id_named_so),
    ("kind", kind),
    ("end", end),
    ("unused number", unused_number),
    ("position", position),
    ("bend", bend),
    ("count of bends", count_of_bends),
    ("count of cycles", count_of_cycles),
    ("length of a cycle", length_of_cycle),
    ("step", step),
    ("total of bends", total_of_bends),
    ("total of cycles", total_of_cycles),
    ("total of steps", total_of_steps),
    ("count past an array", count_past_an_array),
];

pub const SEVERAL: &str = "several";
pub const NONE: &str = "none";

/// The block of a drawing, damaged, and by what.
pub fn damaged(random: &mut Random, drawing: &Drawing) -> (Box<Block>, &'static str) {
    let mut block = Block::of(drawing);
    if random.chance(50) {
        soil(random, &mut block);
    }
    if random.one_in(40) {
        return (block, NONE);
    }
    let mut damage = || {
        let (name, damage) = DAMAGES[random.below(DAMAGES.len())];
        damage(random, &mut block);
        (name, random.one_in(4))
    };
    let (mut name, mut more) = damage();
    while more {
        name = SEVERAL;
        more = damage().1;
    }
    (block, name)
}

/// Puts numbers of all sorts behind the places in use, where nothing may depend on them.
fn soil(random: &mut Random, block: &mut Block) {
    let (cells, used) = (rows(block), Used::before(block, rows(block)));
    let some: Vec<u32> = (0..16).map(|_| odd_number(random, block)).collect();
    let mut at = random.below(16);
    let mut next = || {
        at = (at + 1) % 16;
        some[at]
    };
    for array in
        [&mut block.ids, &mut block.kinds, &mut block.starts, &mut block.ends, &mut block.bends, &mut block.counts]
    {
        array[cells..].fill_with(&mut next);
    }
    block.cycles[used.cycles..].fill_with(&mut next);
    block.steps[used.steps..].fill_with(&mut next);
    block.bx[used.bends..].fill(f64::NAN);
    block.py[cells..].fill(f64::INFINITY);
}

/// How many rows hold a cell.
fn rows(block: &Block) -> usize {
    block.count.min(256)
}

/// A row of a cell, often the first or the last.
fn row(random: &mut Random, block: &Block) -> usize {
    one_of(random, rows(block))
}

/// A row of a cell of one of the kinds, often the first or the last such.
fn row_of(random: &mut Random, block: &Block, kinds: &[u32]) -> Option<usize> {
    let rows: Vec<usize> = (0..rows(block)).filter(|&row| kinds.contains(&block.kinds[row])).collect();
    rows.get(one_of(random, rows.len())).copied()
}

fn one_of(random: &mut Random, count: usize) -> usize {
    match random.below(10) {
        0 => 0,
        1 => count.saturating_sub(1),
        _ => random.below(count),
    }
}

/// How many places of the lists are in use, as far as they go.
struct Used {
    cycles: usize,
    steps: usize,
    bends: usize,
}

impl Used {
    /// By the rows before this one.
    fn before(block: &Block, row: usize) -> Used {
        let total = |counts: &[u32]| counts.iter().map(|&count| u64::from(count)).sum::<u64>();
        let cycles = total(&block.counts[..row]).min(512) as usize;
        let bends = total(&block.bends[..row]).min(2_048) as usize;
        Used { cycles, steps: steps_before(block, cycles), bends }
    }
}

/// How many places of the steps the cycles before this one use.
fn steps_before(block: &Block, cycle: usize) -> usize {
    let steps = block.cycles[..cycle].iter().map(|&length| u64::from(length.max(1))).sum::<u64>();
    steps.min(2_048) as usize
}

/// One of the first places of a list, so many as are in use.
fn place(random: &mut Random, used: usize) -> Option<usize> {
    (used > 0).then(|| one_of(random, used))
}

/// Mostly an id of a cell, or a step of it.
fn odd_number(random: &mut Random, block: &Block) -> u32 {
    let id = block.ids[random.below(rows(block))];
    match random.below(8) {
        0..=2 => id,
        3 | 4 => id.wrapping_mul(2) + random.below(2) as u32,
        5 => random.below(5) as u32,
        6 => [block.next, block.next.wrapping_add(1), END_OF_IDS - 1, END_OF_IDS][random.below(4)],
        _ => [u32::MAX, 1 << 31, random.bits() as u32][random.below(3)],
    }
}

/// Mostly one more, one less or none.
fn near(random: &mut Random, was: u32) -> u32 {
    match random.below(5) {
        0 | 1 => was.wrapping_add(1),
        2 | 3 => was.wrapping_sub(1),
        _ => [0, 1, 2, was.wrapping_add(2)][random.below(4)],
    }
}

fn odd_coordinate(random: &mut Random) -> f64 {
    let above = f64::from_bits(BOUND.to_bits() + 1);
    [above, -above, f64::NAN, -f64::NAN, f64::INFINITY, f64::NEG_INFINITY, BOUND, -0.0][random.below(8)]
}

fn next_id(random: &mut Random, block: &mut Block) {
    let some = block.ids[row(random, block)];
    block.next = [0, 1, END_OF_IDS, END_OF_IDS + 1, u32::MAX, some, some, some.wrapping_add(1)][random.below(8)];
}

fn count(random: &mut Random, block: &mut Block) {
    let (more, less) = (block.count.wrapping_add(1), block.count.wrapping_sub(1));
    block.count = [257, 257, usize::MAX, 1 << 32, 0, 256, more, more, less, less][random.below(10)];
}

fn id(random: &mut Random, block: &mut Block) {
    let row = row(random, block);
    block.ids[row] = if random.chance(50) { near(random, block.ids[row]) } else { odd_number(random, block) };
}

fn repeated_id(random: &mut Random, block: &mut Block) {
    let (a, b) = (row(random, block), row(random, block));
    block.ids[a.max(b)] = block.ids[a.min(b)];
}

/// Two neighbours, or any two, change ids.
fn falling_ids(random: &mut Random, block: &mut Block) {
    let a = row(random, block);
    let b = if random.chance(50) { a.saturating_sub(1) } else { row(random, block) };
    block.ids.swap(a, b);
}

/// A cell gets an id that is none, or another cell's, and is named by it wherever it was named: only the id is at fault, or the
/// cells that now mean the other one.
fn odd_id_named_so(random: &mut Random, block: &mut Block) {
    let row = row(random, block);
    let (old, other) = (block.ids[row], block.ids[random.below(rows(block))]);
    let new = [0, block.next, block.next.wrapping_add(1), END_OF_IDS, 1 << 30, other][random.below(6)] % (1 << 31);
    block.ids[row] = new;
    let rename = |id: &mut u32| *id = if *id == old { new } else { *id };
    block.starts.iter_mut().chain(&mut block.ends).filter(|id| **id != 0).for_each(rename);
    let mut from = 0;
    for cycle in 0..Used::before(block, rows(block)).cycles {
        let length = block.cycles[cycle] as usize;
        let Some(steps) = block.steps[from..].get_mut(..length.max(1)) else { return };
        from += steps.len();
        match length {
            0 => rename(&mut steps[0]),
            _ => steps.iter_mut().filter(|step| **step / 2 == old).for_each(|step| *step = 2 * new + *step % 2),
        }
    }
}

fn kind(random: &mut Random, block: &mut Block) {
    block.kinds[row(random, block)] = [0, 1, 2, 3, 4, 5, 255, u32::MAX][random.below(8)];
}

fn end(random: &mut Random, block: &mut Block) {
    let Some(row) = row_of(random, block, &[1]) else { return };
    let other = odd_number(random, block);
    *(if random.chance(50) { &mut block.starts[row] } else { &mut block.ends[row] }) = other;
}

/// A number that the cell's kind does not use.
fn unused_number(random: &mut Random, block: &mut Block) {
    let row = row(random, block);
    let number = odd_number(random, block);
    match (block.kinds[row], random.below(4)) {
        (0 | 2 | 3, 0) => block.starts[row] = number,
        (0 | 2 | 3, 1) => block.ends[row] = number,
        (0 | 3, 2) => block.bends[row] = number,
        (3, _) => block.starts[row] = number,
        _ => block.counts[row] = number,
    }
}

fn position(random: &mut Random, block: &mut Block) {
    let Some(row) = row_of(random, block, &[0]) else { return };
    *(if random.chance(50) { &mut block.px[row] } else { &mut block.py[row] }) = odd_coordinate(random);
}

fn bend(random: &mut Random, block: &mut Block) {
    let Some(place) = place(random, Used::before(block, rows(block)).bends) else { return };
    *(if random.chance(50) { &mut block.bx[place] } else { &mut block.by[place] }) = odd_coordinate(random);
}

fn count_of_bends(random: &mut Random, block: &mut Block) {
    let Some(row) = row_of(random, block, &[1, 2]) else { return };
    block.bends[row] = near(random, block.bends[row]);
}

fn count_of_cycles(random: &mut Random, block: &mut Block) {
    let Some(row) = row_of(random, block, &[3]) else { return };
    block.counts[row] = near(random, block.counts[row]);
}

fn length_of_cycle(random: &mut Random, block: &mut Block) {
    let Some(place) = place(random, Used::before(block, rows(block)).cycles) else { return };
    block.cycles[place] = near(random, block.cycles[place]);
}

fn step(random: &mut Random, block: &mut Block) {
    let used = Used::before(block, rows(block)).steps;
    let (Some(place), Some(from)) = (place(random, used), place(random, used)) else { return };
    block.steps[place] = match random.below(4) {
        0 => block.steps[place] ^ 1,
        1 => block.steps[from],
        _ => odd_number(random, block),
    };
}

/// The bends so far reach the ceiling at an edge, or pass it by one; all that it takes to its own are in bounds.
fn total_of_bends(random: &mut Random, block: &mut Block) {
    let Some(row) = row_of(random, block, &[1, 2]) else { return };
    let used = Used::before(block, rows(block)).bends;
    block.bx[used..].fill(0.5);
    block.by[used..].fill(-0.5);
    let left = 2_048 - Used::before(block, row).bends as u32;
    block.bends[row] = left + u32::from(random.one_in(4));
}

/// The cycles so far reach the ceiling at a face, or pass it by one; those behind the last one are a vertex alone.
fn total_of_cycles(random: &mut Random, block: &mut Block) {
    let (Some(row), Some(vertex)) = (row_of(random, block, &[3]), row_of(random, block, &[0])) else { return };
    let used = Used::before(block, rows(block));
    block.cycles[used.cycles..].fill(0);
    block.steps[used.steps..].fill(block.ids[vertex]);
    let left = 512 - Used::before(block, row).cycles as u32;
    block.counts[row] = left + u32::from(random.one_in(4));
}

/// The steps so far reach the ceiling at a face's last cycle, or pass it by one; all are the step that it begins with.
fn total_of_steps(random: &mut Random, block: &mut Block) {
    let Some(row) = row_of(random, block, &[3]) else { return };
    let Some(cycle) = Used::before(block, row + 1).cycles.checked_sub(1) else { return };
    let from = steps_before(block, cycle);
    let Some(&first) = block.steps.get(from) else { return };
    block.steps[from..].fill(first);
    block.cycles[cycle] = 2_048 - from as u32 + u32::from(random.one_in(4));
}

/// A count, or the length of a cycle, that runs past its array.
fn count_past_an_array(random: &mut Random, block: &mut Block) {
    if random.one_in(3) {
        let Some(place) = place(random, Used::before(block, rows(block)).cycles) else { return };
        block.cycles[place] = past(random, steps_before(block, place));
        return;
    }
    let Some(row) = row_of(random, block, &[1, 2, 3]) else { return };
    let used = Used::before(block, row);
    if block.kinds[row] == 3 {
        block.counts[row] = past(random, used.cycles);
    } else {
        block.bends[row] = past(random, used.bends);
    }
}

/// A huge number; now and then one that a sum of 32 bits with those before it makes small again.
fn past(random: &mut Random, before: usize) -> u32 {
    match random.below(4) {
        0 => 1 << 31,
        1 => (before as u32).wrapping_neg().wrapping_add(1),
        _ => u32::MAX,
    }
}

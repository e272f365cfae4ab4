//! Damage to a block.

use dazolbei::raw::{Block, BLOCK_SIZE};

use crate::Random;

fn odd_number(random: &mut Random, some_id: u32, was: u32) -> u32 {
    const ODD: [u32; 23] = [
        0,
        1,
        2,
        3,
        4,
        255,
        256,
        257,
        511,
        512,
        513,
        2_047,
        2_048,
        2_049,
        65_535,
        65_536,
        65_537,
        131_071,
        131_072,
        0x7FFF_FFFF,
        0x8000_0000,
        u32::MAX - 1,
        u32::MAX,
    ];
    match random.below(6) {
        0 => was.wrapping_add(1),
        1 => was.wrapping_sub(1),
        2 => some_id,
        3 => some_id.wrapping_mul(2).wrapping_add(random.below(2) as u32),
        4 => random.bits() as u32,
        _ => random.pick(&ODD),
    }
}

fn odd_coordinate(random: &mut Random) -> f64 {
    let any = f64::from_bits(random.bits());
    let bound = 1_048_576.0f64;
    let above = f64::from_bits(bound.to_bits() + 1);
    random.pick(&[f64::NAN, f64::INFINITY, f64::NEG_INFINITY, bound, -bound, above, -above, 1e300, -0.0, 5e-324, any])
}

/// A place of an array, in one of two cases among those in use.
fn some_place(random: &mut Random, count: usize, size: usize) -> usize {
    let end = if random.one_in(2) { size } else { count.min(size) };
    random.below(end)
}

fn some_numbers<'a>(random: &mut Random, block: &'a mut Block) -> &'a mut [u32] {
    match random.below(8) {
        0 => &mut block.ids,
        1 => &mut block.kinds,
        2 => &mut block.starts,
        3 => &mut block.ends,
        4 => &mut block.bends,
        5 => &mut block.counts,
        6 => &mut block.cycles,
        _ => &mut block.steps,
    }
}

fn some_coordinates<'a>(random: &mut Random, block: &'a mut Block) -> &'a mut [f64] {
    match random.below(4) {
        0 => &mut block.px,
        1 => &mut block.py,
        2 => &mut block.bx,
        _ => &mut block.by,
    }
}

/// One number, a range of numbers, or a whole array: one odd number, 0, or numbers at random.
fn harm_numbers(random: &mut Random, block: &mut Block, range: bool) {
    let (count, some_id) = (block.count, block.ids[random.below(256)]);
    let numbers = some_numbers(random, block);
    let from = some_place(random, count, numbers.len());
    let odd = odd_number(random, some_id, numbers[from]);
    if !range {
        numbers[from] = odd;
        return;
    }
    let to = if random.one_in(4) { numbers.len() } else { from + random.below(numbers.len() - from) + 1 };
    let from = if random.one_in(4) { 0 } else { from };
    let how = random.below(3);
    for number in &mut numbers[from..to] {
        *number = [0, odd, random.bits() as u32][how];
    }
}

fn harm_coordinates(random: &mut Random, block: &mut Block, range: bool) {
    let count = block.count;
    let coordinates = some_coordinates(random, block);
    let from = some_place(random, count, coordinates.len());
    let to = if range { from + random.below(coordinates.len() - from) + 1 } else { from + 1 };
    for coordinate in &mut coordinates[from..to] {
        *coordinate = odd_coordinate(random);
    }
}

/// Two ids change places, or one is there twice.
fn harm_order(random: &mut Random, block: &mut Block) {
    let a = some_place(random, block.count, 256);
    let b = some_place(random, block.count, 256);
    if random.one_in(2) {
        block.ids.swap(a, b);
    } else {
        block.ids[a] = block.ids[b];
    }
}

/// Bits anywhere, or the whole block.
fn harm_bytes(random: &mut Random, block: &mut Block) {
    // SAFETY: a block takes any bytes, and those between its fields stay as they are or get new ones.
    let bytes = unsafe { std::slice::from_raw_parts_mut((block as *mut Block).cast::<u8>(), BLOCK_SIZE) };
    if random.one_in(16) {
        bytes.chunks_exact_mut(8).for_each(|word| word.copy_from_slice(&random.bits().to_le_bytes()));
    } else {
        for _ in 0..1 + random.below(3) {
            bytes[random.below(BLOCK_SIZE)] ^= 1 << random.below(8);
        }
    }
}

fn harm_count(random: &mut Random, block: &mut Block) {
    let (was, any, few) = (block.count, random.bits() as usize, random.below(256));
    let odd = [0, 255, 256, 257, 300, 65_536, usize::MAX, usize::MAX / 2 + 1, any, few];
    block.count = match random.below(6) {
        0 => was.wrapping_add(1),
        1 => was.wrapping_sub(1),
        _ => random.pick(&odd),
    };
}

/// Some damage; now and then the block is still sound after it.
pub fn harm(random: &mut Random, block: &mut Block) {
    match random.below(16) {
        0 => {
            let few = random.below(65_536) as u32;
            block.next = random.pick(&[0, 1, block.next.wrapping_sub(1), 65_535, 65_536, 65_537, u32::MAX, few]);
        }
        1 => harm_count(random, block),
        2 => harm_order(random, block),
        3 => harm_numbers(random, block, true),
        4 => harm_coordinates(random, block, true),
        5 => harm_bytes(random, block),
        6 => block.kinds[some_place(random, block.count, 256)] = random.below(9) as u32,
        7..=9 => harm_coordinates(random, block, false),
        _ => harm_numbers(random, block, false),
    }
}

//! Commands for a block, most of them good.

use dazolbei::raw::Block;

use crate::Random;

/// The longest script.
pub const SCRIPT_MOST: usize = 1024;

fn number(out: &mut Vec<u8>, mut value: u32) {
    while value >= 0x80 {
        out.push(value as u8 | 0x80);
        value >>= 7;
    }
    out.push(value as u8);
}

fn position(random: &mut Random, out: &mut Vec<u8>) {
    for _ in 0..2 {
        let x = if random.one_in(200) { 2e6 } else { random.below(2_000) as f64 - 1_000.0 };
        out.extend(x.to_le_bytes());
    }
}

fn bends(random: &mut Random, out: &mut Vec<u8>) {
    let count = random.below(4);
    number(out, count as u32);
    for _ in 0..count {
        position(random, out);
    }
}

/// A cell of a kind, if there is one.
fn some(random: &mut Random, block: &Block, kind: usize) -> u32 {
    let count = block.count.min(256);
    let from = random.below(count);
    let found = (0..count).map(|i| (from + i) % count).find(|&row| block.kinds[row] == kind as u32);
    found.map_or_else(|| random.below(70_000) as u32, |row| block.ids[row] & 0xF_FFFF)
}

/// Lone vertices, closed edges, and open edges forth and back.
fn cycles(random: &mut Random, block: &Block, out: &mut Vec<u8>) {
    let count = 1 + random.below(3);
    number(out, count as u32);
    for _ in 0..count {
        let times = 1 + random.below(4);
        match random.below(3) {
            0 => {
                number(out, 0);
                number(out, some(random, block, 0));
            }
            1 => {
                let step = 2 * some(random, block, 2) + random.below(2) as u32;
                number(out, times as u32);
                (0..times).for_each(|_| number(out, step));
            }
            _ => {
                let step = 2 * some(random, block, 1);
                number(out, 2 * times as u32);
                (0..2 * times as u32).for_each(|i| number(out, step + i % 2));
            }
        }
    }
}

/// Appends a command.
pub fn command(random: &mut Random, block: &Block, out: &mut Vec<u8>) {
    let kind = if block.count > 220 && random.one_in(3) { 6 } else { 1 + random.below(14) };
    let kind = if kind == 6 && block.count < 100 && !random.one_in(4) { 1 } else { kind };
    let kind = if random.one_in(40) { 15 } else { kind };
    out.push(if random.one_in(100) { random.bits() as u8 } else { kind as u8 });
    // The kinds of the cells that are named first.
    let cells: Vec<usize> = match kind {
        2 | 7 => vec![0, 0],
        5 => vec![0],
        6 => vec![random.below(4)],
        8 => vec![1 + random.below(2), 1 + random.below(2)],
        9 | 14 => vec![random.below(3)],
        10 => vec![1 + random.below(2)],
        11..=13 => vec![3],
        _ => vec![],
    };
    for cell in cells {
        number(out, some(random, block, cell));
    }
    match kind {
        1 | 5 | 11 => position(random, out),
        2 | 3 => bends(random, out),
        4 => cycles(random, block, out),
        8 => number(out, random.below(2) as u32),
        10 => number(out, random.below(4) as u32),
        12 => {
            for end in [2, 4, 2, 4] {
                number(out, random.below(end) as u32);
            }
            bends(random, out);
            number(out, 0);
        }
        13 => {
            bends(random, out);
            number(out, 0);
        }
        _ => {}
    }
}

/// A script of one to three commands, sometimes cut short.
pub fn script(random: &mut Random, block: &Block) -> Vec<u8> {
    let mut out = Vec::new();
    for _ in 0..1 + random.below(3) {
        command(random, block, &mut out);
    }
    if random.one_in(20) {
        out.truncate(random.below(out.len()));
    }
    out.truncate(SCRIPT_MOST);
    out
}

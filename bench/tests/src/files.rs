//! Files of sound drawings with other next ids, and damaged ones.

use std::collections::BTreeSet;

use plain::{file_of, put_number, Cycle, Drawing, Halfedge, Position, Shape, BOUND, END_OF_IDS};

use crate::random::Random;

/// The file with its next id so near the end that the ids soon run out; in half of the cases ids of cells are high too.
pub fn near_the_end(random: &mut Random, drawing: &Drawing) -> Vec<u8> {
    let far = [0, 1, 2, 5, 20, 60][random.below(6)] as u32;
    let drawing = if random.chance(50) { spread(random, drawing) } else { drawing.clone() };
    let next = (END_OF_IDS - far).max(drawing.next);
    file_of(&Drawing { next, ..drawing })
}

/// The drawing with other ids, rising with gaps: from 1 or from near the end on.
fn spread(random: &mut Random, drawing: &Drawing) -> Drawing {
    let least = [1, 65_000][random.below(2)];
    let mut ids = BTreeSet::new();
    while ids.len() < drawing.cells.len() {
        ids.insert(random.between(least, END_OF_IDS as usize - 1) as u32);
    }
    let ids: Vec<u32> = ids.into_iter().collect();
    let mut other = drawing.clone();
    other.rename(|id| drawing.row(id).map_or(0, |row| ids[row]));
    other.next = ids.last().map_or(1, |last| last + 1);
    other
}

/// The file of a drawing without cells whose next id is not 1.
pub fn bare(random: &mut Random) -> Vec<u8> {
    let next = [2, 127, 128, 500, END_OF_IDS - 1, END_OF_IDS][random.below(6)];
    file_of(&Drawing { next, cells: vec![] })
}

/// A file that is most often no sound drawing's.
pub fn damaged(random: &mut Random, drawing: &Drawing) -> Vec<u8> {
    if random.chance(50) {
        return file_of(&damaged_drawing(random, drawing));
    }
    let mut file = file_of(drawing);
    mutate(random, &mut file);
    file
}

/// Changes some bytes: one or a few changed, put in, taken out, cut off or added.
pub fn mutate(random: &mut Random, bytes: &mut Vec<u8>) {
    for _ in 0..random.between(1, 3) {
        let at = random.below(bytes.len());
        let byte = [0x00, 0x01, 0x7F, 0x80, 0xFF, random.bits() as u8][random.below(6)];
        match random.below(6) {
            0 | 1 if !bytes.is_empty() => bytes[at] = byte,
            2 if !bytes.is_empty() => bytes[at] ^= 1 << random.below(8),
            3 => bytes.insert(at, byte),
            4 if !bytes.is_empty() => drop(bytes.remove(at)),
            _ if random.chance(50) => bytes.truncate(at),
            _ => bytes.push(byte),
        }
    }
}

/// A drawing with one fault, each rule of soundness in turn.
fn damaged_drawing(random: &mut Random, drawing: &Drawing) -> Drawing {
    let mut bad = drawing.clone();
    if random.one_in(3) || bad.cells.is_empty() {
        damage_ids(random, &mut bad);
        return bad;
    }
    let rows = bad.cells.len();
    let some_id = bad.cells[random.below(rows)].id;
    let row = random.below(rows);
    match &mut bad.cells[row].shape {
        Shape::Vertex(position) => damage_position(random, position),
        Shape::Open { start, end, bends } => match random.below(4) {
            0 => *start = some_id,
            1 => *end = bad.next,
            2 => bends.push(Position { x: f64::NAN, y: 0.0 }),
            _ => bends.extend(vec![Position { x: 0.0, y: 0.0 }; 2_049]),
        },
        Shape::Closed { bends } => match random.below(3) {
            0 => bends.clear(),
            1 => damage_position(random, &mut bends[0]),
            _ => bends.extend(vec![Position { x: 0.0, y: 0.0 }; 2_049]),
        },
        Shape::Face { cycles } => damage_cycles(random, cycles, some_id),
    }
    bad
}

fn damage_ids(random: &mut Random, bad: &mut Drawing) {
    let last = bad.cells.last().map_or(0, |cell| cell.id);
    match random.below(6) {
        0 => bad.next = 0,
        1 => bad.next = last,
        2 => bad.next = [END_OF_IDS, END_OF_IDS + 1, 2_097_151][random.below(3)],
        3 if bad.cells.len() > 1 => bad.cells.swap(0, 1),
        4 if bad.cells.len() > 1 => bad.cells[1].id = bad.cells[0].id,
        _ => {
            let most = 257 - bad.cells.len() as u32;
            bad.cells.extend(
                (0..most).map(|i| plain::Cell { id: bad.next + i, shape: Shape::Vertex(Position { x: 0.0, y: 0.0 }) }),
            );
            bad.next += most;
        }
    }
}

fn damage_position(random: &mut Random, position: &mut Position) {
    let above = f64::from_bits(BOUND.to_bits() + 1);
    let bad = [above, -above, f64::NAN, f64::INFINITY][random.below(4)];
    if random.chance(50) {
        position.x = bad;
    } else {
        position.y = bad;
    }
}

fn damage_cycles(random: &mut Random, cycles: &mut Vec<Cycle>, id: u32) {
    let place = random.below(cycles.len());
    match cycles.get_mut(place) {
        None => cycles.push(Cycle::Lone(id)),
        Some(_) if random.one_in(8) => cycles.extend(vec![Cycle::Lone(id); 513]),
        Some(Cycle::Lone(vertex)) => *vertex = id,
        Some(Cycle::Path(path)) => {
            let at = random.below(path.len());
            match random.below(4) {
                0 => path[at] = path[at].turned(true),
                1 => path.insert(at, Halfedge::forward(id)),
                2 => path.clear(),
                _ => path.extend(path.clone().repeat(2_049 / path.len())),
            }
        }
    }
}

/// A file whose next id is spelled too long.
pub fn overlong(drawing: &Drawing) -> Vec<u8> {
    let file = file_of(drawing);
    let mut spelled = Vec::new();
    put_number(&mut spelled, drawing.next);
    let rest = &file[spelled.len()..];
    if let Some(last) = spelled.last_mut() {
        *last |= 0x80;
    }
    spelled.push(0x00);
    [&spelled, rest].concat()
}

//! Writes a command's fields, with faults where they are wanted.

use plain::{put_number, Cycle, Drawing, BOUND};

use crate::faults::Faults;
use crate::random::Random;

pub struct Pen<'a> {
    pub out: Vec<u8>,
    pub random: &'a mut Random,
    pub faults: Faults,
    drawing: &'a Drawing,
}

impl<'a> Pen<'a> {
    pub fn new(random: &'a mut Random, faults: Faults, drawing: &'a Drawing) -> Pen<'a> {
        Pen { out: Vec::new(), random, faults, drawing }
    }

    pub fn kind(&mut self, kind: u8) {
        if self.random.chance(self.faults.spelling) {
            let unknown = [0x00, 0x10, 0x11, 0x7F, 0x80 | kind, 0xFF];
            self.out.push(unknown[self.random.below(unknown.len())]);
        } else {
            self.out.push(kind);
        }
    }

    /// A number as it is meant, perhaps ill spelled.
    pub fn number(&mut self, value: u32) {
        if !self.random.chance(self.faults.spelling) {
            return put_number(&mut self.out, value);
        }
        match self.random.below(3) {
            0 => self.out.extend([value as u8 | 0x80, 0x00]),
            1 => self.out.extend([value as u8 | 0x80, 0x80, 0x00]),
            _ => self.out.extend([value as u8 | 0x80, 0xFF, 0xFF, 0x01]),
        }
    }

    /// An id, perhaps of a dead cell or of one of another kind.
    pub fn id(&mut self, id: u32) {
        let id = self.perhaps_wrong(id);
        self.number(id);
    }

    fn perhaps_wrong(&mut self, id: u32) -> u32 {
        if !self.random.chance(self.faults.ids) {
            return id;
        }
        let next = self.drawing.next;
        match self.random.below(7) {
            0 => 0,
            1 => next,
            2 => [65_535, 65_536, 2_097_151][self.random.below(3)],
            3 => self.random.below(next as usize) as u32,
            4 => (id + 1) % 65_536,
            _ => self.random.pick(&self.drawing.cells.iter().map(|cell| cell.id).collect::<Vec<_>>()).unwrap_or(1),
        }
    }

    /// A place, flag, cycle or corner, perhaps one that does not exist; `end` is the first that does not.
    pub fn place(&mut self, place: u32, end: u32) {
        let place = if self.random.chance(self.faults.places) {
            [end, end + 1, place + 1, 127, 128, 16_384, 2_097_151][self.random.below(7)]
        } else {
            place
        };
        self.number(place);
    }

    pub fn position(&mut self) {
        let (x, y) = (self.coordinate(), self.coordinate());
        self.out.extend(x.to_le_bytes());
        self.out.extend(y.to_le_bytes());
    }

    fn coordinate(&mut self) -> f64 {
        if self.random.chance(self.faults.bounds) {
            return self.bad_coordinate();
        }
        match self.random.below(10) {
            0 => [0.0, -0.0, BOUND, -BOUND][self.random.below(4)],
            1 => f64::from_bits(self.random.bits() & 0x800F_FFFF_FFFF_FFFF),
            2 => f64::from_bits(BOUND.to_bits() - 1 - self.random.below(3) as u64),
            3..=5 => self.random.between(0, 2_000) as f64 - 1_000.0,
            _ => (self.random.bits() >> 11) as f64 / (1u64 << 53) as f64 * 2.0 * BOUND - BOUND,
        }
    }

    fn bad_coordinate(&mut self) -> f64 {
        let above = f64::from_bits(BOUND.to_bits() + 1);
        let odd_nan = f64::from_bits(0xFFF0_0000_0000_0001 | self.random.bits() >> 13);
        [above, -above, f64::NAN, odd_nan, f64::INFINITY, f64::NEG_INFINITY, f64::MAX][self.random.below(7)]
    }

    /// A list of so many bends.
    pub fn bends(&mut self, count: usize) {
        self.number(count as u32);
        let faults = self.faults;
        // Of a long list few elements are wrong, so that later questions are met too.
        self.faults.bounds = faults.bounds / (1 + count / 4);
        for _ in 0..count {
            self.position();
        }
        self.faults = faults;
    }

    pub fn cycles(&mut self, cycles: &[Cycle]) {
        self.number(cycles.len() as u32);
        let faults = self.faults;
        let steps: usize = cycles.iter().map(Cycle::steps).sum();
        self.faults.ids = faults.ids / (1 + steps / 4);
        self.faults.spelling = faults.spelling / (1 + steps / 4);
        for cycle in cycles {
            self.cycle(cycle);
        }
        self.faults = faults;
    }

    fn cycle(&mut self, cycle: &Cycle) {
        match cycle {
            Cycle::Lone(vertex) => {
                self.number(0);
                self.id(*vertex);
            }
            Cycle::Path(path) => {
                self.number(path.len() as u32);
                for step in path {
                    let edge = self.perhaps_wrong(step.edge).min(1_048_575);
                    self.number(2 * edge + u32::from(step.backward));
                }
            }
        }
    }

    /// A list of moved cycles: as given, or spoiled by a repeated, absent or fallen one, or by `forbidden`.
    pub fn moved(&mut self, moved: &[u32], forbidden: u32, end: u32) {
        let mut list = moved.to_vec();
        if self.random.chance(self.faults.places) {
            match self.random.below(5) {
                0 => list.push(forbidden),
                1 => list.push(end),
                2 => list.extend_from_slice(moved),
                3 => list.reverse(),
                _ => list.insert(0, 2_097_151),
            }
        }
        self.number(list.len() as u32);
        for cycle in list {
            self.number(cycle);
        }
    }

    /// The command as written; with a fault in spelling perhaps cut short, or with a count past the end.
    pub fn finish(mut self) -> Vec<u8> {
        if self.random.chance(self.faults.spelling) && self.out.len() > 1 {
            let length = self.random.between(1, self.out.len() - 1);
            self.out.truncate(length);
        }
        self.out
    }
}

//! Numbers, positions and lists as bytes: a cursor that reads them, and functions that append them.

use crate::drawing::{Cycle, Halfedge, Position};

/// A cursor over bytes that are still to be read. `None` means ill spelled or too short.
pub struct Cursor<'a> {
    pub left: &'a [u8],
}

impl<'a> Cursor<'a> {
    pub fn new(bytes: &'a [u8]) -> Cursor<'a> {
        Cursor { left: bytes }
    }

    pub fn byte(&mut self) -> Option<u8> {
        let (&first, left) = self.left.split_first()?;
        self.left = left;
        Some(first)
    }

    /// Groups of seven bits, low group first, shortest form, at most three bytes.
    pub fn number(&mut self) -> Option<u32> {
        let mut value = 0;
        for group in 0..3 {
            let byte = self.byte()?;
            value |= u32::from(byte & 0x7F) << (7 * group);
            if byte < 0x80 {
                return if byte == 0 && group > 0 { None } else { Some(value) };
            }
        }
        None
    }

    fn coordinate(&mut self) -> Option<f64> {
        let (bytes, left) = self.left.split_first_chunk::<8>()?;
        self.left = left;
        Some(f64::from_le_bytes(*bytes))
    }

    pub fn position(&mut self) -> Option<Position> {
        Some(Position { x: self.coordinate()?, y: self.coordinate()? })
    }

    /// A count, then so many items of at least `least` bytes each.
    fn list<T>(&mut self, least: usize, mut item: impl FnMut(&mut Self) -> Option<T>) -> Option<Vec<T>> {
        let count = self.number()? as usize;
        if count * least > self.left.len() {
            return None;
        }
        let mut items = Vec::with_capacity(count);
        for _ in 0..count {
            items.push(item(self)?);
        }
        Some(items)
    }

    pub fn numbers(&mut self) -> Option<Vec<u32>> {
        self.list(1, Cursor::number)
    }

    pub fn bends(&mut self) -> Option<Vec<Position>> {
        self.list(16, Cursor::position)
    }

    pub fn cycles(&mut self) -> Option<Vec<Cycle>> {
        self.list(2, Cursor::cycle)
    }

    /// A length and its steps; length 0 is followed by a vertex.
    fn cycle(&mut self) -> Option<Cycle> {
        let path = self.list(1, Cursor::halfedge)?;
        if path.is_empty() {
            return Some(Cycle::Lone(self.number()?));
        }
        Some(Cycle::Path(path))
    }

    fn halfedge(&mut self) -> Option<Halfedge> {
        let step = self.number()?;
        Some(Halfedge { edge: step / 2, backward: step % 2 == 1 })
    }
}

/// Appends a number (up to 2,097,151) in its shortest form.
pub fn put_number(out: &mut Vec<u8>, mut value: u32) {
    while value >= 0x80 {
        out.push(value as u8 | 0x80);
        value >>= 7;
    }
    out.push(value as u8);
}

pub fn put_position(out: &mut Vec<u8>, position: Position) {
    out.extend_from_slice(&position.x.to_le_bytes());
    out.extend_from_slice(&position.y.to_le_bytes());
}

pub fn put_bends(out: &mut Vec<u8>, bends: &[Position]) {
    put_number(out, bends.len() as u32);
    for &bend in bends {
        put_position(out, bend);
    }
}

pub fn put_cycles(out: &mut Vec<u8>, cycles: &[Cycle]) {
    put_number(out, cycles.len() as u32);
    for cycle in cycles {
        put_cycle(out, cycle);
    }
}

fn put_cycle(out: &mut Vec<u8>, cycle: &Cycle) {
    match cycle {
        Cycle::Lone(vertex) => {
            put_number(out, 0);
            put_number(out, *vertex);
        }
        Cycle::Path(path) => {
            put_number(out, path.len() as u32);
            for step in path {
                put_number(out, 2 * step.edge + u32::from(step.backward));
            }
        }
    }
}

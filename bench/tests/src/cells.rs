//! Cells as they stand in a stored vector: in the form of a file, but with numbers of four bytes too, which no file has.

use plain::{Cell, Cycle, Drawing, Halfedge, Position, Shape};

/// The bytes that are still to be read.
struct Reader<'a>(&'a [u8]);

/// The next id and the cells that the bytes, all of them, spell.
pub fn read(bytes: &[u8]) -> Option<Drawing> {
    let mut reader = Reader(bytes);
    let next = reader.number()?;
    let cells = reader.list(|reader| Some(Cell { id: reader.number()?, shape: reader.shape()? }))?;
    reader.0.is_empty().then_some(Drawing { next, cells })
}

impl Reader<'_> {
    fn take<const N: usize>(&mut self) -> Option<[u8; N]> {
        let (taken, left) = self.0.split_first_chunk()?;
        self.0 = left;
        Some(*taken)
    }

    fn number(&mut self) -> Option<u32> {
        let [byte] = self.take()?;
        if byte < 0x80 {
            return Some(u32::from(byte));
        }
        let high = self.number()?;
        high.checked_mul(0x80).map(|high| high + u32::from(byte - 0x80))
    }

    fn list<T>(&mut self, mut item: impl FnMut(&mut Self) -> Option<T>) -> Option<Vec<T>> {
        (0..self.number()?).map(|_| item(self)).collect()
    }

    fn position(&mut self) -> Option<Position> {
        Some(Position { x: f64::from_le_bytes(self.take()?), y: f64::from_le_bytes(self.take()?) })
    }

    fn shape(&mut self) -> Option<Shape> {
        Some(match self.number()? {
            0 => Shape::Vertex(self.position()?),
            1 => Shape::Open { start: self.number()?, end: self.number()?, bends: self.list(Self::position)? },
            2 => Shape::Closed { bends: self.list(Self::position)? },
            3 => Shape::Face { cycles: self.list(Self::cycle)? },
            _ => return None,
        })
    }

    fn cycle(&mut self) -> Option<Cycle> {
        let path = self.list(|reader| {
            let step = reader.number()?;
            Some(Halfedge { edge: step / 2, backward: step % 2 == 1 })
        })?;
        Some(if path.is_empty() { Cycle::Lone(self.number()?) } else { Cycle::Path(path) })
    }
}

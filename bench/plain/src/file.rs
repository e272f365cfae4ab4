//! Files: the next id, the cell count, then each cell's id, kind and fields.

use crate::bytes::{put_bends, put_cycles, put_number, put_position, Cursor};
use crate::drawing::{Cell, Drawing, Shape};
use crate::pieces::pieces;
use crate::sound::{check, sound, Sizes, Verdict, CEILINGS};
use crate::Refusal;

/// Writes the file into the buffer's first places: number and count.
pub fn write(drawing: &Drawing, buffer: &mut [u8]) -> (u32, usize) {
    if sound(drawing).is_none() {
        return (Refusal::Unsound.number(), 0);
    }
    let file = file_of(drawing);
    if file.len() > buffer.len() {
        return (Refusal::Buffer.number(), file.len());
    }
    buffer[..file.len()].copy_from_slice(&file);
    (0, file.len())
}

/// The file of a sound drawing.
pub fn file_of(drawing: &Drawing) -> Vec<u8> {
    let mut out = Vec::new();
    put_number(&mut out, drawing.next);
    put_number(&mut out, drawing.cells.len() as u32);
    for cell in &drawing.cells {
        put_number(&mut out, cell.id);
        put_shape(&mut out, &cell.shape);
    }
    out
}

fn put_shape(out: &mut Vec<u8>, shape: &Shape) {
    match shape {
        Shape::Vertex(position) => {
            put_number(out, 0);
            put_position(out, *position);
        }
        Shape::Open { start, end, bends } => {
            put_number(out, 1);
            put_number(out, *start);
            put_number(out, *end);
            put_bends(out, bends);
        }
        Shape::Closed { bends } => {
            put_number(out, 2);
            put_bends(out, bends);
        }
        Shape::Face { cycles } => {
            put_number(out, 3);
            put_cycles(out, cycles);
        }
    }
}

/// The sound drawing that the bytes, all of them, are the file of.
pub fn read(bytes: &[u8]) -> Result<Drawing, Refusal> {
    let drawing = cells_of(bytes).ok_or(Refusal::File)?;
    if sound(&drawing).is_none() {
        return Err(Refusal::File);
    }
    Ok(drawing)
}

/// The next id and the cells that the bytes, all of them, are in the form of a file. They may be damaged.
pub fn cells_of(bytes: &[u8]) -> Option<Drawing> {
    let mut cursor = Cursor::new(bytes);
    let drawing = get_drawing(&mut cursor)?;
    cursor.left.is_empty().then_some(drawing)
}

/// The soundness test of cells in the form of a file; refused where there are none, or more than the ceilings.
pub fn check_file(bytes: &[u8]) -> Result<Verdict, Refusal> {
    let drawing = cells_of(bytes).ok_or(Refusal::File)?;
    let sizes = drawing.cells.iter().map(|cell| Sizes::of(&cell.shape)).fold(Sizes::default(), Sizes::plus);
    if !sizes.within(CEILINGS) {
        return Err(Refusal::File);
    }
    Ok(check(&drawing))
}

/// The pieces of a file's drawing: number and count.
pub fn pieces_file(bytes: &[u8]) -> (u32, u32) {
    match read(bytes) {
        Ok(drawing) => pieces(&drawing),
        Err(refusal) => (refusal.number(), 0),
    }
}

fn get_drawing(cursor: &mut Cursor) -> Option<Drawing> {
    let next = cursor.number()?;
    let count = cursor.number()?;
    let mut cells = Vec::new();
    for _ in 0..count {
        let id = cursor.number()?;
        let shape = get_shape(cursor)?;
        cells.push(Cell { id, shape });
    }
    Some(Drawing { next, cells })
}

fn get_shape(cursor: &mut Cursor) -> Option<Shape> {
    Some(match cursor.number()? {
        0 => Shape::Vertex(cursor.position()?),
        1 => Shape::Open { start: cursor.number()?, end: cursor.number()?, bends: cursor.bends()? },
        2 => Shape::Closed { bends: cursor.bends()? },
        3 => Shape::Face { cycles: cursor.cycles()? },
        _ => return None,
    })
}

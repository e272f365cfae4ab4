//! The calls that are timed, each on a drawing that it fits.

use plain::{put_bends, put_cycles, put_number, put_position, Drawing, Halfedge, Position, Shape, Sizes};

use crate::script::script;
use crate::sheets::{bends, sheet, Sheet, Size};

/// A call and the drawing it is made on.
pub struct Case {
    pub drawing: Drawing,
    pub call: Timed,
}

pub enum Timed {
    Command(Vec<u8>),
    Star(u32),
    Euler,
    Check,
    Pieces,
    Write,
    Read,
    Script(Vec<u8>),
    FileToFile(Vec<u8>),
}

/// The rows of one size alone: label, and the size's name.
pub const SINGLES: [(&str, &str); 2] = [("script from empty", "1000 commands"), ("file to file, one 05", "100 cells")];

/// The case of a row of one size.
pub fn single(place: usize) -> Case {
    if place == 0 {
        return Case { drawing: Drawing::empty(), call: Timed::Script(script(1_000)) };
    }
    let sheet = sheet(Size::Cells(100), Sizes::default());
    let command = with_position(bytes(0x05, &[sheet.vertex]));
    Case { drawing: sheet.drawing, call: Timed::FileToFile(command) }
}

/// The rows of the table.
#[derive(Clone, Copy, PartialEq, Eq, Debug)]
pub enum Row {
    Vertex,
    OpenEdge,
    ClosedEdge,
    Face,
    Move,
    Delete,
    GlueVertices,
    GlueEdges,
    UnglueEdge,
    UnglueVertex,
    CutEdge,
    CutFaceAtVertex,
    CutFaceAlongOpen,
    CutFaceAlongClosed,
    UncutVertex,
    UncutEdge,
    Renumber,
    Star,
    Euler,
    Check,
    Pieces,
    Write,
    Read,
}

pub const ROWS: [(Row, &str); 23] = [
    (Row::Vertex, "01 vertex"),
    (Row::OpenEdge, "02 open edge"),
    (Row::ClosedEdge, "03 closed edge"),
    (Row::Face, "04 face"),
    (Row::Move, "05 move"),
    (Row::Delete, "06 delete an edge"),
    (Row::GlueVertices, "07 glue vertices"),
    (Row::GlueEdges, "08 glue edges"),
    (Row::UnglueEdge, "09 unglue an edge"),
    (Row::UnglueVertex, "09 unglue a vertex"),
    (Row::CutEdge, "0A cut edge"),
    (Row::CutFaceAtVertex, "0B cut face at vertex"),
    (Row::CutFaceAlongOpen, "0C cut face, open edge"),
    (Row::CutFaceAlongClosed, "0D cut face, closed edge"),
    (Row::UncutVertex, "0E uncut a vertex"),
    (Row::UncutEdge, "0E uncut an edge"),
    (Row::Renumber, "0F renumber"),
    (Row::Star, "star"),
    (Row::Euler, "Euler"),
    (Row::Check, "check"),
    (Row::Pieces, "pieces"),
    (Row::Write, "write"),
    (Row::Read, "read"),
];

const SOMEWHERE: Position = Position { x: 0.25, y: 0.75 };

/// The case of a row at a size.
pub fn case(row: Row, size: Size) -> Case {
    let mut sheet = sheet(size, room(row, size));
    let call = match row {
        Row::Star => Timed::Star(sheet.vertex),
        Row::Euler => Timed::Euler,
        Row::Check => Timed::Check,
        Row::Pieces => Timed::Pieces,
        Row::Write => Timed::Write,
        Row::Read => Timed::Read,
        _ => Timed::Command(command(row, &mut sheet)),
    };
    Case { drawing: sheet.drawing, call }
}

/// What the command and its preparation add at most.
fn room(row: Row, size: Size) -> Sizes {
    let (cells, steps) = match row {
        Row::Vertex | Row::OpenEdge | Row::ClosedEdge | Row::GlueEdges | Row::UnglueEdge => (1, 0),
        Row::UnglueVertex => (2, 0),
        Row::CutFaceAtVertex => (1, 1),
        Row::CutFaceAlongOpen | Row::CutFaceAlongClosed | Row::UncutEdge => (2, 2),
        // Each use of the edge becomes two steps.
        Row::CutEdge => (2, if matches!(size, Size::Steps(_)) { 52 } else { 2 }),
        _ => (0, 0),
    };
    Sizes { cells, steps, ..Sizes::default() }
}

/// A command's bytes: the kind, then numbers.
fn bytes(kind: u8, numbers: &[u32]) -> Vec<u8> {
    let mut out = vec![kind];
    for &number in numbers {
        put_number(&mut out, number);
    }
    out
}

fn with_position(mut bytes: Vec<u8>) -> Vec<u8> {
    put_position(&mut bytes, SOMEWHERE);
    bytes
}

fn with_bends(mut bytes: Vec<u8>) -> Vec<u8> {
    put_bends(&mut bytes, &bends(2));
    bytes
}

/// The command of a row; some first prepare the sheet.
fn command(row: Row, sheet: &mut Sheet) -> Vec<u8> {
    match row {
        Row::Vertex => with_position(bytes(0x01, &[])),
        Row::OpenEdge => with_bends(bytes(0x02, &[sheet.vertex, sheet.far])),
        Row::ClosedEdge => with_bends(bytes(0x03, &[])),
        Row::Face => face_again(sheet),
        Row::Move => with_position(bytes(0x05, &[sheet.vertex])),
        Row::Delete => bytes(0x06, &[sheet.edge]),
        Row::GlueVertices => bytes(0x07, &[sheet.vertex, sheet.far]),
        Row::GlueEdges => {
            let beside = beside(sheet);
            bytes(0x08, &[beside, sheet.edge, 0])
        }
        Row::UnglueEdge => bytes(0x09, &[sheet.edge]),
        Row::UnglueVertex => {
            prepare(sheet, &with_bends(bytes(0x02, &[sheet.vertex, sheet.far])));
            bytes(0x09, &[sheet.vertex])
        }
        Row::CutEdge => bytes(0x0A, &[sheet.edge, 2]),
        Row::CutFaceAtVertex => with_position(bytes(0x0B, &[sheet.face])),
        Row::CutFaceAlongClosed => [with_bends(bytes(0x0D, &[sheet.face])), vec![0]].concat(),
        Row::UncutVertex => bytes(0x0E, &[sheet.vertex]),
        Row::UncutEdge => {
            let edge = sheet.drawing.next;
            prepare(sheet, &cut_across(sheet));
            bytes(0x0E, &[edge])
        }
        Row::Renumber => {
            raise(&mut sheet.drawing);
            bytes(0x0F, &[])
        }
        _ => cut_across(sheet),
    }
}

fn prepare(sheet: &mut Sheet, bytes: &[u8]) {
    let number = plain::edit(&mut sheet.drawing, bytes).number;
    assert_eq!(number, 0, "the preparation was refused");
}

/// Ids near the end with gaps between them.
fn raise(drawing: &mut Drawing) {
    let raised = |id| 60_000 + 20 * id;
    drawing.rename(raised);
    drawing.next = raised(drawing.next);
}

/// The face is taken out, and the command makes it again.
fn face_again(sheet: &mut Sheet) -> Vec<u8> {
    let row = sheet.drawing.row(sheet.face).expect("a face");
    let Shape::Face { cycles } = sheet.drawing.cells.remove(row).shape else { panic!("a face") };
    let mut out = vec![0x04];
    put_cycles(&mut out, &cycles);
    out
}

/// An edge beside the sheet's edge, with the same ends.
fn beside(sheet: &mut Sheet) -> u32 {
    let edge = sheet.drawing.next;
    let (start, end) = sheet.drawing.ends(Halfedge::forward(sheet.edge)).expect("an open edge");
    prepare(sheet, &with_bends(bytes(0x02, &[start, end])));
    edge
}

/// A cut from a corner of the face's cycle to the corner half round.
fn cut_across(sheet: &Sheet) -> Vec<u8> {
    let Some(Shape::Face { cycles }) = sheet.drawing.shape(sheet.face) else { panic!("a face") };
    let half = cycles[0].steps() as u32 / 2;
    [with_bends(bytes(0x0C, &[sheet.face, 0, 0, 0, half])), vec![0]].concat()
}

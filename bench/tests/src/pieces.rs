//! What note 3 of document 02 says of pieces: their number by the boundaries alone, and how far one command may move it.

use plain::{decode, Block, Command, Drawing, Shape, Verdict};

use cores::Line;

use crate::laws::boundary;

/// How many pieces there are: from each cell not yet reached, all that are linked with it are.
pub fn pieces(drawing: &Drawing) -> u32 {
    let linked = links(drawing);
    let mut reached = vec![false; linked.len()];
    let mut count = 0;
    for row in 0..linked.len() {
        let mut new = vec![row];
        count += u32::from(!reached[row]);
        while let Some(row) = new.pop() {
            if !reached[row] {
                reached[row] = true;
                new.extend(&linked[row]);
            }
        }
    }
    count
}

/// The rows that each row is linked with: those in its boundary, and those in whose boundary it is.
fn links(drawing: &Drawing) -> Vec<Vec<usize>> {
    let mut linked = vec![vec![]; drawing.cells.len()];
    for (row, cell) in drawing.cells.iter().enumerate() {
        for other in boundary(drawing, &cell.shape).into_iter().filter_map(|id| drawing.row(id)) {
            linked[row].push(other);
            linked[other].push(row);
        }
    }
    linked
}

/// Number and count that a block gets, given the verdict on it.
pub fn of_block(block: &Block, verdict: Verdict) -> (u32, u32) {
    match block.drawing() {
        Some(drawing) if verdict.sound => (0, pieces(&drawing)),
        _ => (1, 0),
    }
}

/// Number and count that bytes get.
pub fn of_file(bytes: &[u8]) -> (u32, u32) {
    plain::read(bytes).map_or((10, 0), |drawing| (0, pieces(&drawing)))
}

/// How far a command that is done moved the number of pieces, and how far it may.
#[derive(Clone, Copy, PartialEq, Eq, Debug)]
pub struct Shift {
    pub command: &'static str,
    pub by: i64,
    pub least: i64,
    pub most: i64,
}

/// The commands that are bounded, and whether their least and most differ.
pub const SHIFTS: [(&str, bool); 5] = [
    ("01 vertex", false),
    ("02 open edge", true),
    ("06 delete, face, no cycle", false),
    ("06 delete, face, one cycle", false),
    ("06 delete, face, more cycles", true),
];

impl Shift {
    /// Of a command whose shift is bounded.
    pub fn of(before: &Drawing, bytes: &[u8], line: Line, after: &Drawing) -> Option<Shift> {
        let (command, _) = decode(bytes).filter(|_| line.number == 0)?;
        let (place, least, most) = match command {
            Command::Vertex { .. } => (0, 1, 1),
            Command::OpenEdge { .. } => (1, -1, 0),
            Command::Delete { cell } => match before.shape(cell)? {
                Shape::Face { cycles } => match cycles.len() as i64 {
                    0 => (2, -1, -1),
                    1 => (3, 0, 0),
                    k => (4, 0, k - 1),
                },
                _ => return None,
            },
            _ => return None,
        };
        let by = i64::from(pieces(after)) - i64::from(pieces(before));
        Some(Shift { command: SHIFTS[place].0, by, least, most })
    }

    pub fn lawful(&self) -> bool {
        (self.least..=self.most).contains(&self.by)
    }
}

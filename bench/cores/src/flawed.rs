//! Cores with the flaws that document 01 hands in to try a check ("How the archive will try it"), with flaws of a renumbering,
//! of the soundness test's walk, and of the count of pieces.

mod pieces;
mod walks;

use std::time::Duration;

use plain::{Block, Cycle, Drawing, Verdict};

use crate::{Call, Core, Line, Ordinary};

#[derive(Clone, Copy, PartialEq, Eq, Debug)]
pub enum Flaw {
    /// Every command gets 6.
    AlwaysSix,
    /// Every command gets 0 and changes nothing.
    KeepsAndSaysDone,
    /// The first command is run rightly, the others are only answered.
    OnlyTheFirst,
    /// One answer for all.
    FixedAnswer,
    /// One more new id than there are.
    InventedNew,
    /// One more removed id than there are.
    InventedRemoved,
    /// Ceiling reached with places free.
    FullTooEarly,
    /// A renumbering leaves the next id as it was.
    OldNextId,
    /// A renumbering gives the ids from 0 on.
    IdsFromNought,
    /// A renumbering leaves lone vertices as they were.
    OldLoneVertices,
    /// A renumbering turns every step forward.
    LostDirections,
    /// A renumbering counts the ids that it changed as removed.
    RenamedIsRemoved,
    /// A renumbering takes a byte more than its own.
    TakesAField,
    /// A renumbering changes nothing.
    NothingRenumbered,
    /// A walk counts all cells on a no.
    AllCounted,
    /// A walk gives the place of the cell at fault, from 0 on, instead of the count.
    PlaceNotCount,
    /// A walk blames the earlier of two cells whose ids do not rise.
    EarlierBlamed,
    /// A walk takes the last cell that has a named id.
    LastLookedUp,
    /// A walk tests the totals behind the last cell.
    TotalsAtTheEnd,
    /// A walk tests whether ids are below the next id behind the last cell.
    NextIdAtTheEnd,
    /// A walk counts the cells that it looked up, too.
    LookedUpCounted,
    /// A walk looks at cells where the next id or their count is out of bounds.
    BoundsAtTheEnd,
    /// Only the ends of edges link: faces do not.
    FacesNotLinked,
    /// A face is linked with its first cycle alone: islands that it joins are not seen as one.
    FirstCycleLinked,
    /// Lone vertices are not linked with their face.
    LoneNotLinked,
    /// Closed edges are left out of the pieces.
    ClosedNotCounted,
    /// The empty drawing has one piece.
    OneWithoutCells,
    /// A count stands beside a refusal of the pieces.
    CountBesideANo,
    /// The vertices are counted instead of the pieces.
    VerticesCounted,
}

pub const FLAWS: [Flaw; 29] = [
    Flaw::AlwaysSix,
    Flaw::KeepsAndSaysDone,
    Flaw::OnlyTheFirst,
    Flaw::FixedAnswer,
    Flaw::InventedNew,
    Flaw::InventedRemoved,
    Flaw::FullTooEarly,
    Flaw::OldNextId,
    Flaw::IdsFromNought,
    Flaw::OldLoneVertices,
    Flaw::LostDirections,
    Flaw::RenamedIsRemoved,
    Flaw::TakesAField,
    Flaw::NothingRenumbered,
    Flaw::AllCounted,
    Flaw::PlaceNotCount,
    Flaw::EarlierBlamed,
    Flaw::LastLookedUp,
    Flaw::TotalsAtTheEnd,
    Flaw::NextIdAtTheEnd,
    Flaw::LookedUpCounted,
    Flaw::BoundsAtTheEnd,
    Flaw::FacesNotLinked,
    Flaw::FirstCycleLinked,
    Flaw::LoneNotLinked,
    Flaw::ClosedNotCounted,
    Flaw::OneWithoutCells,
    Flaw::CountBesideANo,
    Flaw::VerticesCounted,
];

pub struct Flawed {
    core: Ordinary,
    flaw: Flaw,
    runs: u32,
}

impl Flawed {
    pub fn new(flaw: Flaw) -> Flawed {
        Flawed { core: Ordinary::new(), flaw, runs: 0 }
    }

    fn falsified(&mut self, right: Line, before: Drawing) -> Line {
        let cells = before.cells.len();
        let mut line = right;
        match self.flaw {
            Flaw::AlwaysSix if right.number != 2 => {
                line = Line { number: 6, first: 0, new: 0, removed: 0, rest: right.rest };
                self.core.drawing = before;
            }
            Flaw::KeepsAndSaysDone if right.number != 2 => {
                line.number = 0;
                self.core.drawing = before;
            }
            Flaw::OnlyTheFirst if self.runs > 0 => self.core.drawing = before,
            Flaw::FixedAnswer if right.number != 2 => {
                line = Line { number: 0, first: 1, new: 1, removed: 0, rest: right.rest };
            }
            Flaw::InventedNew if right.number == 0 => line.new += 1,
            Flaw::InventedRemoved if right.number == 0 => line.removed += 1,
            Flaw::FullTooEarly if right.number == 0 && right.new > 0 && cells >= 250 => {
                line = Line { number: 8, first: 0, new: 0, removed: 0, rest: right.rest };
                self.core.drawing = before;
            }
            _ => {}
        }
        self.runs += 1;
        line
    }

    /// The same of a renumbering that is done.
    fn renumbered(&mut self, right: Line, before: Drawing) -> Line {
        let mut line = right;
        let drawing = &mut self.core.drawing;
        match self.flaw {
            Flaw::OldNextId => drawing.next = before.next,
            Flaw::IdsFromNought => {
                drawing.rename(|id| id - 1);
                drawing.next -= 1;
            }
            Flaw::OldLoneVertices => {
                for cycle in drawing.cycles_mut() {
                    let Cycle::Lone(vertex) = cycle else { continue };
                    *vertex = before.cells[*vertex as usize - 1].id;
                }
            }
            Flaw::LostDirections => {
                for cycle in drawing.cycles_mut() {
                    let Cycle::Path(path) = cycle else { continue };
                    path.iter_mut().for_each(|step| step.backward = false);
                }
            }
            Flaw::RenamedIsRemoved => {
                let pairs = before.cells.iter().zip(&drawing.cells);
                line.removed = pairs.filter(|(old, new)| old.id != new.id).count() as u32;
            }
            Flaw::TakesAField => line.rest = right.rest.saturating_sub(1),
            Flaw::NothingRenumbered => *drawing = before,
            _ => return self.falsified(right, before),
        }
        line
    }
}

impl Core for Flawed {
    fn name(&self) -> &'static str {
        "flawed"
    }

    fn open(&mut self, file: &[u8]) -> u32 {
        self.core.open(file)
    }

    fn run(&mut self, script: &[u8]) -> Vec<Line> {
        let (mut lines, mut left) = (Vec::new(), script);
        while !left.is_empty() {
            let before = self.core.drawing.clone();
            let right = self.core.step(left);
            let renumbers = right.number == 0 && left[0] == 0x0F;
            let line = if renumbers { self.renumbered(right, before) } else { self.falsified(right, before) };
            lines.push(line);
            if line.number == 1 || line.number == 2 {
                break;
            }
            left = &left[left.len() - line.rest..];
        }
        lines
    }

    fn star(&mut self, id: u32, buffer: &mut [u32]) -> (u32, usize) {
        self.core.star(id, buffer)
    }

    fn euler(&mut self) -> (u32, i64) {
        self.core.euler()
    }

    fn check(&mut self) -> Verdict {
        let right = self.core.check();
        walks::falsified(self.flaw, &Block::of(&self.core.drawing), right)
    }

    fn check_block(&mut self, block: &Block) -> Verdict {
        walks::falsified(self.flaw, block, self.core.check_block(block))
    }

    fn check_file(&mut self, bytes: &[u8]) -> Option<Verdict> {
        let right = self.core.check_file(bytes)?;
        plain::cells_of(bytes).map(|drawing| walks::falsified(self.flaw, &Block::of(&drawing), right))
    }

    fn pieces(&mut self) -> (u32, u32) {
        let drawing = &self.core.drawing;
        pieces::falsified(self.flaw, Some(drawing), plain::pieces(drawing))
    }

    fn pieces_block(&mut self, block: &Block) -> (u32, u32) {
        pieces::falsified(self.flaw, block.drawing().as_ref(), plain::pieces_block(block))
    }

    fn pieces_file(&mut self, bytes: &[u8]) -> (u32, u32) {
        pieces::falsified(self.flaw, plain::cells_of(bytes).as_ref(), plain::pieces_file(bytes))
    }

    fn file(&mut self, buffer: &mut [u8]) -> (u32, usize) {
        self.core.file(buffer)
    }

    fn time(&mut self, call: Call, rounds: usize) -> Duration {
        self.core.time(call, rounds)
    }
}

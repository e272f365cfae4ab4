//! Counts what was met: answers by kind and number, calls, verdicts by damage, how far the number of pieces was moved, and the
//! largest drawings.

use std::collections::BTreeMap;
use std::fmt;

use cores::Line;
use plain::{decode, Block, Command, Drawing, Shape, Sizes, Verdict};

use crate::damage::DAMAGES;
use crate::pieces::{Shift, SHIFTS};

#[derive(Default)]
pub struct Histogram {
    commands: BTreeMap<&'static str, [u64; 9]>,
    calls: BTreeMap<(&'static str, u32), u64>,
    /// By damage: sound, then by how many cells were visited, as in [`VERDICTS`].
    verdicts: BTreeMap<&'static str, [u64; 5]>,
    /// By command: how often the number of pieces was moved as in [`MOVED`].
    shifts: BTreeMap<&'static str, [u64; 3]>,
    most: Sizes,
    full: Sizes,
    highest_id: u32,
}

impl Histogram {
    /// Counts a command, given the drawing before it.
    pub fn command(&mut self, before: &Drawing, bytes: &[u8], line: Line) {
        let row = self.commands.entry(label(before, bytes, line)).or_default();
        row[line.number.min(8) as usize] += 1;
    }

    /// Counts another call.
    pub fn call(&mut self, name: &'static str, number: u32) {
        *self.calls.entry((name, number)).or_default() += 1;
    }

    /// Counts a verdict on a damaged block.
    pub fn verdict(&mut self, damage: &'static str, block: &Block, verdict: Verdict) {
        let column = match verdict.visited as usize {
            _ if verdict.sound => 0,
            0 => 1,
            1 => 2,
            visited if visited < block.count => 3,
            _ => 4,
        };
        self.verdicts.entry(damage).or_default()[column] += 1;
    }

    /// Counts how far a command moved the number of pieces.
    pub fn shift(&mut self, shift: Shift) {
        let column = match shift.by {
            by if by == shift.least => 0,
            by if by == shift.most => 2,
            _ => 1,
        };
        self.shifts.entry(shift.command).or_default()[column] += 1;
    }

    /// Notes a drawing's sizes.
    pub fn drawing(&mut self, drawing: &Drawing) {
        let Some(sizes) = plain::sound(drawing) else { return };
        let ceilings = plain::CEILINGS;
        let reached = |size: i64, ceiling: i64| i64::from(size == ceiling);
        self.full = self.full.plus(Sizes {
            cells: reached(sizes.cells, ceilings.cells),
            cycles: reached(sizes.cycles, ceilings.cycles),
            steps: reached(sizes.steps, ceilings.steps),
            bends: reached(sizes.bends, ceilings.bends),
        });
        self.most = Sizes {
            cells: self.most.cells.max(sizes.cells),
            cycles: self.most.cycles.max(sizes.cycles),
            steps: self.most.steps.max(sizes.steps),
            bends: self.most.bends.max(sizes.bends),
        };
        self.highest_id = self.highest_id.max(drawing.cells.last().map_or(0, |cell| cell.id));
    }

    pub fn total(&self) -> u64 {
        self.commands.values().flatten().sum()
    }

    /// Whether each kind was accepted, each of the questions 2 to 8 said no, so did the soundness test of each damage, and the
    /// number of pieces was moved as little and as much as it may be.
    pub fn complete(&self) -> bool {
        let harmed = |name| self.verdicts.get(name).is_some_and(|row| row[1..].iter().any(|&count| count > 0));
        let kinds = self.commands.iter().filter(|(name, _)| **name != UNREADABLE);
        let refused = (2..=8).all(|number| self.commands.values().any(|row| row[number] > 0));
        refused
            && DAMAGES.iter().all(|(name, _)| harmed(*name))
            && SHIFTS.iter().all(|(name, wide)| self.moved(name, *wide))
            && kinds.clone().all(|(name, row)| row[0] > 0 || name.ends_with('?'))
    }

    /// Whether a command moved the number of pieces by the least and, where it is another, by the most.
    fn moved(&self, name: &str, wide: bool) -> bool {
        self.shifts.get(name).is_some_and(|row| row[0] > 0 && (row[2] > 0 || !wide))
    }
}

/// What a shift is counted as; where least and most are the same, as the least.
const MOVED: [&str; 3] = ["least", "between", "most"];

/// What a verdict is counted as.
const VERDICTS: [&str; 5] = ["sound", "none", "first", "between", "last"];

const UNREADABLE: &str = "unreadable";

/// The command's kind, and its case where the kind has several; `?` where the case is not decided.
fn label(before: &Drawing, bytes: &[u8], line: Line) -> &'static str {
    let Some((command, _)) = decode(bytes) else { return UNREADABLE };
    let of = |id: u32, vertex, open, closed, other| match before.shape(id) {
        Some(Shape::Vertex(_)) => vertex,
        Some(Shape::Open { .. }) => open,
        Some(Shape::Closed { .. }) => closed,
        _ => other,
    };
    match command {
        Command::Vertex { .. } => "01 vertex",
        Command::OpenEdge { .. } => "02 open edge",
        Command::ClosedEdge { .. } => "03 closed edge",
        Command::Face { .. } => "04 face",
        Command::Move { .. } => "05 move",
        Command::Delete { .. } => "06 delete",
        Command::GlueVertices { .. } => "07 glue vertices",
        Command::GlueEdges { a, .. } => of(a, "08 ?", "08 glue edges, open", "08 glue edges, closed", "08 ?"),
        Command::Unglue { cell } => of(cell, "09 unglue, vertex", "09 unglue, open", "09 unglue, closed", "09 ?"),
        Command::CutEdge { edge, .. } => of(edge, "0A ?", "0A cut edge, open", "0A cut edge, closed", "0A ?"),
        Command::CutFaceAtVertex { .. } => "0B cut face at vertex",
        Command::CutFaceAlongOpen { moved, .. } => match (line.new, moved.len()) {
            (0, _) => "0C ?",
            (1, _) => "0C cut face, two cycles",
            (_, 0) => "0C cut face, one cycle",
            _ => "0C cut face, one cycle, moved",
        },
        Command::CutFaceAlongClosed { moved, .. } if moved.is_empty() => "0D cut face, closed",
        Command::CutFaceAlongClosed { .. } => "0D cut face, closed, moved",
        Command::Uncut { cell } => match (line.new, line.removed) {
            (1, 2) => "0E uncut, loop",
            (1, _) => "0E uncut, joint",
            (0, 2) => of(cell, "0E ?", "0E uncut, open, two faces", "0E uncut, closed", "0E ?"),
            (0, 1) => of(cell, "0E uncut, lone vertex", "0E uncut, open, one cycle", "0E ?", "0E ?"),
            _ => "0E ?",
        },
        Command::Renumber if before.cells.is_empty() => "0F renumber, no cell",
        Command::Renumber if numbered(before) => "0F renumber, again",
        Command::Renumber => "0F renumber",
    }
}

/// Whether a renumbering has nothing to change.
fn numbered(drawing: &Drawing) -> bool {
    let ids = drawing.cells.iter().map(|cell| cell.id);
    ids.eq(1..drawing.next)
}

impl Histogram {
    fn show_verdicts(&self, f: &mut fmt::Formatter) -> fmt::Result {
        write!(f, "\n\n{:<30}", "damage, by last cell visited")?;
        VERDICTS.iter().try_for_each(|verdict| write!(f, "{verdict:>9}"))?;
        for (name, row) in &self.verdicts {
            write!(f, "\n{name:<30}")?;
            row.iter().try_for_each(|count| write!(f, "{count:>9}"))?;
        }
        write!(f, "\n{:<30}", "all")?;
        let all = |column: usize| self.verdicts.values().map(|row| row[column]).sum::<u64>();
        (0..VERDICTS.len()).try_for_each(|column| write!(f, "{:>9}", all(column)))
    }

    fn show_shifts(&self, f: &mut fmt::Formatter) -> fmt::Result {
        write!(f, "\n\n{:<30}", "pieces moved, within bounds")?;
        MOVED.iter().try_for_each(|moved| write!(f, "{moved:>9}"))?;
        for (name, row) in &self.shifts {
            write!(f, "\n{name:<30}")?;
            row.iter().try_for_each(|count| write!(f, "{count:>9}"))?;
        }
        write!(f, "\n\n")
    }
}

impl fmt::Display for Histogram {
    fn fmt(&self, f: &mut fmt::Formatter) -> fmt::Result {
        write!(f, "{:<30}", "command, by number answered")?;
        (0..9).try_for_each(|number| write!(f, "{number:>9}"))?;
        writeln!(f)?;
        for (name, row) in &self.commands {
            write!(f, "{name:<30}")?;
            row.iter().try_for_each(|count| write!(f, "{count:>9}"))?;
            writeln!(f)?;
        }
        write!(f, "{:<30}", "all")?;
        for number in 0..9 {
            write!(f, "{:>9}", self.commands.values().map(|row| row[number]).sum::<u64>())?;
        }
        writeln!(f, "\n\n`?`: refused before the case was decided")?;
        write!(f, "other calls, by number:")?;
        self.calls.iter().try_for_each(|((name, number), count)| write!(f, "  {name} {number}: {count}"))?;
        self.show_verdicts(f)?;
        self.show_shifts(f)?;
        let (most, full) = (self.most, self.full);
        writeln!(
            f,
            "largest drawings: {} cells, {} cycles, {} steps, {} bends, id {}",
            most.cells, most.cycles, most.steps, most.bends, self.highest_id
        )?;
        writeln!(
            f,
            "scripts that ended with a ceiling reached: {} cells, {} cycles, {} steps, {} bends",
            full.cells, full.cycles, full.steps, full.bends
        )
    }
}

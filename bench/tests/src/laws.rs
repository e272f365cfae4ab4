//! What documents 01 and 02 say of every answer, asked by definitions of its own: refusals change nothing, ids are issued in
//! turn and again only after a renumbering, which renames and changes nothing else; Euler numbers follow the shares, deletes
//! take what rests on their target, stars are exact; the soundness test counts no cell, all cells, or some.

use std::collections::{BTreeMap, BTreeSet};

use cores::Line;
use plain::{decode, Block, Command, Cycle, Drawing, Halfedge, Shape, Verdict};

type Law = Result<(), String>;

fn hold(condition: bool, what: &str) -> Law {
    if condition {
        Ok(())
    } else {
        Err(what.to_string())
    }
}

/// The laws of one command.
pub fn command(before: &Drawing, bytes: &[u8], line: Line, after: &Drawing) -> Law {
    if line.number != 0 {
        hold((line.first, line.new, line.removed) == (0, 0, 0), "a refusal has counts")?;
        return hold(before == after, "a refusal changed the drawing");
    }
    let (command, rest) = decode(bytes).ok_or("done without a command")?;
    hold(rest.len() == line.rest, "the rest is wrong")?;
    match command {
        Command::Renumber => renumbered(before, line, after)?,
        _ => ids(before, line, after)?,
    }
    hold(euler(after) - euler(before) == share(before, &command, line, after), "the share is wrong")?;
    if let Command::Delete { cell } = command {
        hold(gone(before, after) == resting_on(before, cell), "a delete took other cells")?;
    }
    hold(plain::sound(after).is_some(), "the result is not sound")
}

/// New ids are the next ones in turn, and the counts are those of the drawings.
fn ids(before: &Drawing, line: Line, after: &Drawing) -> Law {
    let first = if line.new == 0 { 0 } else { before.next };
    hold(line.first == first && after.next == before.next + line.new, "ids are not issued in turn")?;
    let kept = live(before).difference(&gone(before, after)).copied().collect::<BTreeSet<u32>>();
    let expected = kept.into_iter().chain(before.next..after.next).collect::<BTreeSet<u32>>();
    hold(live(after) == expected, "live ids are neither kept nor new")?;
    hold(gone(before, after).len() == line.removed as usize, "the count of removed ids is wrong")
}

/// The cells have the ids 1 to n in their order, each is named by its new id wherever the old one stood, and nothing else
/// changed; the counts are 0, and the second time nothing changes.
fn renumbered(before: &Drawing, line: Line, after: &Drawing) -> Law {
    hold((line.first, line.new, line.removed) == (0, 0, 0), "a renumbering has counts")?;
    let count = before.cells.len() as u32;
    let new: BTreeMap<u32, u32> = before.cells.iter().map(|cell| cell.id).zip(1..=count).collect();
    hold(after.next == count + 1, "the next id is not n + 1")?;
    hold(after.cells.iter().map(|cell| cell.id).eq(1..=count), "the ids are not 1 to n")?;
    for (old, cell) in before.cells.iter().zip(&after.cells) {
        hold(renamed(&new, &old.shape) == Some(cell.shape.clone()), "a cell is more than renamed")?;
    }
    if let Some(cell) = before.cells.get(before.cells.len() / 2) {
        let renamed_star: Vec<u32> = star(before, cell.id).iter().map(|id| new[id]).collect();
        hold(star(after, new[&cell.id]) == renamed_star, "a star is more than renamed")?;
    }
    hold(plain::command(after, &[0x0F]).drawing == *after, "the second renumbering changes something")
}

/// The shape with every end, step and lone vertex under its new name.
fn renamed(new: &BTreeMap<u32, u32>, shape: &Shape) -> Option<Shape> {
    Some(match shape {
        Shape::Vertex(_) | Shape::Closed { .. } => shape.clone(),
        Shape::Open { start, end, bends } => {
            Shape::Open { start: *new.get(start)?, end: *new.get(end)?, bends: bends.clone() }
        }
        Shape::Face { cycles } => {
            Shape::Face { cycles: cycles.iter().map(|cycle| renamed_cycle(new, cycle)).collect::<Option<_>>()? }
        }
    })
}

fn renamed_cycle(new: &BTreeMap<u32, u32>, cycle: &Cycle) -> Option<Cycle> {
    Some(match cycle {
        Cycle::Lone(vertex) => Cycle::Lone(*new.get(vertex)?),
        Cycle::Path(path) => {
            let step = |step: &Halfedge| Some(Halfedge { edge: *new.get(&step.edge)?, backward: step.backward });
            Cycle::Path(path.iter().map(step).collect::<Option<_>>()?)
        }
    })
}

fn live(drawing: &Drawing) -> BTreeSet<u32> {
    drawing.cells.iter().map(|cell| cell.id).collect()
}

fn gone(before: &Drawing, after: &Drawing) -> BTreeSet<u32> {
    live(before).difference(&live(after)).copied().collect()
}

pub fn euler(drawing: &Drawing) -> i64 {
    drawing.cells.iter().map(|cell| cell_share(&cell.shape)).sum()
}

fn cell_share(shape: &Shape) -> i64 {
    match shape {
        Shape::Vertex(_) => 1,
        Shape::Open { .. } => -1,
        Shape::Closed { .. } => 0,
        Shape::Face { cycles } => 2 - cycles.len() as i64,
    }
}

/// A command's share, as document 01 lists it; a renumbering has 0.
fn share(before: &Drawing, command: &Command, line: Line, after: &Drawing) -> i64 {
    let new = i64::from(line.new);
    match command {
        Command::Vertex { .. } => 1,
        Command::OpenEdge { .. } | Command::GlueVertices { .. } => -1,
        Command::Face { cycles } => 2 - cycles.len() as i64,
        Command::Delete { .. } => {
            let removed = gone(before, after);
            -removed.iter().filter_map(|&id| before.shape(id)).map(cell_share).sum::<i64>()
        }
        Command::GlueEdges { a, .. } => i64::from(matches!(before.shape(*a), Some(Shape::Open { .. }))),
        Command::Unglue { cell } => match before.shape(*cell) {
            Some(Shape::Vertex(_)) => new,
            Some(Shape::Open { .. }) => -new,
            _ => 0,
        },
        _ => 0,
    }
}

/// An edge's ends; a face's lone vertices, its steps' edges and their ends.
pub fn boundary(drawing: &Drawing, shape: &Shape) -> BTreeSet<u32> {
    let mut held = BTreeSet::new();
    match shape {
        Shape::Vertex(_) | Shape::Closed { .. } => {}
        Shape::Open { start, end, .. } => held.extend([*start, *end]),
        Shape::Face { cycles } => cycles.iter().for_each(|cycle| cycle_boundary(drawing, cycle, &mut held)),
    }
    held
}

fn cycle_boundary(drawing: &Drawing, cycle: &Cycle, held: &mut BTreeSet<u32>) {
    match cycle {
        Cycle::Lone(vertex) => drop(held.insert(*vertex)),
        Cycle::Path(path) => {
            for &step in path {
                held.insert(step.edge);
                held.extend(drawing.ends(step).map_or(vec![], |(tail, head)| vec![tail, head]));
            }
        }
    }
}

/// The cell and all that rests on it, one step after another.
fn resting_on(drawing: &Drawing, cell: u32) -> BTreeSet<u32> {
    let mut taken = BTreeSet::from([cell]);
    loop {
        let holds = |shape: &Shape| !boundary(drawing, shape).is_disjoint(&taken);
        let more: Vec<u32> = drawing.cells.iter().filter(|cell| holds(&cell.shape)).map(|cell| cell.id).collect();
        let known = taken.len();
        taken.extend(more);
        if taken.len() == known {
            return taken;
        }
    }
}

/// The star of a live cell by the boundaries of all others.
pub fn star(drawing: &Drawing, id: u32) -> Vec<u32> {
    let holding = drawing.cells.iter().filter(|cell| boundary(drawing, &cell.shape).contains(&id));
    holding.map(|cell| cell.id).collect()
}

/// The soundness test of a block: no cell is visited where the next id or the count is out of bounds, and only there on a no;
/// all are on a yes. The walk over a drawing says the same, where one holds the cells as they stand.
pub fn verdict(block: &Block, verdict: Verdict) -> Law {
    let Verdict { sound, visited } = verdict;
    let bounded = (1..=65_536).contains(&block.next) && block.count <= 256;
    if bounded {
        let least = if sound { block.count } else { 1 };
        hold((least..=block.count).contains(&(visited as usize)), "the count of cells visited is wrong")?;
    } else {
        hold(verdict == Verdict { sound: false, visited: 0 }, "out of bounds, and not 0 visited")?;
    }
    match block.drawing() {
        Some(drawing) => hold(plain::check(&drawing) == verdict, "the walk over the drawing says otherwise"),
        None => hold(!sound, "sound without a drawing"),
    }
}

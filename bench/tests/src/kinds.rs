//! One writer for each kind of command. `None` means that the drawing has nothing the kind could take.

use plain::{Cycle, Drawing, Halfedge, Shape};

use crate::pen::Pen;
use crate::picks;

/// How long lists are.
#[derive(Clone, Copy, Debug)]
pub struct Style {
    pub bends: usize,
    pub cycles: usize,
    pub walk: usize,
    /// One list is to fill a ceiling, or to miss it by one.
    pub fill: Option<Fill>,
}

#[derive(Clone, Copy, Debug)]
pub enum Fill {
    Cycles(usize),
    Steps(usize),
    Bends(usize),
}

/// Writes a command of the kind that fits the drawing.
pub fn write(kind: u8, pen: &mut Pen, drawing: &Drawing, style: Style) -> Option<()> {
    pen.kind(kind);
    match kind {
        0x01 => pen.position(),
        0x02 => open_edge(pen, drawing, style)?,
        0x03 => closed_bends(pen, style),
        0x04 => face(pen, drawing, style),
        0x05 => {
            pen_cell(pen, drawing, picks::is_vertex)?;
            pen.position();
        }
        0x06 => pen_cell(pen, drawing, |_| true)?,
        0x07 => glue_vertices(pen, drawing)?,
        0x08 => glue_edges(pen, drawing)?,
        0x09 | 0x0E => apart(pen, drawing, kind)?,
        0x0A => cut_edge(pen, drawing)?,
        0x0B => {
            pen_cell(pen, drawing, picks::is_face)?;
            pen.position();
        }
        0x0C => cut_along_open(pen, drawing, style)?,
        0x0D => cut_along_closed(pen, drawing, style)?,
        _ => {}
    }
    Some(())
}

/// The id of some cell that fits.
fn pen_cell(pen: &mut Pen, drawing: &Drawing, fits: impl Fn(&Shape) -> bool) -> Option<()> {
    let id = picks::cell(pen.random, drawing, fits)?;
    pen.id(id);
    Some(())
}

/// Mostly few bends, seldom as many as the style allows.
fn count(pen: &mut Pen, style: Style) -> usize {
    if let Some(Fill::Bends(count)) = style.fill {
        return count;
    }
    if pen.random.one_in(3) {
        pen.random.between(0, style.bends)
    } else {
        pen.random.between(0, style.bends.min(3))
    }
}

fn open_bends(pen: &mut Pen, style: Style) {
    let count = count(pen, style);
    pen.bends(count);
}

fn closed_bends(pen: &mut Pen, style: Style) {
    let count = count(pen, style).max(1);
    let none = pen.random.chance(pen.faults.places);
    pen.bends(if none { 0 } else { count });
}

/// An edge between two vertices, or beside another edge so that the two can be glued.
fn open_edge(pen: &mut Pen, drawing: &Drawing, style: Style) -> Option<()> {
    let beside = picks::cell(pen.random, drawing, picks::is_open).filter(|_| pen.random.one_in(3));
    let (start, end) = match beside.and_then(|edge| drawing.ends(Halfedge::forward(edge))) {
        Some((start, end)) if pen.random.chance(50) => (end, start),
        Some(ends) => ends,
        None => {
            let any = |pen: &mut Pen| picks::cell(pen.random, drawing, picks::is_vertex);
            (any(pen)?, any(pen)?)
        }
    };
    pen.id(start);
    pen.id(end);
    open_bends(pen, style);
    Some(())
}

fn face(pen: &mut Pen, drawing: &Drawing, style: Style) {
    let count = pen.random.between(0, style.cycles);
    let walk = pen.random.between(1, style.walk);
    let mut cycles: Vec<Cycle> = match style.fill.and_then(|fill| filling(pen, drawing, fill)) {
        Some(cycles) => cycles,
        None => (0..count).filter_map(|_| picks::cycle(pen.random, drawing, walk)).collect(),
    };
    if pen.faults.rules > 0 {
        spoil(pen, drawing, &mut cycles);
    }
    pen.cycles(&cycles);
}

/// So many lone cycles, or one cycle of so many steps.
fn filling(pen: &mut Pen, drawing: &Drawing, fill: Fill) -> Option<Vec<Cycle>> {
    match fill {
        Fill::Cycles(count) => Some(vec![Cycle::Lone(picks::cell(pen.random, drawing, picks::is_vertex)?); count]),
        Fill::Steps(0) | Fill::Bends(_) => None,
        Fill::Steps(count) => {
            let step = Halfedge::forward(picks::cell(pen.random, drawing, picks::is_closed)?);
            Some(vec![Cycle::Path(vec![step; count])])
        }
    }
}

/// One step turned, dropped, doubled, or put in from another edge: most often the cycle joins no more.
fn spoil(pen: &mut Pen, drawing: &Drawing, cycles: &mut [Cycle]) {
    let place = pen.random.below(cycles.len());
    let Some(Cycle::Path(path)) = cycles.get_mut(place) else { return };
    let at = pen.random.below(path.len());
    match pen.random.below(4) {
        0 => path[at] = path[at].turned(true),
        1 if path.len() > 1 => drop(path.remove(at)),
        2 => path.insert(at, path[at]),
        _ => {
            let edge = picks::cell(pen.random, drawing, picks::is_edge).unwrap_or(1);
            path.insert(at, Halfedge { edge, backward: pen.random.chance(50) });
        }
    }
}

fn glue_vertices(pen: &mut Pen, drawing: &Drawing) -> Option<()> {
    let (a, b) = picks::pair(pen.random, drawing, picks::is_vertex)?;
    pen.id(a);
    pen.id(if pen.faults.rules > 0 { a } else { b });
    Some(())
}

fn glue_edges(pen: &mut Pen, drawing: &Drawing) -> Option<()> {
    let (a, b, flag) = if pen.faults.rules > 0 {
        let any = |pen: &mut Pen| picks::cell(pen.random, drawing, picks::is_edge);
        (any(pen)?, any(pen)?, pen.random.below(2) as u32)
    } else {
        picks::gluable(pen.random, drawing)?
    };
    pen.id(a);
    pen.id(b);
    pen.place(flag, 2);
    Some(())
}

/// Unglue and uncut: some cells are tried until the rule holds for one.
fn apart(pen: &mut Pen, drawing: &Drawing, kind: u8) -> Option<()> {
    let fits = [picks::is_vertex, picks::is_edge, picks::is_open, picks::is_closed][pen.random.below(4)];
    let mut id = picks::cell(pen.random, drawing, fits)?;
    for _ in 0..12 {
        if pen.faults.rules > 0 || rule_holds(drawing, kind, id) {
            break;
        }
        id = picks::cell(pen.random, drawing, fits)?;
    }
    pen.id(id);
    Some(())
}

fn rule_holds(drawing: &Drawing, kind: u8, id: u32) -> bool {
    let mut bytes = vec![kind];
    plain::put_number(&mut bytes, id);
    plain::command(drawing, &bytes).number != 6
}

fn cut_edge(pen: &mut Pen, drawing: &Drawing) -> Option<()> {
    let edge = picks::cell(pen.random, drawing, picks::is_edge)?;
    let end = match drawing.shape(edge)? {
        Shape::Open { bends, .. } => 2 * bends.len() + 1,
        Shape::Closed { bends } => 2 * bends.len(),
        _ => return None,
    };
    let place = pen.random.below(end) as u32;
    pen.id(edge);
    pen.place(place, end as u32);
    Some(())
}

fn cut_along_open(pen: &mut Pen, drawing: &Drawing, style: Style) -> Option<()> {
    // With a fault any face is taken: one without a corner gets 5 whatever follows.
    let face = if pen.faults.places > 0 && pen.random.one_in(4) {
        picks::cell(pen.random, drawing, picks::is_face)?
    } else {
        picks::face_with_corner(pen.random, drawing)?
    };
    let cycles = picks::cycles_of(drawing, face);
    let (c1, s1) = picks::corner(pen.random, drawing, face).unwrap_or((0, 0));
    let (mut c2, mut s2) = picks::corner(pen.random, drawing, face).unwrap_or((0, 0));
    if pen.random.chance(50) {
        c2 = c1;
        s2 = cycles.get(c1 as usize).map_or(0, |cycle| pen.random.below(picks::corners(drawing, cycle)) as u32);
    }
    // Where two cycles are joined nothing may be moved, however good the list is: with a fault it is the only one.
    let only_moved = c1 != c2 && pen.faults.places > 0 && pen.random.chance(50);
    if only_moved {
        pen.faults.places = 0;
    }
    let moved = if c1 == c2 || only_moved { picks::some_below(pen.random, cycles.len(), Some(c1)) } else { vec![] };
    let steps = |c: u32| cycles.get(c as usize).map_or(0, |cycle| cycle.steps() as u32);
    pen.id(face);
    pen.place(c1, cycles.len() as u32);
    pen.place(s1, steps(c1));
    pen.place(c2, cycles.len() as u32);
    pen.place(s2, steps(c2));
    open_bends(pen, style);
    pen.moved(&moved, c1, cycles.len() as u32);
    Some(())
}

fn cut_along_closed(pen: &mut Pen, drawing: &Drawing, style: Style) -> Option<()> {
    let face = picks::cell(pen.random, drawing, picks::is_face)?;
    let cycles = picks::cycles_of(drawing, face).len();
    let moved = picks::some_below(pen.random, cycles, None);
    pen.id(face);
    closed_bends(pen, style);
    pen.moved(&moved, cycles as u32, cycles as u32);
    Some(())
}

/// A command with a list beyond a ceiling.
pub fn giant(pen: &mut Pen, drawing: &Drawing) -> Option<()> {
    match pen.random.below(6) {
        0 => {
            pen.kind(0x02);
            pen_cell(pen, drawing, picks::is_vertex)?;
            pen_cell(pen, drawing, picks::is_vertex)?;
            pen.bends(2_049);
        }
        1 => {
            pen.kind(0x03);
            pen.bends(2_049);
        }
        2 => {
            pen.kind(0x0D);
            pen_cell(pen, drawing, picks::is_face)?;
            pen.bends(2_049);
            pen.moved(&[], 0, 0);
        }
        3 => {
            let lone = Cycle::Lone(picks::cell(pen.random, drawing, picks::is_vertex)?);
            let count = pen.random.between(500, 700);
            pen.kind(0x04);
            pen.cycles(&vec![lone; count]);
        }
        4 => {
            let edge = picks::cell(pen.random, drawing, picks::is_closed)?;
            let count = pen.random.between(2_040, 6_000);
            let mut path = vec![Halfedge::forward(edge); count];
            if pen.faults.rules > 0 {
                path[count - 1] = path[count - 1].turned(true);
            }
            pen.kind(0x04);
            pen.cycles(&[Cycle::Path(path)]);
        }
        _ => {
            let round = picks::walk(pen.random, drawing, 20)?;
            let mut path = round.repeat(2_500 / round.len());
            if pen.faults.rules > 0 {
                path.pop();
            }
            pen.kind(0x04);
            pen.cycles(&[Cycle::Path(path)]);
        }
    }
    Some(())
}

//! Cells and drawings, as plain data: any value can be made, sound or damaged.

/// A point of the plane. Equal means equal bit for bit.
#[derive(Clone, Copy, Debug)]
pub struct Position {
    pub x: f64,
    pub y: f64,
}

impl Position {
    /// Halfway: each operation rounds once.
    pub fn midpoint(self, other: Position) -> Position {
        Position { x: (self.x + other.x) * 0.5, y: (self.y + other.y) * 0.5 }
    }

    fn bits(self) -> (u64, u64) {
        (self.x.to_bits(), self.y.to_bits())
    }
}

impl PartialEq for Position {
    fn eq(&self, other: &Position) -> bool {
        self.bits() == other.bits()
    }
}

impl Eq for Position {}

/// A step: an edge passed forward or backward.
#[derive(Clone, Copy, PartialEq, Eq, Debug)]
pub struct Halfedge {
    pub edge: u32,
    pub backward: bool,
}

impl Halfedge {
    pub fn forward(edge: u32) -> Halfedge {
        Halfedge { edge, backward: false }
    }

    pub fn backward(edge: u32) -> Halfedge {
        Halfedge { edge, backward: true }
    }

    /// The other direction where `turned` is set.
    pub fn turned(self, turned: bool) -> Halfedge {
        Halfedge { edge: self.edge, backward: self.backward != turned }
    }
}

/// A cycle of a face: a vertex alone, or a closed walk.
#[derive(Clone, PartialEq, Eq, Debug)]
pub enum Cycle {
    Lone(u32),
    Path(Vec<Halfedge>),
}

impl Cycle {
    /// How many steps the cycle counts for: a lone vertex counts as one.
    pub fn steps(&self) -> usize {
        match self {
            Cycle::Lone(_) => 1,
            Cycle::Path(path) => path.len(),
        }
    }

    /// The walk; a lone vertex has an empty one.
    pub fn path(&self) -> &[Halfedge] {
        match self {
            Cycle::Lone(_) => &[],
            Cycle::Path(path) => path,
        }
    }

    /// Names the cells by other ids.
    fn rename(&mut self, new: impl Fn(u32) -> u32) {
        match self {
            Cycle::Lone(vertex) => *vertex = new(*vertex),
            Cycle::Path(path) => path.iter_mut().for_each(|step| step.edge = new(step.edge)),
        }
    }
}

/// What a cell is.
#[derive(Clone, PartialEq, Eq, Debug)]
pub enum Shape {
    Vertex(Position),
    Open { start: u32, end: u32, bends: Vec<Position> },
    Closed { bends: Vec<Position> },
    Face { cycles: Vec<Cycle> },
}

impl Shape {
    /// Where an open edge that is passed forward or backward begins and ends.
    pub fn ends(&self, backward: bool) -> Option<(u32, u32)> {
        match *self {
            Shape::Open { start, end, .. } if backward => Some((end, start)),
            Shape::Open { start, end, .. } => Some((start, end)),
            _ => None,
        }
    }
}

#[derive(Clone, PartialEq, Eq, Debug)]
pub struct Cell {
    pub id: u32,
    pub shape: Shape,
}

/// A drawing: the next id, and the live cells by rising id.
#[derive(Clone, PartialEq, Eq, Debug)]
pub struct Drawing {
    pub next: u32,
    pub cells: Vec<Cell>,
}

impl Drawing {
    /// No cell, next id 1.
    pub fn empty() -> Drawing {
        Drawing { next: 1, cells: Vec::new() }
    }

    /// Where a live cell stands in `cells`.
    pub fn row(&self, id: u32) -> Option<usize> {
        self.cells.binary_search_by_key(&id, |cell| cell.id).ok()
    }

    pub fn shape(&self, id: u32) -> Option<&Shape> {
        self.row(id).map(|row| &self.cells[row].shape)
    }

    pub fn is_vertex(&self, id: u32) -> bool {
        matches!(self.shape(id), Some(Shape::Vertex(_)))
    }

    pub fn is_edge(&self, id: u32) -> bool {
        matches!(self.shape(id), Some(Shape::Open { .. } | Shape::Closed { .. }))
    }

    /// Where a step of an open edge begins and ends.
    pub fn ends(&self, step: Halfedge) -> Option<(u32, u32)> {
        self.shape(step.edge)?.ends(step.backward)
    }

    /// Gives every cell another id, here and wherever it is named. The next id stays.
    pub fn rename(&mut self, new: impl Fn(u32) -> u32) {
        for cell in &mut self.cells {
            cell.id = new(cell.id);
            match &mut cell.shape {
                Shape::Vertex(_) | Shape::Closed { .. } => {}
                Shape::Open { start, end, .. } => (*start, *end) = (new(*start), new(*end)),
                Shape::Face { cycles } => cycles.iter_mut().for_each(|cycle| cycle.rename(&new)),
            }
        }
    }

    /// The faces with their ids and cycles, by rising id.
    pub fn faces(&self) -> impl Iterator<Item = (u32, &Vec<Cycle>)> {
        self.cells.iter().filter_map(|cell| match &cell.shape {
            Shape::Face { cycles } => Some((cell.id, cycles)),
            _ => None,
        })
    }

    /// The cycles of every face, to change.
    pub fn cycles_mut(&mut self) -> impl Iterator<Item = &mut Cycle> {
        let faces = self.cells.iter_mut().filter_map(|cell| match &mut cell.shape {
            Shape::Face { cycles } => Some(cycles),
            _ => None,
        });
        faces.flatten()
    }
}

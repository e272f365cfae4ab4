//! The drawings that calls are timed on: a strip of squares with so many cells, or a ring that one face goes round
//! until its cycle has so many steps.

use plain::{Cell, Cycle, Drawing, Halfedge, Position, Shape, Sizes};

/// What a drawing is measured by.
#[derive(Clone, Copy, PartialEq, Eq, Debug)]
pub enum Size {
    Cells(usize),
    Steps(usize),
}

pub const SIZES: [Size; 5] = [Size::Cells(16), Size::Cells(64), Size::Cells(256), Size::Steps(600), Size::Steps(2_048)];

impl Size {
    pub fn name(self) -> String {
        match self {
            Size::Cells(count) => format!("{count} cells"),
            Size::Steps(count) => format!("{count} steps"),
        }
    }
}

/// A drawing, and the cells in it that commands are tried on.
pub struct Sheet {
    pub drawing: Drawing,
    /// A vertex where two edges end.
    pub vertex: u32,
    /// A vertex that is no neighbour of it.
    pub far: u32,
    /// An open edge that cycles pass at least twice.
    pub edge: u32,
    pub face: u32,
}

/// A sheet of the size, less the room that a command needs to stay within it.
pub fn sheet(size: Size, room: Sizes) -> Sheet {
    match size {
        Size::Cells(count) => strip(count - room.cells as usize),
        Size::Steps(count) => ring(count - room.steps as usize),
    }
}

/// Bends of each edge.
const BENDS: usize = 2;

struct Builder {
    drawing: Drawing,
}

impl Builder {
    fn new() -> Builder {
        Builder { drawing: Drawing::empty() }
    }

    fn add(&mut self, shape: Shape) -> u32 {
        let id = self.drawing.next;
        self.drawing.cells.push(Cell { id, shape });
        self.drawing.next += 1;
        id
    }

    fn vertex(&mut self, x: f64, y: f64) -> u32 {
        self.add(Shape::Vertex(Position { x, y }))
    }

    fn open(&mut self, start: u32, end: u32) -> u32 {
        self.add(Shape::Open { start, end, bends: bends(BENDS) })
    }

    fn face(&mut self, path: Vec<Halfedge>) -> u32 {
        self.add(Shape::Face { cycles: vec![Cycle::Path(path)] })
    }
}

pub fn bends(count: usize) -> Vec<Position> {
    (0..count).map(|i| Position { x: 0.1 + i as f64, y: 0.7 * i as f64 }).collect()
}

/// A row of squares side by side, each a face, and vertices alone for the rest: `cells` in all.
fn strip(cells: usize) -> Sheet {
    let squares = (cells - 3) / 6;
    let mut b = Builder::new();
    let corners = |y| move |b: &mut Builder, x| b.vertex(x as f64, y);
    let low: Vec<u32> = (0..=squares).map(|x| corners(0.0)(&mut b, x)).collect();
    let high: Vec<u32> = (0..=squares).map(|x| corners(1.0)(&mut b, x)).collect();
    let along = |b: &mut Builder, row: &[u32]| row.windows(2).map(|w| b.open(w[0], w[1])).collect::<Vec<u32>>();
    let bottom = along(&mut b, &low);
    let top = along(&mut b, &high);
    let upright: Vec<u32> = (0..=squares).map(|x| b.open(low[x], high[x])).collect();
    let mut face = 0;
    for x in 0..squares {
        face = b.face(vec![
            Halfedge::forward(bottom[x]),
            Halfedge::forward(upright[x + 1]),
            Halfedge::backward(top[x]),
            Halfedge::backward(upright[x]),
        ]);
    }
    while b.drawing.cells.len() < cells {
        b.vertex(0.5, 2.0);
    }
    let edge = upright[squares / 2];
    Sheet { drawing: b.drawing, vertex: low[0], far: high[squares], edge, face }
}

/// Edges in the ring.
const RING: usize = 40;

/// A ring of edges, and a face whose one cycle goes round it; a closed edge passed over and over makes up what is
/// left to `steps`.
fn ring(steps: usize) -> Sheet {
    let mut b = Builder::new();
    let vertices: Vec<u32> = (0..RING).map(|i| b.vertex(i as f64, 1.0)).collect();
    let edges: Vec<u32> = (0..RING).map(|i| b.open(vertices[i], vertices[(i + 1) % RING])).collect();
    let round: Vec<Halfedge> = edges.iter().map(|&edge| Halfedge::forward(edge)).collect();
    let face = b.face(round.repeat(steps / RING));
    let closed = b.add(Shape::Closed { bends: bends(BENDS) });
    if !steps.is_multiple_of(RING) {
        b.face(vec![Halfedge::forward(closed); steps % RING]);
    }
    Sheet { drawing: b.drawing, vertex: vertices[0], far: vertices[RING / 2], edge: edges[RING / 4], face }
}

//! A drawing in arrays of numbers, as `bindings/c/dazolbei.h` describes it (`dz_sheet`): any contents can be held, also counts
//! that run past the arrays.

use crate::drawing::{Cell, Cycle, Drawing, Halfedge, Position, Shape};

/// The first `count` places of `ids` to `py` are the cells. `cycles`, `steps`, `bx` and `by` hold the lists of all cells, one
/// cell after another.
#[derive(Clone)]
pub struct Block {
    pub next: u32,
    pub count: usize,
    pub ids: [u32; 256],
    /// 0 a vertex, 1 an open edge, 2 a closed edge, 3 a face.
    pub kinds: [u32; 256],
    /// The ends of an open edge; 0 for the other kinds.
    pub starts: [u32; 256],
    pub ends: [u32; 256],
    /// How many bends an edge has; 0 for the other kinds.
    pub bends: [u32; 256],
    /// How many cycles a face has; 0 for the other kinds.
    pub counts: [u32; 256],
    /// Where a vertex is; not read for the other kinds.
    pub px: [f64; 256],
    pub py: [f64; 256],
    /// How many steps a cycle has; 0 is a vertex alone.
    pub cycles: [u32; 512],
    /// Twice the edge, and one more if it is passed backward; or the vertex alone.
    pub steps: [u32; 2048],
    pub bx: [f64; 2048],
    pub by: [f64; 2048],
}

/// How many places of the lists are taken.
#[derive(Clone, Copy, Default)]
struct Taken {
    cycles: usize,
    steps: usize,
    bends: usize,
}

impl Block {
    /// No cell, next id 1, and 0 in every other place.
    pub const EMPTY: Block = Block {
        next: 1,
        count: 0,
        ids: [0; 256],
        kinds: [0; 256],
        starts: [0; 256],
        ends: [0; 256],
        bends: [0; 256],
        counts: [0; 256],
        px: [0.0; 256],
        py: [0.0; 256],
        cycles: [0; 512],
        steps: [0; 2048],
        bx: [0.0; 2048],
        by: [0.0; 2048],
    };

    /// The cells of any drawing as they stand. What finds no place in an array is left out; the counts say that it was there.
    pub fn of(drawing: &Drawing) -> Box<Block> {
        let mut block = Box::new(Block::EMPTY);
        (block.next, block.count) = (drawing.next, drawing.cells.len());
        let mut taken = Taken::default();
        for (row, cell) in drawing.cells.iter().take(block.ids.len()).enumerate() {
            block.ids[row] = cell.id;
            block.put(row, &cell.shape, &mut taken);
        }
        block
    }

    fn put(&mut self, row: usize, shape: &Shape, taken: &mut Taken) {
        match shape {
            Shape::Vertex(at) => (self.px[row], self.py[row]) = (at.x, at.y),
            Shape::Open { start, end, bends } => {
                self.kinds[row] = 1;
                (self.starts[row], self.ends[row]) = (*start, *end);
                self.put_bends(row, bends, taken);
            }
            Shape::Closed { bends } => {
                self.kinds[row] = 2;
                self.put_bends(row, bends, taken);
            }
            Shape::Face { cycles } => {
                self.kinds[row] = 3;
                self.counts[row] = cycles.len() as u32;
                cycles.iter().for_each(|cycle| self.put_cycle(cycle, taken));
            }
        }
    }

    fn put_bends(&mut self, row: usize, bends: &[Position], taken: &mut Taken) {
        self.bends[row] = bends.len() as u32;
        for bend in bends {
            place(&mut self.bx, taken.bends, bend.x);
            place(&mut self.by, taken.bends, bend.y);
            taken.bends += 1;
        }
    }

    fn put_cycle(&mut self, cycle: &Cycle, taken: &mut Taken) {
        place(&mut self.cycles, taken.cycles, cycle.path().len() as u32);
        taken.cycles += 1;
        let steps = match cycle {
            Cycle::Lone(vertex) => vec![*vertex],
            Cycle::Path(path) => path.iter().map(|step| 2 * step.edge + u32::from(step.backward)).collect(),
        };
        for step in steps {
            place(&mut self.steps, taken.steps, step);
            taken.steps += 1;
        }
    }

    /// The cells as they stand, if the counts keep within the arrays and no cell has a number that its kind does not use.
    pub fn drawing(&self) -> Option<Drawing> {
        if self.count > self.ids.len() {
            return None;
        }
        let mut taken = Taken::default();
        let cells = (0..self.count).map(|row| Some(Cell { id: self.ids[row], shape: self.shape(row, &mut taken)? }));
        Some(Drawing { next: self.next, cells: cells.collect::<Option<_>>()? })
    }

    fn shape(&self, row: usize, taken: &mut Taken) -> Option<Shape> {
        let (start, end) = (self.starts[row], self.ends[row]);
        match (self.kinds[row], (start, end), self.bends[row], self.counts[row]) {
            (0, (0, 0), 0, 0) => Some(Shape::Vertex(Position { x: self.px[row], y: self.py[row] })),
            (1, _, bends, 0) => Some(Shape::Open { start, end, bends: self.bends_of(bends, taken)? }),
            (2, (0, 0), bends, 0) => Some(Shape::Closed { bends: self.bends_of(bends, taken)? }),
            (3, (0, 0), 0, cycles) => {
                let cycles = (0..cycles).map(|_| self.cycle(taken)).collect::<Option<_>>()?;
                Some(Shape::Face { cycles })
            }
            _ => None,
        }
    }

    fn bends_of(&self, count: u32, taken: &mut Taken) -> Option<Vec<Position>> {
        let places = taken.bends..taken.bends + count as usize;
        taken.bends = places.end;
        let (xs, ys) = (self.bx.get(places.clone())?, self.by.get(places)?);
        Some(xs.iter().zip(ys).map(|(&x, &y)| Position { x, y }).collect())
    }

    fn cycle(&self, taken: &mut Taken) -> Option<Cycle> {
        let length = *self.cycles.get(taken.cycles)?;
        taken.cycles += 1;
        let places = taken.steps..taken.steps + length.max(1) as usize;
        taken.steps = places.end;
        let steps = self.steps.get(places)?;
        if length == 0 {
            return Some(Cycle::Lone(steps[0]));
        }
        Some(Cycle::Path(steps.iter().map(|step| Halfedge { edge: step / 2, backward: step % 2 == 1 }).collect()))
    }
}

fn place<T>(array: &mut [T], place: usize, value: T) {
    if let Some(here) = array.get_mut(place) {
        *here = value;
    }
}

//! The ordinary core, `plain`.

use std::hint::black_box;
use std::time::{Duration, Instant};

use plain::{Block, Drawing, Outcome, Verdict};

use crate::{Call, Core, Line, LONGEST_FILE};

pub struct Ordinary {
    pub drawing: Drawing,
}

impl Ordinary {
    pub fn new() -> Ordinary {
        Ordinary { drawing: Drawing::empty() }
    }

    /// Runs one command in place.
    pub fn step(&mut self, bytes: &[u8]) -> Line {
        let rest = plain::rest(&self.drawing, bytes).len();
        let Outcome { number, first, new, removed } = plain::edit(&mut self.drawing, bytes);
        Line { number, first, new, removed, rest }
    }

    /// A copy with places free, as a drawing has that grew by commands.
    fn roomy_copy(&self) -> Drawing {
        let mut copy = self.drawing.clone();
        copy.cells.reserve(8);
        copy
    }

    /// Commands change the drawing in place, so each gets a copy that was made, and read once, before the clock started.
    fn time_commands(&self, bytes: &[u8], rounds: usize) -> Duration {
        let mut copies: Vec<Drawing> = (0..rounds).map(|_| self.roomy_copy()).collect();
        for copy in &copies {
            black_box(plain::euler(black_box(copy)));
        }
        let start = Instant::now();
        for copy in &mut copies {
            black_box(plain::edit(black_box(copy), black_box(bytes)));
        }
        start.elapsed()
    }
}

/// Reads the file, runs the script and writes the file at the end.
fn file_to_file(file: &[u8], script: &[u8], out: &mut [u8]) -> (u32, usize) {
    match plain::read(file) {
        Ok(mut drawing) => {
            black_box(plain::run(&mut drawing, script));
            plain::write(&drawing, out)
        }
        Err(refusal) => (refusal.number(), 0),
    }
}

impl Default for Ordinary {
    fn default() -> Ordinary {
        Ordinary::new()
    }
}

impl Core for Ordinary {
    fn name(&self) -> &'static str {
        "plain"
    }

    fn open(&mut self, file: &[u8]) -> u32 {
        match plain::read(file) {
            Ok(drawing) => {
                self.drawing = drawing;
                0
            }
            Err(refusal) => {
                self.drawing = Drawing::empty();
                refusal.number()
            }
        }
    }

    fn run(&mut self, script: &[u8]) -> Vec<Line> {
        let mut left = script;
        let outcomes = plain::run(&mut self.drawing, script);
        let lines = outcomes.iter().map(|&Outcome { number, first, new, removed }| {
            left = plain::decode(left).map_or(left, |(_, rest)| rest);
            Line { number, first, new, removed, rest: left.len() }
        });
        lines.collect()
    }

    fn star(&mut self, id: u32, buffer: &mut [u32]) -> (u32, usize) {
        plain::star(&self.drawing, id, buffer)
    }

    fn euler(&mut self) -> (u32, i64) {
        plain::euler(&self.drawing)
    }

    fn check(&mut self) -> Verdict {
        plain::check(&self.drawing)
    }

    fn check_block(&mut self, block: &Block) -> Verdict {
        plain::check_block(block)
    }

    fn check_file(&mut self, bytes: &[u8]) -> Option<Verdict> {
        plain::check_file(bytes).ok()
    }

    fn pieces(&mut self) -> (u32, u32) {
        plain::pieces(&self.drawing)
    }

    fn pieces_block(&mut self, block: &Block) -> (u32, u32) {
        plain::pieces_block(block)
    }

    fn pieces_file(&mut self, bytes: &[u8]) -> (u32, u32) {
        plain::pieces_file(bytes)
    }

    fn file(&mut self, buffer: &mut [u8]) -> (u32, usize) {
        plain::write(&self.drawing, buffer)
    }

    fn time(&mut self, call: Call, rounds: usize) -> Duration {
        let drawing = &mut self.drawing;
        match call {
            Call::Command(bytes) => self.time_commands(bytes, rounds),
            Call::Star(id) => {
                let mut buffer = [0; 256];
                timed(rounds, || plain::star(black_box(drawing), id, &mut buffer))
            }
            Call::Euler => timed(rounds, || plain::euler(black_box(drawing))),
            Call::Check => timed(rounds, || plain::check(black_box(drawing))),
            Call::Pieces => timed(rounds, || plain::pieces(black_box(drawing))),
            Call::Write => {
                let mut buffer = vec![0; LONGEST_FILE];
                timed(rounds, || plain::write(black_box(drawing), &mut buffer))
            }
            Call::Read(file) => timed(rounds, || match plain::read(black_box(file)) {
                Ok(read) => *black_box(&mut *drawing) = read,
                Err(refusal) => panic!("{refusal:?}"),
            }),
            Call::Script(script) => timed(rounds, || plain::run(&mut Drawing::empty(), black_box(script))),
            Call::FileToFile(file, script) => {
                let mut buffer = vec![0; LONGEST_FILE];
                timed(rounds, || file_to_file(black_box(file), black_box(script), &mut buffer))
            }
        }
    }
}

fn timed<T>(rounds: usize, mut call: impl FnMut() -> T) -> Duration {
    let start = Instant::now();
    for _ in 0..rounds {
        black_box(call());
    }
    start.elapsed()
}

//! The proved core, through the Rust wrapper of its static library: a block that is edited in place. Now and then a call goes
//! through the functions on files, or a script command by command, so that a comparison tries these too.

use std::hint::black_box;
use std::time::{Duration, Instant};

use dazolbei::raw::{self, Block, Told};
use dazolbei::LINE_WIDTH;
use plain::Verdict;

use crate::{Call, Core, Line, LONGEST_FILE};

/// The block of the drawing that the core is at, and memory for what is timed.
pub struct Proved {
    block: Box<Block>,
    copies: Vec<Place>,
    lines: Vec<u32>,
    out: Vec<u8>,
    /// How many calls were made.
    calls: u64,
}

/// The way that a call goes.
enum Way {
    /// On the block.
    Block,
    /// On the block, one command at a time.
    Steps,
    /// By the functions on files.
    Files,
}

/// Blocks in a row that begin at lines of the cache, so that equal parts of neighbours do not meet in one place of it.
#[repr(align(64))]
#[derive(Clone)]
struct Place(Block);

impl Proved {
    pub fn new() -> Proved {
        Proved {
            block: Box::new(Block::EMPTY),
            copies: Vec::new(),
            lines: Vec::new(),
            out: vec![0; LONGEST_FILE],
            calls: 0,
        }
    }

    /// Files in one of four calls, steps in another. The upper bits of an odd multiple decide, so that a call which comes at
    /// every so many goes each way.
    fn way(&mut self) -> Way {
        self.calls += 1;
        match self.calls.wrapping_mul(0x9E37_79B9_7F4A_7C15) >> 62 {
            0 => Way::Files,
            1 => Way::Steps,
            _ => Way::Block,
        }
    }

    /// The file of the drawing that the block holds.
    fn whole_file(&self) -> Vec<u8> {
        let mut file = vec![0; LONGEST_FILE];
        let (number, count) = raw::block_write(&self.block, &mut file);
        assert_eq!(number, 0, "dz_block_write");
        file.truncate(count);
        file
    }

    fn run_block(&mut self, script: &[u8]) -> Vec<Line> {
        // No command is shorter than a byte.
        let mut lines = vec![0; LINE_WIDTH * script.len()];
        let (number, commands) = raw::block_run(&mut self.block, script, &mut lines);
        assert_eq!(number, 0, "dz_block_run");
        lines.chunks_exact(LINE_WIDTH).take(commands).map(line).collect()
    }

    fn run_steps(&mut self, script: &[u8]) -> Vec<Line> {
        let (mut lines, mut left) = (Vec::new(), script);
        while !left.is_empty() {
            let rest = raw::block_rest(&self.block, left);
            let Told { number, first, new, removed } = raw::block_command(&mut self.block, left);
            lines.push(Line { number, first, new, removed, rest });
            if number == 1 || number == 2 {
                break;
            }
            left = &left[left.len() - rest..];
        }
        lines
    }

    fn run_files(&mut self, script: &[u8]) -> Vec<Line> {
        let mut lines = vec![0; LINE_WIDTH * script.len()];
        let mut out = vec![0; LONGEST_FILE];
        let ran = raw::run(&self.whole_file(), script, &mut lines, &mut out);
        assert_eq!(ran.number, 0, "dz_run");
        assert_eq!(raw::block_open(&mut self.block, &out[..ran.bytes]), 0, "dz_block_open of what dz_run gave");
        lines.chunks_exact(LINE_WIDTH).take(ran.commands).map(line).collect()
    }

    /// Commands change the block in place, so each gets a copy that was made, and read once, before the clock started.
    fn time_commands(&mut self, bytes: &[u8], rounds: usize) -> Duration {
        self.copies.resize_with(rounds, || Place(Block::EMPTY));
        for copy in &mut self.copies {
            copy.0.clone_from(&self.block);
        }
        for copy in &self.copies {
            black_box(raw::block_euler(black_box(&copy.0)));
        }
        let start = Instant::now();
        for copy in &mut self.copies {
            black_box(raw::block_command(black_box(&mut copy.0), black_box(bytes)));
        }
        start.elapsed()
    }

    fn time_script(&mut self, script: &[u8], rounds: usize) -> Duration {
        // No command is shorter than a byte.
        self.lines.resize(LINE_WIDTH * script.len(), 0);
        let mut block = Box::new(Block::EMPTY);
        timed(rounds, || {
            raw::block_new(&mut block);
            raw::block_run(black_box(&mut block), black_box(script), &mut self.lines)
        })
    }
}

impl Default for Proved {
    fn default() -> Proved {
        Proved::new()
    }
}

impl Core for Proved {
    fn name(&self) -> &'static str {
        "proved"
    }

    fn open(&mut self, file: &[u8]) -> u32 {
        let mut number = 0;
        if let Way::Files = self.way() {
            number = raw::open(file);
        }
        if number == 0 {
            number = raw::block_open(&mut self.block, file);
        }
        if number != 0 {
            raw::block_new(&mut self.block);
        }
        number
    }

    fn run(&mut self, script: &[u8]) -> Vec<Line> {
        match self.way() {
            Way::Block => self.run_block(script),
            Way::Steps => self.run_steps(script),
            Way::Files => self.run_files(script),
        }
    }

    fn star(&mut self, id: u32, buffer: &mut [u32]) -> (u32, usize) {
        match self.way() {
            Way::Files => raw::star(&self.whole_file(), id, buffer),
            _ => raw::block_star(&self.block, id, buffer),
        }
    }

    fn euler(&mut self) -> (u32, i64) {
        let (number, value) = match self.way() {
            Way::Files => raw::euler(&self.whole_file()),
            _ => raw::block_euler(&self.block),
        };
        (number, i64::from(value))
    }

    fn check(&mut self) -> Verdict {
        match self.way() {
            Way::Files => self.check_file(&self.whole_file()).expect("the file of a drawing"),
            _ => verdict(raw::block_check(&self.block)),
        }
    }

    fn check_block(&mut self, block: &plain::Block) -> Verdict {
        verdict(raw::block_check(&lent(block)))
    }

    fn check_file(&mut self, bytes: &[u8]) -> Option<Verdict> {
        let (number, told) = raw::check(bytes);
        if number == 0 {
            return Some(verdict(told));
        }
        assert_eq!((number, verdict(told)), (10, Verdict { sound: false, visited: 0 }), "dz_check");
        None
    }

    fn pieces(&mut self) -> (u32, u32) {
        match self.way() {
            Way::Files => raw::pieces(&self.whole_file()),
            _ => raw::block_pieces(&self.block),
        }
    }

    fn pieces_block(&mut self, block: &plain::Block) -> (u32, u32) {
        raw::block_pieces(&lent(block))
    }

    fn pieces_file(&mut self, bytes: &[u8]) -> (u32, u32) {
        raw::pieces(bytes)
    }

    fn file(&mut self, buffer: &mut [u8]) -> (u32, usize) {
        match self.way() {
            Way::Files => raw::write(&self.whole_file(), buffer),
            _ => raw::block_write(&self.block, buffer),
        }
    }

    fn time(&mut self, call: Call, rounds: usize) -> Duration {
        match call {
            Call::Command(bytes) => self.time_commands(bytes, rounds),
            Call::Star(id) => {
                let mut buffer = [0; 256];
                timed(rounds, || raw::block_star(black_box(&self.block), id, &mut buffer))
            }
            Call::Euler => timed(rounds, || raw::block_euler(black_box(&self.block))),
            Call::Check => timed(rounds, || raw::block_check(black_box(&self.block))),
            Call::Pieces => timed(rounds, || raw::block_pieces(black_box(&self.block))),
            Call::Write => timed(rounds, || raw::block_write(black_box(&self.block), &mut self.out)),
            Call::Read(file) => timed(rounds, || raw::block_open(black_box(&mut self.block), black_box(file))),
            Call::Script(script) => self.time_script(script, rounds),
            Call::FileToFile(file, script) => {
                self.lines.resize(LINE_WIDTH * script.len(), 0);
                let (lines, out) = (&mut self.lines, &mut self.out);
                let mut number = 0;
                let time = timed(rounds, || number = raw::run(black_box(file), black_box(script), lines, out).number);
                assert_eq!(number, 0, "dz_run");
                time
            }
        }
    }
}

fn timed<T>(rounds: usize, mut call: impl FnMut() -> T) -> Duration {
    let start = Instant::now();
    for _ in 0..rounds {
        black_box(call());
    }
    start.elapsed()
}

fn line(numbers: &[u32]) -> Line {
    Line { number: numbers[0], first: numbers[1], new: numbers[2], removed: numbers[3], rest: numbers[4] as usize }
}

fn verdict(told: dazolbei::Verdict) -> Verdict {
    Verdict { sound: told.sound, visited: told.visited }
}

/// The same contents in the wrapper's block.
fn lent(b: &plain::Block) -> Box<Block> {
    Box::new(Block {
        next: b.next,
        count: b.count,
        ids: b.ids,
        kinds: b.kinds,
        starts: b.starts,
        ends: b.ends,
        bends: b.bends,
        counts: b.counts,
        px: b.px,
        py: b.py,
        cycles: b.cycles,
        steps: b.steps,
        bx: b.bx,
        by: b.by,
    })
}

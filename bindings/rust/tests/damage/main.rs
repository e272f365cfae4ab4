//! Damages sound blocks at random and hands them to every function, on a thread with a stack of 256 KB. Block and buffers
//! stand between pages that may not be touched, first at their very end, then at their very beginning. Whether a block is
//! sound is judged here a second time, by the rules of document 01 (`judge`).
//!
//! A damaged block gets 1 from every function that asks it, and stays byte for byte, the buffers too; the soundness test says
//! no, and at which cell. One that is still sound is sound after every call and stays byte for byte with a no; its pieces are
//! counted here a second time (`judge`); what is written of it opens, and is written again as the same bytes.
//!
//! DAMAGE_ROUNDS: how many blocks (1,000,000, in a debug build 20,000). DAMAGE_SEED: where the random numbers start (1).

mod commands;
mod guarded;
mod harm;
mod judge;

use dazolbei::raw::{self, Block, BLOCK_SIZE};
use dazolbei::{Verdict, FILE_MOST, LINE_WIDTH, STAR_MOST};

use commands::{command, script, SCRIPT_MOST};
use guarded::Guarded;
use harm::harm;
use judge::{pieces, sound, verdict};

/// Random numbers (xorshift64*).
pub struct Random(u64);

impl Random {
    pub fn bits(&mut self) -> u64 {
        self.0 ^= self.0 >> 12;
        self.0 ^= self.0 << 25;
        self.0 ^= self.0 >> 27;
        self.0.wrapping_mul(0x2545_F491_4F6C_DD1D)
    }

    /// A number below the end; 0 where that is 0.
    pub fn below(&mut self, end: usize) -> usize {
        ((self.bits() >> 32) as usize).checked_rem(end).unwrap_or(0)
    }

    pub fn one_in(&mut self, cases: usize) -> bool {
        self.below(cases) == 0
    }

    pub fn pick<T: Copy>(&mut self, items: &[T]) -> T {
        items[self.below(items.len())]
    }
}

/// What stands in a buffer before a call.
const HELD: u8 = 0xA7;
const HELD_ID: u32 = 0xA7A7_A7A7;

/// How many sound blocks rounds start from.
const POOL: usize = 48;

struct Rounds {
    random: Random,
    /// Sound blocks, as their bytes.
    pool: Vec<Vec<u8>>,
    /// The bytes of the block before the calls.
    before: Vec<u8>,
    script: Vec<u8>,
    at_end: bool,
    block: Guarded,
    other: Guarded,
    scripts: Guarded,
    lines: Guarded,
    ids: Guarded,
    file: Guarded,
    again: Guarded,
    got_one: usize,
    got_none: usize,
}

impl Rounds {
    fn new(seed: u64) -> Rounds {
        let mut random = Random(seed.wrapping_add(1).wrapping_mul(0x9E37_79B9_7F4A_7C15) | 1);
        let mut block = Guarded::new(BLOCK_SIZE);
        let pool = (0..POOL).map(|age| grown(&mut random, &mut block, 12 * age)).collect();
        Rounds {
            random,
            pool,
            before: vec![0; BLOCK_SIZE],
            script: Vec::new(),
            at_end: true,
            block,
            other: Guarded::new(BLOCK_SIZE),
            scripts: Guarded::new(SCRIPT_MOST),
            lines: Guarded::new(4 * LINE_WIDTH * SCRIPT_MOST),
            ids: Guarded::new(4 * STAR_MOST),
            file: Guarded::new(FILE_MOST),
            again: Guarded::new(FILE_MOST),
            got_one: 0,
            got_none: 0,
        }
    }

    fn block(&mut self) -> &mut Block {
        self.block.block(self.at_end)
    }

    fn round(&mut self) {
        let place = self.random.below(POOL);
        self.block.holding(&self.pool[place], self.at_end);
        let harms = if self.random.one_in(8) { 0 } else { 1 + self.random.below(2) };
        for _ in 0..harms {
            harm(&mut self.random, self.block.block(self.at_end));
        }
        self.before.copy_from_slice(self.block.bytes(BLOCK_SIZE, self.at_end));
        self.script = script(&mut self.random, self.block.block(self.at_end));
        let is_sound = sound(self.block());
        *(if is_sound { &mut self.got_none } else { &mut self.got_one }) += 1;
        self.euler(is_sound);
        assert_eq!(raw::block_pieces(self.block()), if is_sound { (0, pieces(self.block())) } else { (1, 0) });
        assert_eq!(raw::block_check(self.block()), verdict(self.block()));
        self.star(is_sound);
        self.write(is_sound);
        self.rest(is_sound);
        self.unchanged();
        let number = match self.random.below(8) {
            0 => self.open(),
            1..=3 => self.run(is_sound),
            _ => self.command(is_sound),
        };
        if number != 0 {
            self.unchanged();
        } else {
            assert!(sound(self.block()), "sound after a call that is done");
        }
        if sound(self.block()) && self.random.one_in(4) {
            self.pool[place].copy_from_slice(self.block.bytes(BLOCK_SIZE, self.at_end));
        }
    }

    fn unchanged(&mut self) {
        assert!(self.block.bytes(BLOCK_SIZE, self.at_end) == self.before, "the block is as it was");
    }

    fn euler(&mut self, is_sound: bool) {
        let (number, value) = raw::block_euler(self.block());
        assert_eq!(number, u32::from(!is_sound));
        assert!(is_sound || value == 0);
    }

    fn star(&mut self, is_sound: bool) {
        let places = self.random.pick(&[0, 1, 3, 256]);
        let row = self.random.below(256);
        let some = self.block().ids[row];
        let id = if self.random.one_in(8) { self.random.bits() as u32 } else { some };
        let ids = self.ids.numbers(places, self.at_end);
        ids.fill(HELD_ID);
        let (number, found) = raw::block_star(self.block.block(self.at_end), id, ids);
        let kept = match (is_sound, number) {
            (true, 0) => found,
            (true, 9) if found > places => 0,
            (true, 4) | (false, 1) if found == 0 => 0,
            _ => panic!("star: {number}, {found} in {places} places"),
        };
        assert!(ids[kept..].iter().all(|&id| id == HELD_ID), "the star's buffer");
    }

    fn write(&mut self, is_sound: bool) {
        let places = if is_sound || self.random.one_in(64) { FILE_MOST } else { self.random.below(100) };
        let file = self.file.bytes(places, self.at_end);
        file.fill(HELD);
        let block = self.block.block(self.at_end);
        let (number, count) = raw::block_write(block, file);
        assert_eq!(number, u32::from(!is_sound));
        assert!(file[count..].iter().all(|&byte| byte == HELD), "the write's buffer");
        if !is_sound {
            assert_eq!(count, 0);
            return;
        }
        // What is written opens, and is written again as the same bytes.
        let other = self.other.block(self.at_end);
        assert_eq!(raw::block_open(other, &file[..count]), 0);
        assert!(sound(other));
        let again = self.again.bytes(count, self.at_end);
        assert_eq!(raw::block_write(other, again), (0, count));
        assert!(again == &file[..count], "the same bytes");
        // A buffer that is one too short.
        let tight = self.again.bytes(count - 1, self.at_end);
        tight.fill(HELD);
        assert_eq!(raw::block_write(block, tight), (9, count));
        assert!(tight.iter().all(|&byte| byte == HELD), "the write's buffer at 9");
    }

    fn rest(&mut self, is_sound: bool) {
        let script = self.scripts.holding(&self.script, self.at_end);
        let rest = raw::block_rest(self.block.block(self.at_end), script);
        assert!(if is_sound { rest <= script.len() } else { rest == script.len() });
    }

    fn command(&mut self, is_sound: bool) -> u32 {
        let script = self.scripts.holding(&self.script, self.at_end);
        let told = raw::block_command(self.block.block(self.at_end), script);
        assert!(
            if is_sound { told.number == 0 || (2..=8).contains(&told.number) } else { told.number == 1 },
            "{told:?}"
        );
        assert!(told.number == 0 || (told.first, told.new, told.removed) == (0, 0, 0), "{told:?}");
        told.number
    }

    fn run(&mut self, is_sound: bool) -> u32 {
        let script = self.scripts.holding(&self.script, self.at_end);
        let needed = LINE_WIDTH * script.len();
        let lent = if self.random.one_in(8) { needed.saturating_sub(1) } else { needed };
        let lines = self.lines.numbers(lent, self.at_end);
        lines.fill(HELD_ID);
        let (number, commands) = raw::block_run(self.block.block(self.at_end), script, lines);
        let right = match (is_sound, lent == needed) {
            (false, _) => 1,
            (true, false) => 9,
            (true, true) => 0,
        };
        assert_eq!(number, right);
        assert!(number == 0 || commands == 0);
        assert!(lines[LINE_WIDTH * commands..].iter().all(|&number| number == HELD_ID), "the run's lines");
        number
    }

    /// The file of a sound block, most often with a bit changed, into the block as it is.
    fn open(&mut self) -> u32 {
        let place = self.random.below(POOL);
        let mut file = vec![0; FILE_MOST];
        self.other.holding(&self.pool[place], self.at_end);
        let (number, count) = raw::block_write(self.other.block(self.at_end), &mut file);
        assert_eq!(number, 0);
        file.truncate(count);
        if !self.random.one_in(4) {
            file[self.random.below(count)] ^= 1 << self.random.below(8);
        }
        let lent = self.again.holding(&file, self.at_end);
        let block = self.block.block(self.at_end);
        let number = raw::block_open(block, lent);
        // The soundness test of bytes says yes if they open, and only then.
        let (refused, told) = raw::check(lent);
        assert_eq!(told.sound, number == 0);
        assert!(refused == 0 || (refused, told) == (10, Verdict { sound: false, visited: 0 }), "{refused}, {told:?}");
        if number == 0 {
            assert_eq!(told, verdict(block));
            assert_eq!(raw::pieces(lent), (0, pieces(block)));
            assert!(sound(block), "the opened block is sound");
            let again = self.file.bytes(count, self.at_end);
            assert_eq!(raw::block_write(block, again), (0, count));
            assert!(again == &file[..], "the opened file again");
        } else {
            assert_eq!(number, 10);
            assert_eq!(raw::pieces(lent), (10, 0));
        }
        number
    }
}

/// The bytes of a block that so many commands were run on.
fn grown(random: &mut Random, memory: &mut Guarded, commands: usize) -> Vec<u8> {
    memory.bytes(BLOCK_SIZE, true).fill(0);
    let block = memory.block(true);
    raw::block_new(block);
    for _ in 0..commands {
        let mut bytes = Vec::new();
        command(random, block, &mut bytes);
        raw::block_command(block, &bytes);
    }
    memory.bytes(BLOCK_SIZE, true).to_vec()
}

fn setting(name: &str, otherwise: u64) -> u64 {
    std::env::var(name).map_or(otherwise, |text| text.parse().expect(name))
}

#[test]
fn damaged_blocks() {
    let rounds = setting("DAMAGE_ROUNDS", if cfg!(debug_assertions) { 20_000 } else { 1_000_000 });
    let mut all = Rounds::new(setting("DAMAGE_SEED", 1));
    let small = std::thread::Builder::new().stack_size(256 * 1024);
    let counts = small.spawn(move || {
        for round in 0..rounds {
            all.at_end = round < rounds / 2;
            all.round();
        }
        (all.got_one, all.got_none)
    });
    let (got_one, got_none) = counts.expect("a thread").join().expect("every round passes");
    println!("{got_one} damaged blocks got 1, {got_none} were still sound");
    assert!(got_one > 0 && got_none > 0);
}

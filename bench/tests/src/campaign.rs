//! Episodes of scripts: the ordinary core runs each command under the laws, another core runs the same scripts, and
//! both must agree on every answer, file, star, Euler number and count of pieces, and on every verdict on a damaged drawing.

use cores::{Core, Line, Ordinary, LONGEST_FILE};
use plain::{file_of, Block, Drawing, Verdict};

use crate::damage;
use crate::files;
use crate::generator::{Generator, RENEWALS, THEMES};
use crate::histogram::Histogram;
use crate::laws;
use crate::pieces::{self, Shift};
use crate::random::Random;

/// Longest script: what the program `edit` takes.
const LONGEST_SCRIPT: usize = 65_536;

/// So many blocks are damaged after each script.
const DAMAGED: usize = 5;

/// After so many failures the campaign ends.
const ENOUGH: usize = 10;

pub struct Campaign<'a> {
    model: Ordinary,
    other: Option<&'a mut dyn Core>,
    random: Random,
    pub histogram: Histogram,
    pub passed: usize,
    pub failures: Vec<String>,
}

impl<'a> Campaign<'a> {
    pub fn new(seed: u64, other: Option<&'a mut dyn Core>) -> Campaign<'a> {
        let mut campaign = Campaign {
            model: Ordinary::new(),
            other,
            random: Random::new(seed),
            histogram: Histogram::default(),
            passed: 0,
            failures: Vec::new(),
        };
        campaign.open(&[0x01, 0x00]);
        campaign
    }

    /// Runs episodes until so many commands were run, or enough failed.
    pub fn run(&mut self, commands: u64) {
        let mut episode = 0;
        while self.histogram.total() < commands && self.failures.len() < ENOUGH {
            let scripts = self.random.between(10, 120);
            let renewal = RENEWALS[self.random.below(RENEWALS.len())];
            self.episode(Generator::new(THEMES[episode % THEMES.len()], renewal), scripts, commands);
            episode += 1;
        }
    }

    /// Starts without cells, mostly at next id 1, grows, and ends with few ids left.
    fn episode(&mut self, mut generator: Generator, scripts: usize, commands: u64) {
        let start = if self.random.one_in(6) { files::bare(&mut self.random) } else { vec![0x01, 0x00] };
        self.open(&start);
        for script in 0..scripts + 4 {
            if script == scripts {
                let file = files::near_the_end(&mut self.random, &self.model.drawing);
                self.open(&file);
            }
            if self.histogram.total() >= commands || self.failures.len() >= ENOUGH {
                return;
            }
            let bytes = self.script(&mut generator);
            if self.random.one_in(6) {
                self.mutated(bytes);
            }
            self.calls();
            self.damaged_blocks();
            if self.random.one_in(4) {
                self.damaged_files();
            }
        }
    }

    fn check(&mut self, result: Result<(), String>) {
        match result {
            Ok(()) => self.passed += 1,
            Err(what) => self.failures.push(what),
        }
    }

    /// A script of new commands, written while the model runs them, then handed to the other core.
    fn script(&mut self, generator: &mut Generator) -> Vec<u8> {
        let (mut script, mut played) = (Vec::new(), Played::default());
        for _ in 0..self.random.between(1, 40) {
            let bytes = generator.command(&mut self.random, &self.model.drawing);
            if script.len() + bytes.len() > LONGEST_SCRIPT {
                break;
            }
            self.play(&bytes, &mut played);
            script.extend(bytes);
            if played.ended {
                break;
            }
        }
        self.hand_over(&script, played);
        script
    }

    /// The same script again with some bytes changed.
    fn mutated(&mut self, mut script: Vec<u8>) {
        files::mutate(&mut self.random, &mut script);
        let mut played = Played::default();
        self.play(&script, &mut played);
        self.hand_over(&script, played);
    }

    /// Runs commands on the model, under the laws.
    fn play(&mut self, bytes: &[u8], played: &mut Played) {
        let mut left = bytes;
        while !left.is_empty() && !played.ended {
            let before = self.model.drawing.clone();
            let line = self.model.step(left);
            self.histogram.command(&before, left, line);
            if let Err(what) = laws::command(&before, left, line, &self.model.drawing) {
                self.failures.push(format!("law: {what}: command {} on {}", hex(left), hex(&file_of(&before))));
            }
            if let Some(shift) = Shift::of(&before, left, line, &self.model.drawing) {
                self.shifted(shift, left, &before);
            }
            played.lines.push((line, played.length + bytes.len() - line.rest));
            played.ended = line.number == 2;
            left = &left[left.len() - line.rest..];
        }
        played.length += bytes.len();
    }

    /// Counts how far a command moved the number of pieces, which has bounds.
    fn shifted(&mut self, shift: Shift, bytes: &[u8], before: &Drawing) {
        self.histogram.shift(shift);
        if !shift.lawful() {
            self.failures.push(format!("law: {shift:?}: command {} on {}", hex(bytes), hex(&file_of(before))));
        }
    }

    /// Lets the other core run the script; both must answer alike and end at the same drawing.
    fn hand_over(&mut self, script: &[u8], played: Played) {
        self.histogram.drawing(&self.model.drawing);
        let Some(other) = self.other.as_mut() else {
            self.passed += 1;
            return;
        };
        let got = other.run(script);
        let (_, file) = file_from(*other);
        let result = same_lines(script, &played, &got).and_then(|()| self.same_file(&file, script));
        if result.is_err() {
            // From here on both are at one drawing again.
            let right = file_of(&self.model.drawing);
            self.other.as_mut().map(|other| other.open(&right));
        }
        self.check(result);
    }

    fn same_file(&self, file: &[u8], script: &[u8]) -> Result<(), String> {
        let right = file_of(&self.model.drawing);
        if file == right {
            return Ok(());
        }
        Err(format!("file {} is not {} after script {}", hex(file), hex(&right), hex(script)))
    }

    /// Star of some ids with several buffers, Euler, pieces, the soundness test, and write into a short buffer.
    fn calls(&mut self) {
        let all = Verdict { sound: true, visited: self.model.drawing.cells.len() as u32 };
        let lawful = self.model.check() == all;
        let same = self.asked().is_none_or(|other| other.check() == all);
        self.check(if lawful && same { Ok(()) } else { Err(format!("check is not {all:?}")) });
        let euler = self.model.euler();
        self.histogram.call("euler", euler.0);
        let lawful = euler == (0, laws::euler(&self.model.drawing));
        let same = self.asked().is_none_or(|other| other.euler() == euler);
        self.check(if lawful && same { Ok(()) } else { Err(format!("euler is not {euler:?}")) });
        let right = (0, pieces::pieces(&self.model.drawing));
        let (got, other) = (self.model.pieces(), self.asked().map(|other| other.pieces()));
        let result = self.same_pieces(right, got, other);
        self.check(result.map_err(|what| format!("{what}: {}", hex(&file_of(&self.model.drawing)))));
        for _ in 0..4 {
            let id = self.some_id();
            let places = [0, 1, 3, 256][self.random.below(4)];
            let result = self.star(id, places);
            self.check(result);
        }
        let result = self.short_write();
        self.check(result);
    }

    /// Number and count of pieces: the model's, and the other core's if it was asked.
    fn same_pieces(&mut self, right: (u32, u32), got: (u32, u32), other: Option<(u32, u32)>) -> Result<(), String> {
        self.histogram.call("pieces", right.0);
        if got == right && other.is_none_or(|other| other == right) {
            Ok(())
        } else {
            Err(format!("pieces: {got:?} and {other:?} are not {right:?}"))
        }
    }

    /// The soundness test and the pieces of damaged blocks, and of their cells as bytes.
    fn damaged_blocks(&mut self) {
        for _ in 0..DAMAGED {
            let (block, cause) = damage::damaged(&mut self.random, &self.model.drawing);
            let verdict = self.model.check_block(&block);
            self.histogram.verdict(cause, &block, verdict);
            let result = laws::verdict(&block, verdict).and_then(|()| self.same_verdict(&block, verdict));
            self.check(result.map_err(|what| format!("{what} ({cause}): {}", shown(&block))));
            let (got, other) = (self.model.pieces_block(&block), self.asked().map(|other| other.pieces_block(&block)));
            let result = self.same_pieces(pieces::of_block(&block, verdict), got, other);
            self.check(result.map_err(|what| format!("{what} ({cause}): {}", shown(&block))));
            if let Some(drawing) = block.drawing() {
                let result = self.judged(&file_of(&drawing));
                self.check(result);
            }
        }
    }

    fn same_verdict(&mut self, block: &Block, verdict: Verdict) -> Result<(), String> {
        let Some(other) = self.asked() else { return Ok(()) };
        let got = other.check_block(block);
        if got == verdict {
            Ok(())
        } else {
            Err(format!("{got:?} is not {verdict:?}"))
        }
    }

    /// The soundness test of bytes: a yes where they are a file, and only there; and their pieces.
    fn judged(&mut self, bytes: &[u8]) -> Result<(), String> {
        let verdict = self.model.check_file(bytes);
        self.histogram.call("check", if verdict.is_some() { 0 } else { 10 });
        let lawful = plain::read(bytes).is_ok() == verdict.is_some_and(|verdict| verdict.sound);
        let same = self.asked().is_none_or(|other| other.check_file(bytes) == verdict);
        if !lawful || !same {
            return Err(format!("check is not {verdict:?}: {}", hex(bytes)));
        }
        let (got, other) = (self.model.pieces_file(bytes), self.asked().map(|other| other.pieces_file(bytes)));
        let result = self.same_pieces(pieces::of_file(bytes), got, other);
        result.map_err(|what| format!("{what}: {}", hex(bytes)))
    }

    /// The other core, if the calls that read can be asked of it.
    fn asked(&mut self) -> Option<&mut dyn Core> {
        match &mut self.other {
            Some(other) if other.has_queries() => Some(&mut **other),
            _ => None,
        }
    }

    fn some_id(&mut self) -> u32 {
        let ids: Vec<u32> = self.model.drawing.cells.iter().map(|cell| cell.id).collect();
        if self.random.one_in(8) {
            return [0, self.model.drawing.next, 65_536, u32::MAX][self.random.below(4)];
        }
        self.random.pick(&ids).unwrap_or(1)
    }

    fn star(&mut self, id: u32, places: usize) -> Result<(), String> {
        const HELD: u32 = 0xABCD;
        let mut buffer = vec![HELD; places];
        let answer = self.model.star(id, &mut buffer);
        self.histogram.call("star", answer.0);
        let mut lawful = (4, 0);
        let mut right = vec![HELD; places];
        if self.model.drawing.row(id).is_some() {
            let star = laws::star(&self.model.drawing, id);
            lawful = (if star.len() > places { 9 } else { 0 }, star.len());
            if lawful.0 == 0 {
                right[..star.len()].copy_from_slice(&star);
            }
        }
        let what = format!("star of {id} in {places} places, {}", hex(&file_of(&self.model.drawing)));
        if (answer, &buffer) != (lawful, &right) {
            return Err(format!("law: {what}: {answer:?}"));
        }
        let Some(other) = self.asked() else { return Ok(()) };
        let mut buffer = vec![HELD; places];
        let got = other.star(id, &mut buffer);
        if (got, &buffer) == (answer, &right) {
            Ok(())
        } else {
            Err(format!("{what}: {got:?} is not {answer:?}"))
        }
    }

    fn short_write(&mut self) -> Result<(), String> {
        let length = file_of(&self.model.drawing).len();
        let places = [length - 1, length, length + 1, 0][self.random.below(4)];
        let (mut right, mut buffer) = (vec![0xCC; places], vec![0xCC; places]);
        let answer = self.model.file(&mut right);
        self.histogram.call("write", answer.0);
        let Some(other) = self.other.as_mut() else { return Ok(()) };
        let got = other.file(&mut buffer);
        if (got, &buffer) == (answer, &right) {
            Ok(())
        } else {
            Err(format!("write in {places} places: {got:?} is not {answer:?}"))
        }
    }

    /// Damaged files and the answer to them; then the good file again.
    fn damaged_files(&mut self) {
        let drawing = self.model.drawing.clone();
        for _ in 0..4 {
            let file = files::damaged(&mut self.random, &drawing);
            self.open(&file);
            let result = self.judged(&file);
            self.check(result);
        }
        let overlong = files::overlong(&drawing);
        self.open(&overlong);
        let result = self.judged(&overlong);
        self.check(result);
        self.open(&file_of(&drawing));
    }

    /// Opens a file in both cores: the same number and the same drawing.
    fn open(&mut self, file: &[u8]) {
        let number = self.model.open(file);
        self.histogram.call("read", number);
        let right = file_of(&self.model.drawing);
        let lawful = if number == 0 { right == file } else { right == [0x01, 0x00] };
        let same = self.other.as_mut().is_none_or(|other| {
            let got = other.open(file);
            got == number && file_from(*other) == (0, right)
        });
        self.check(if lawful && same { Ok(()) } else { Err(format!("read is not {number}: {}", hex(file))) });
    }
}

/// What the model answered to a script: each line, and where the rest begins.
#[derive(Default)]
struct Played {
    lines: Vec<(Line, usize)>,
    length: usize,
    ended: bool,
}

fn same_lines(script: &[u8], played: &Played, got: &[Line]) -> Result<(), String> {
    for (i, &(line, rest_at)) in played.lines.iter().enumerate() {
        let right = Line { rest: script.len() - rest_at, ..line };
        if got.get(i) != Some(&right) {
            return Err(format!("command {i}: {:?} is not {right:?} in script {}", got.get(i), hex(script)));
        }
    }
    if got.len() != played.lines.len() {
        return Err(format!("{} lines are not {} in script {}", got.len(), played.lines.len(), hex(script)));
    }
    Ok(())
}

fn file_from(core: &mut dyn Core) -> (u32, Vec<u8>) {
    let mut buffer = vec![0; LONGEST_FILE];
    let (number, count) = core.file(&mut buffer);
    buffer.truncate(count);
    (number, buffer)
}

/// At most so many bytes of a long list are shown.
const SHOWN: usize = 2_000;

fn hex(bytes: &[u8]) -> String {
    let mut text: String = bytes.iter().take(SHOWN).map(|byte| format!("{byte:02x}")).collect();
    if bytes.len() > SHOWN {
        text += &format!(".. ({} bytes)", bytes.len());
    }
    text
}

/// The numbers of a block's rows.
fn shown(block: &Block) -> String {
    let mut text = format!("next {}, {} cells", block.next, block.count);
    for row in 0..block.count.min(256) {
        let (ends, counts) = ((block.starts[row], block.ends[row]), (block.bends[row], block.counts[row]));
        text += &format!(
            "; {} {} {ends:?} {counts:?} {} {}",
            block.ids[row], block.kinds[row], block.px[row], block.py[row]
        );
    }
    text
}

//! The time of a call, cores in turn.

use std::time::{Duration, Instant};

use cores::{Call, Core};
use plain::file_of;

use crate::cases::{Case, Timed};

/// Calls between two readings of the clock: so many that the reading costs nothing, so few that the states stay near and
/// that most readings are not interrupted.
pub const BATCH: usize = 16;

/// How long each case is tried, preparation included; the fastest batch counts.
#[derive(Clone, Copy)]
pub struct Effort {
    pub time: Duration,
}

impl Effort {
    pub const WHOLE: Effort = Effort { time: Duration::from_millis(1_500) };
    pub const QUICK: Effort = Effort { time: Duration::from_millis(250) };
}

/// At least so many batches of each core.
const LEAST: usize = 20;

/// Nanoseconds of one call in each core, or what went wrong.
pub fn measure(case: &Case, cores: &mut [Box<dyn Core>], effort: Effort) -> Result<Vec<f64>, String> {
    let file = file_of(&case.drawing);
    let (call, batch) = match &case.call {
        Timed::Command(bytes) => (Call::Command(bytes), BATCH),
        Timed::Star(id) => (Call::Star(*id), BATCH),
        Timed::Euler => (Call::Euler, BATCH),
        Timed::Check => (Call::Check, BATCH),
        Timed::Pieces => (Call::Pieces, BATCH),
        Timed::Write => (Call::Write, BATCH),
        Timed::Read => (Call::Read(&file), BATCH),
        Timed::Script(script) => (Call::Script(script), 1),
        Timed::FileToFile(script) => (Call::FileToFile(&file, script), BATCH),
    };
    let mut answers = Vec::new();
    for core in cores.iter_mut() {
        answers.push(accepted(core.as_mut(), &file, call)?);
    }
    if answers.iter().any(|answer| *answer != answers[0]) {
        return Err("the cores differ".to_string());
    }
    Ok(fastest(call, batch, cores, effort))
}

fn fastest(call: Call, batch: usize, cores: &mut [Box<dyn Core>], effort: Effort) -> Vec<f64> {
    let mut best = vec![f64::INFINITY; cores.len()];
    let (start, mut batches) = (Instant::now(), 0);
    while batches < LEAST || start.elapsed() < effort.time {
        for (best, core) in best.iter_mut().zip(cores.iter_mut()) {
            let time = core.time(call, batch).as_nanos() as f64 / batch as f64;
            *best = best.min(time);
        }
        batches += 1;
    }
    best
}

/// Opens the drawing, tries the call once, and opens the drawing again: what the call gave, if every answer was 0.
fn accepted(core: &mut dyn Core, file: &[u8], call: Call) -> Result<(Vec<u32>, Vec<u8>), String> {
    let opened = core.open(file);
    let mut numbers = vec![opened];
    let mut told = Vec::new();
    match call {
        Call::Command(script) | Call::Script(script) | Call::FileToFile(_, script) => {
            for line in core.run(script) {
                numbers.push(line.number);
                told.extend([line.first, line.new, line.removed]);
            }
        }
        Call::Star(id) => {
            let mut buffer = [0; 256];
            numbers.push(core.star(id, &mut buffer).0);
            told.extend(buffer);
        }
        Call::Check => {
            let verdict = core.check();
            numbers.push(u32::from(!verdict.sound));
            told.push(verdict.visited);
        }
        Call::Pieces => {
            let (number, count) = core.pieces();
            numbers.push(number);
            told.push(count);
        }
        _ => {
            let (number, value) = core.euler();
            numbers.push(number);
            told.push(value as u32);
        }
    }
    let mut after = vec![0; cores::LONGEST_FILE];
    let (number, length) = core.file(&mut after);
    after.truncate(length);
    numbers.push(number);
    core.open(file);
    if numbers.iter().all(|&number| number == 0) {
        Ok((told, after))
    } else {
        Err(format!("{}: the file, the call and the file after it get {numbers:?}", core.name()))
    }
}

//! `differ COMMANDS SEED PROGRAMS VECTORS...`: the stored vectors, then random scripts of so many commands. PROGRAMS is the
//! folder of `plain-edit` and `plain-save`, VECTORS are those of the vectors. Ends with `N passed, M failed`.

use std::io;
use std::path::Path;
use std::process::ExitCode;

use cores::{Core, Ordinary};
use differ::campaign::Campaign;
use differ::vectors::{self, Fault};

#[derive(Default)]
struct Tally {
    passed: usize,
    failed: usize,
}

impl Tally {
    fn count(&mut self, what: &str, name: &Path, result: Option<bool>) {
        match result {
            Some(true) => self.passed += 1,
            Some(false) => {
                self.failed += 1;
                println!("{what} differs on {}", name.display());
            }
            None => {}
        }
    }
}

fn main() -> io::Result<ExitCode> {
    let arguments: Vec<String> = std::env::args().collect();
    let [_, commands, seed, programs, folders @ ..] = &arguments[..] else {
        eprintln!("usage: differ COMMANDS SEED PROGRAMS VECTORS...");
        return Ok(ExitCode::from(2));
    };
    let (commands, seed) = (whole(commands)?, whole(seed)?);
    let mut tally = Tally::default();
    for folder in folders {
        try_vectors(Path::new(folder), Path::new(programs), &mut tally)?;
    }
    println!("vectors: {} passed, {} failed", tally.passed, tally.failed);
    let mut others = cores::others();
    for other in &mut others {
        try_scripts(commands, seed, Some(other.as_mut()), &mut tally);
    }
    if others.is_empty() {
        try_scripts(commands, seed, None, &mut tally);
    }
    println!("{} passed, {} failed", tally.passed, tally.failed);
    Ok(if tally.failed == 0 { ExitCode::SUCCESS } else { ExitCode::FAILURE })
}

fn whole(text: &str) -> io::Result<u64> {
    text.parse().map_err(|_| io::Error::new(io::ErrorKind::InvalidInput, format!("{text} is no number")))
}

fn try_vectors(folder: &Path, programs: &Path, tally: &mut Tally) -> io::Result<()> {
    for name in vectors::names(folder)? {
        tally.count("plain-edit", &name, vectors::try_program(&programs.join("plain-edit"), &name, "expected")?);
        tally.count("plain-save", &name, vectors::try_program(&programs.join("plain-save"), &name, "file")?);
        tally.count("plain", &name, vectors::try_core(&mut Ordinary::new(), &name)?);
        for mut other in cores::others() {
            tally.count(other.name(), &name, vectors::try_core(other.as_mut(), &name)?);
        }
        for (line, fault) in vectors::faults(&name)?.iter().enumerate() {
            try_fault(fault, &name.with_extension(format!("faults:{}", line + 1)), tally);
        }
    }
    Ok(())
}

fn try_fault(fault: &Fault, name: &Path, tally: &mut Tally) {
    tally.count("plain's walk", name, Some(fault.try_walk()));
    tally.count("plain", name, Some(fault.try_core(&mut Ordinary::new())));
    for mut other in cores::others().into_iter().filter(|other| other.has_queries()) {
        tally.count(other.name(), name, Some(fault.try_core(other.as_mut())));
    }
}

fn try_scripts(commands: u64, seed: u64, other: Option<&mut dyn Core>, tally: &mut Tally) {
    let pair = other.as_ref().map(|other| other.name());
    let mut campaign = Campaign::new(seed, other);
    campaign.run(commands);
    for failure in &campaign.failures {
        println!("{failure}");
    }
    println!("\n{}", campaign.histogram);
    let total = campaign.histogram.total();
    match pair {
        Some(name) => println!("{total} commands compared: plain and {name}, and plain under the laws (seed {seed})"),
        None => {
            println!("{total} commands run by plain under the laws (seed {seed}); no second core is linked, 0 compared")
        }
    }
    tally.passed += campaign.passed;
    tally.failed += campaign.failures.len();
    if commands >= 100_000 && !campaign.histogram.complete() {
        println!("some kind was never accepted, some question or some bound of the pieces never met");
        tally.failed += 1;
    }
}

//! `speed [--quick] PLOT`: times every call in every core that is linked, prints the tables, writes the plot to the file
//! PLOT, and ends with the worst ratio.

mod cases;
mod measure;
mod plot;
mod script;
mod sheets;
mod table;

use std::process::ExitCode;

use cores::{Core, Ordinary};

use cases::{case, single, ROWS, SINGLES};
use measure::{measure, Effort};
use sheets::SIZES;
use table::Times;

fn main() -> ExitCode {
    let arguments: Vec<String> = std::env::args().skip(1).collect();
    let (path, effort) = match &arguments[..] {
        [path] => (path, Effort::WHOLE),
        [quick, path] if quick == "--quick" => (path, Effort::QUICK),
        _ => {
            eprintln!("usage: speed [--quick] PLOT");
            return ExitCode::from(2);
        }
    };
    let mut cores: Vec<Box<dyn Core>> = vec![Box::new(Ordinary::new())];
    cores.extend(cores::others());
    let times = match times(&mut cores, effort) {
        Ok(times) => times,
        Err(what) => {
            eprintln!("{what}");
            return ExitCode::FAILURE;
        }
    };
    about(&times, effort);
    table::print(&times);
    if let Err(error) = std::fs::write(path, plot::svg(&times)) {
        eprintln!("{path}: {error}");
        return ExitCode::FAILURE;
    }
    println!("plot: {path}");
    println!("{}", table::worst(&times));
    ExitCode::SUCCESS
}

fn times(cores: &mut [Box<dyn Core>], effort: Effort) -> Result<Times, String> {
    let mut rows = Vec::new();
    for (row, label) in ROWS {
        let mut times = Vec::new();
        for size in SIZES {
            let measured = measure(&case(row, size), cores, effort);
            times.push(measured.map_err(|what| format!("{label}, {}: {what}", size.name()))?);
        }
        rows.push(times);
    }
    let mut singles = Vec::new();
    for (place, (label, size)) in SINGLES.iter().enumerate() {
        let measured = measure(&single(place), cores, effort);
        singles.push(measured.map_err(|what| format!("{label}, {size}: {what}"))?);
    }
    Ok(Times { cores: cores.iter().map(|core| core.name()).collect(), rows, singles })
}

fn about(times: &Times, effort: Effort) {
    println!("Every call asks question 1 first, which is all that check does; a run of a script asks it once, before its first command.");
    println!(
        "Each case is tried for {} ms, the cores in turn, one thread, {} calls (1 run of a script) between two readings of the clock;",
        effort.time.as_millis(),
        measure::BATCH
    );
    println!(
        "the fastest count. Sizes are those of the drawing, or of the result where the command adds cells or steps."
    );
    println!("State: both cores edit a drawing that is there, in place. Commands get copies made before the clock starts; star, Euler,");
    println!("check, pieces and write read one drawing again and again, read replaces it. Buffers are made once and not cleared between calls.");
    if times.cores.len() == 1 {
        println!("No proved core is linked (DAZOLBEI_LIB): plain alone.");
    }
    println!();
}

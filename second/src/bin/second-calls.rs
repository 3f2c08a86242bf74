//! `second-calls SEED COUNT` makes COUNT random calls of the archive and compares them with the second program.
//! `--plant N` (1 to 9, 11 to 14 and 16 to 18) puts a fault into the second program on purpose.

use std::process::ExitCode;

#[cfg(not(archive))]
fn main() -> ExitCode {
    eprintln!("second-calls: the archive is not built: rt lib --cpu=x86-64 in crates/threeways_c");
    ExitCode::from(2)
}

#[cfg(archive)]
fn main() -> ExitCode {
    let arguments: Vec<String> = std::env::args().skip(1).collect();
    match with_archive::read(&arguments) {
        Some((seed, count, plant)) => with_archive::compare(seed, count, plant),
        None => {
            eprintln!("second-calls SEED COUNT [--plant N]");
            ExitCode::from(2)
        }
    }
}

#[cfg(archive)]
mod with_archive {
    use std::process::ExitCode;

    use second_reading::calls::{run, summary, Difference, Fault};
    use second_reading::Plant;

    pub fn read(arguments: &[String]) -> Option<(u64, usize, Plant)> {
        let (seed, count, plant) = match arguments {
            [seed, count] => (seed, count, "0"),
            [seed, count, word, plant] if word == "--plant" => (seed, count, plant.as_str()),
            _ => return None,
        };
        Some((seed.parse().ok()?, count.parse().ok()?, Plant::from_number(plant.parse().ok()?)?))
    }

    pub fn compare(seed: u64, count: usize, plant: Plant) -> ExitCode {
        let counts = match run(seed, count, plant, Fault::Nothing) {
            Ok(counts) => counts,
            Err(difference) => return report(seed, &difference),
        };
        println!("{}", summary(&counts));
        let missing = counts.missing();
        if !missing.is_empty() {
            println!("never seen: {}", missing.join(", "));
            return ExitCode::FAILURE;
        }
        ExitCode::SUCCESS
    }

    fn report(seed: u64, difference: &Difference) -> ExitCode {
        let Difference { session, finding, steps } = difference;
        println!("session {session} of seed {seed}: {:?}: {}", finding.kind, finding.what);
        println!("steps from an empty session that lead to it: {}", steps.len());
        steps.iter().for_each(|step| println!("{step}"));
        ExitCode::FAILURE
    }
}

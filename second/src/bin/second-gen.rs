//! `second-gen SEED INDEX` prints script INDEX of a seed;
//! `second-gen SEED FROM COUNT FOLDER` writes COUNT scripts into a folder.

use std::io::Write;
use std::process::ExitCode;

use second_reading::script::script;

fn main() -> ExitCode {
    let arguments: Vec<String> = std::env::args().skip(1).collect();
    let number = |at: usize| arguments.get(at).and_then(|text| text.parse::<u64>().ok());
    let done = match (number(0), number(1), number(2), arguments.len()) {
        (Some(seed), Some(index), None, 2) => std::io::stdout().write_all(&script(seed, index)),
        (Some(seed), Some(from), Some(count), 4) => (from..from + count).try_for_each(|index| {
            let path = std::path::Path::new(&arguments[3]).join(format!("{seed}-{index}.plan"));
            std::fs::write(path, script(seed, index))
        }),
        _ => {
            eprintln!("second-gen SEED INDEX\nsecond-gen SEED FROM COUNT FOLDER");
            return ExitCode::FAILURE;
        }
    };
    match done {
        Ok(()) => ExitCode::SUCCESS,
        Err(error) => {
            eprintln!("second-gen: {error}");
            ExitCode::FAILURE
        }
    }
}

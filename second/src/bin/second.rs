//! The dialogue on standard input and output.

use std::io::{self, BufReader, BufWriter};
use std::process::ExitCode;

use second_reading::{dialogue, Plant};

fn main() -> ExitCode {
    let input = BufReader::with_capacity(1 << 16, io::stdin().lock());
    let mut output = BufWriter::with_capacity(1 << 16, io::stdout().lock());
    match dialogue::run(input, &mut output, Plant::Nothing) {
        Ok(()) => ExitCode::SUCCESS,
        Err(_) => ExitCode::FAILURE,
    }
}

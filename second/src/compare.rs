//! Two programs on one script: equal bytes, and answers that hold against
//! the brute-force definitions.

use std::collections::BTreeMap;
use std::io::{Read, Write};
use std::path::PathBuf;
use std::process::{Command, Stdio};

use crate::follow::{follow, Counts};
use crate::seen::Seen;
use crate::shrink::shrink;
use crate::{dialogue, Plant};

/// A program to be run.
#[derive(Clone, Debug)]
pub enum Program {
    /// A program file that reads standard input and writes standard output.
    File(PathBuf),
    /// The second program, in this process.
    Second(Plant),
}

impl Program {
    /// The output on a script, or why there is none.
    pub fn run(&self, script: &[u8]) -> Result<Vec<u8>, String> {
        match self {
            Program::File(path) => run_file(path, script),
            Program::Second(plant) => run_second(script, *plant),
        }
    }
}

/// A panic becomes a finding, without its message on standard error.
fn run_second(script: &[u8], plant: Plant) -> Result<Vec<u8>, String> {
    let hook = std::panic::take_hook();
    std::panic::set_hook(Box::new(|_| {}));
    let output = std::panic::catch_unwind(|| dialogue::run_bytes(script, plant));
    std::panic::set_hook(hook);
    output.map_err(|_| "the second program broke off".to_string())
}

fn run_file(path: &PathBuf, script: &[u8]) -> Result<Vec<u8>, String> {
    let child = Command::new(path).stdin(Stdio::piped()).stdout(Stdio::piped()).stderr(Stdio::piped()).spawn();
    let mut child = child.map_err(|error| format!("{}: {error}", path.display()))?;
    let mut input = child.stdin.take().expect("standard input is a pipe");
    let mut output = Vec::new();
    let read = std::thread::scope(|scope| {
        // The program may stop before it has read all: not an error.
        scope.spawn(move || {
            let _ = input.write_all(script);
        });
        child.stdout.take().expect("standard output is a pipe").read_to_end(&mut output)
    });
    let status = child.wait().map_err(|error| error.to_string())?;
    read.map_err(|error| error.to_string())?;
    if !status.success() {
        return Err(format!("{} ended with {status}", path.display()));
    }
    Ok(output)
}

/// What kind of fault a script shows; shrinking keeps to the kind.
#[derive(Clone, Copy, Debug, PartialEq, Eq)]
pub enum Kind {
    FirstBroke,
    SecondBroke,
    OutputsDiffer,
    AgainstThePapers,
}

#[derive(Clone, Debug)]
pub struct Finding {
    pub kind: Kind,
    pub what: String,
    pub first: Vec<u8>,
    pub second: Vec<u8>,
}

/// Runs both programs on a script and checks what they say.
pub fn examine(first: &Program, second: &Program, script: &[u8], counts: &mut Counts) -> Result<(), Finding> {
    let finding = |kind, what: String, first: &[u8], second: &[u8]| {
        Err(Finding { kind, what, first: first.to_vec(), second: second.to_vec() })
    };
    let first_output = match first.run(script) {
        Ok(output) => output,
        Err(what) => return finding(Kind::FirstBroke, what, b"", b""),
    };
    let second_output = match second.run(script) {
        Ok(output) => output,
        Err(what) => return finding(Kind::SecondBroke, what, &first_output, b""),
    };
    if first_output != second_output {
        let what = "the outputs differ".to_string();
        return finding(Kind::OutputsDiffer, what, &first_output, &second_output);
    }
    match follow(script, &first_output, counts) {
        Ok(()) => Ok(()),
        Err(what) => finding(Kind::AgainstThePapers, what, &first_output, &second_output),
    }
}

/// The smallest script found that shows the same kind of fault, and what it
/// shows.
pub fn make_small(first: &Program, second: &Program, script: &[u8], kind: Kind) -> (Vec<u8>, Finding) {
    let look = |script: &[u8]| examine(first, second, script, &mut Counts::default()).err();
    let small = shrink(script, &mut |script| look(script).is_some_and(|finding| finding.kind == kind));
    let finding = look(&small).expect("the smallest script still shows the fault");
    (small, finding)
}

/// Each refusal by number, with how often and at how many places it was seen.
pub fn refusals_told(refusals: &BTreeMap<u16, BTreeMap<u16, usize>>) -> String {
    let told = refusals.iter().map(|(number, places)| {
        let times: usize = places.values().sum();
        match places.len() {
            1 => format!("{number}:{times}"),
            count => format!("{number}:{times}/{count}"),
        }
    });
    told.collect::<Vec<String>>().join(" ")
}

/// One line of counts.
pub fn summary(counts: &Counts) -> String {
    format!(
        "equal: {} scripts, {} lines, {} opened, {} ears taken, {} closed, {} cleared, {} unread; \
         empty ears: {}; crossed ears: {}; {} lists judged by Definition 9 ({} accepted); \
         {} walks, three walks of {} switches and all of {} sites checked; third walks: {}; ducts: {}; refusals (number:times/places) {}",
        counts.scripts,
        counts.lines,
        counts.opened,
        counts.ears,
        counts.closed,
        counts.cleared,
        counts.unread,
        counts.empty_ears.told(),
        counts.crossed_ears.told(),
        counts.lists_judged,
        counts.lists_accepted,
        counts.walks,
        counts.switches_checked,
        counts.sites_checked,
        counts.third_walks.told(),
        counts.ducts.told(),
        refusals_told(&counts.refusals)
    )
}

//! `second-compare PATH SEED COUNT` compares the program at PATH with the
//! second one on generated scripts; `second-compare PATH FILE..` on files;
//! `second-compare PATH every` on every list of ears of small networks.
//! `--plant N` (1 to 5 and 8 to 11) puts a fault into the second program on purpose.
//! With `-` for PATH the second program, without a fault, stands for the first.

use std::io::Write;
use std::path::PathBuf;
use std::process::ExitCode;

use second_reading::compare::{examine, make_small, summary, Finding, Kind, Program};
use second_reading::every::{every_list, lines_for, wheel_site, worked_site};
use second_reading::follow::Counts;
use second_reading::lines::LINES;
use second_reading::network::Site;
use second_reading::script::script;
use second_reading::Plant;

/// With so many scripts or more, an empty ear has to be seen with every answer that it can have, both crossed ears,
/// third walks that document 02, Note 6, made shorter, and ducts in every writing.
const ENOUGH: usize = 300;

const USAGE: &str = "second-compare PATH SEED COUNT [--plant N]\nsecond-compare PATH FILE.. [--plant N]\nsecond-compare PATH every [--plant N]";

fn main() -> ExitCode {
    let mut arguments: Vec<String> = std::env::args().skip(1).collect();
    let mut plant = Plant::Nothing;
    if let Some(at) = arguments.iter().position(|argument| argument == "--plant") {
        match arguments.get(at + 1).and_then(|text| text.parse().ok()).and_then(Plant::from_number) {
            Some(known) => plant = known,
            None => return usage(),
        }
        arguments.drain(at..at + 2);
    }
    if arguments.len() < 2 {
        return usage();
    }
    let first = match arguments[0].as_str() {
        "-" => Program::Second(Plant::Nothing),
        path => Program::File(PathBuf::from(path)),
    };
    let second = Program::Second(plant);
    let numbers: Vec<u64> = arguments[1..].iter().map_while(|text| text.parse().ok()).collect();
    let counts = match (&arguments[1..], &numbers[..]) {
        ([word], _) if word == "every" => compare_every(&first, &second),
        ([_, _], &[seed, count]) => compare_generated(&first, &second, seed, count),
        (files, _) => compare_files(&first, &second, files),
    };
    let Ok(counts) = counts else { return ExitCode::FAILURE };
    println!("{}", summary(&counts));
    let missing = counts.missing();
    if numbers.len() == 2 && counts.scripts >= ENOUGH && !missing.is_empty() {
        println!("never seen: {}", missing.join(", "));
        return ExitCode::FAILURE;
    }
    ExitCode::SUCCESS
}

/// A difference, or a file that cannot be read, was told.
struct Told;

fn compare_every(first: &Program, second: &Program) -> Result<Counts, Told> {
    let mut counts = Counts::default();
    for (name, script) in every_script() {
        examine(first, second, &script, &mut counts)
            .map_err(|finding| report(first, second, &name, &script, &finding))?;
    }
    Ok(counts)
}

fn compare_generated(first: &Program, second: &Program, seed: u64, count: u64) -> Result<Counts, Told> {
    let mut counts = Counts::default();
    for index in 0..count {
        let script = script(seed, index);
        if let Err(finding) = examine(first, second, &script, &mut counts) {
            println!("script {index} of seed {seed}: {:?}: {}", finding.kind, finding.what);
            let (index, script) = shortest(first, second, seed, index, script, finding.kind);
            let name = format!("script {index} of seed {seed}, the shortest that shows it");
            return Err(report(first, second, &name, &script, &finding));
        }
    }
    Ok(counts)
}

fn compare_files(first: &Program, second: &Program, files: &[String]) -> Result<Counts, Told> {
    let mut counts = Counts::default();
    for file in files {
        let script = std::fs::read(file).map_err(|error| {
            eprintln!("second-compare: {file}: {error}");
            Told
        })?;
        examine(first, second, &script, &mut counts)
            .map_err(|finding| report(first, second, file, &script, &finding))?;
    }
    Ok(counts)
}

/// Every list of the worked network, and of the wheel with each choice of
/// root, first and last, in scripts of as many lines as are read.
fn every_script() -> Vec<(String, Vec<u8>)> {
    let mut scripts = Vec::new();
    let mut part = String::new();
    let mut part_lines = 0;
    let mut take = |site: &Site, both_ends: bool| {
        let mut count = 0;
        every_list(site, both_ends, &mut |list| {
            let lines = lines_for(site, list);
            let more = lines.lines().count();
            if part_lines + more > LINES {
                scripts.push((format!("part {}", scripts.len()), std::mem::take(&mut part).into_bytes()));
                part_lines = 0;
            }
            part += &lines;
            part_lines += more;
            count += 1;
        });
        println!("{count} lists: {site:?}");
    };
    take(&worked_site(), true);
    for (root, first, last) in [(0, 1, 2), (0, 1, 3), (1, 0, 2), (1, 2, 0), (1, 2, 4)] {
        take(&Site { root, first, last, ..wheel_site() }, false);
    }
    scripts.push((format!("part {}", scripts.len()), part.into_bytes()));
    scripts
}

/// The shortest script among this one and some that follow it which shows the
/// same kind of fault: a better start for making it small.
fn shortest(first: &Program, second: &Program, seed: u64, index: u64, found: Vec<u8>, kind: Kind) -> (u64, Vec<u8>) {
    let mut shortest = (index, found);
    for other in index + 1..index + 300 {
        let script = script(seed, other);
        if script.len() >= shortest.1.len() {
            continue;
        }
        let finding = examine(first, second, &script, &mut Counts::default()).err();
        if finding.is_some_and(|finding| finding.kind == kind) {
            shortest = (other, script);
        }
    }
    shortest
}

fn usage() -> ExitCode {
    eprintln!("{USAGE}");
    ExitCode::FAILURE
}

fn report(first: &Program, second: &Program, name: &str, script: &[u8], finding: &Finding) -> Told {
    println!("{name}: {:?}: {}", finding.kind, finding.what);
    let (small, finding) = make_small(first, second, script, finding.kind);
    println!("smallest script found, {} lines: {}", small.split(|&b| b == b'\n').count() - 1, finding.what);
    let mut out = std::io::stdout().lock();
    for (title, bytes) in [("script", &small), ("first output", &finding.first), ("second output", &finding.second)] {
        let _ = writeln!(out, "--- {title}");
        let _ = out.write_all(bytes);
        if !bytes.ends_with(b"\n") && !bytes.is_empty() {
            let _ = writeln!(out, "(no line feed)");
        }
    }
    Told
}

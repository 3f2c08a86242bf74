//! `second-bench PATH [TURNS]` measures the program at PATH and the second one
//! side by side on generated sites: instructions, stack, and times.

mod runs;
mod sites;

use std::io::Result;
use std::path::PathBuf;
use std::process::ExitCode;

use runs::{counter_is_there, Runs};
use sites::{cases, cuts_of, grown, long_ear};

const ABOUT: &str = "\
1 is the first program, 2 the second, 'ratio' the first over the second; the outputs are compared first. 'loading' is
a plan up to open, 'ears' its ears (the plan up to its last ear less loading), 'whole' the plan to its last walk. All
are whole runs of a program on a file, and starting it is in them.";

fn main() -> ExitCode {
    let arguments: Vec<String> = std::env::args().skip(1).collect();
    let turns = arguments.get(1).map_or(Some(7), |text| text.parse().ok());
    let (Some(path), Some(turns)) = (arguments.first(), turns) else {
        eprintln!("second-bench PATH [TURNS]: with 0 turns no times are taken");
        return ExitCode::FAILURE;
    };
    let beside = std::env::current_exe().map(|path| path.with_file_name("second"));
    let done = beside.and_then(|second| {
        let folder = std::env::temp_dir().join(format!("second-bench-{}", std::process::id()));
        std::fs::create_dir_all(&folder)?;
        let runs = Runs { programs: [PathBuf::from(path), second], folder, turns };
        let done = all(&runs);
        let _ = std::fs::remove_dir_all(&runs.folder);
        done
    });
    match done {
        Ok(()) => ExitCode::SUCCESS,
        Err(error) => {
            eprintln!("second-bench: {error}");
            ExitCode::FAILURE
        }
    }
}

fn all(runs: &Runs) -> Result<()> {
    println!("{ABOUT}");
    sizes();
    if counter_is_there() {
        println!("\nMillions of instructions, as callgrind counts them; a copy counts by its bytes.\n");
        table(&|scripts| runs.counts(scripts), None)?;
        println!("\nThousands of instructions by switch, M = 4 N.\n");
        growth(&|scripts| runs.counts(scripts))?;
    } else {
        println!("\nInstructions are left out, since valgrind is missing.");
    }
    println!("\nLeast stack that runs, in KB (ulimit -s), in steps of 4.\n");
    stacks(runs)?;
    if runs.turns > 0 {
        println!("\nMilliseconds, least of {} turns. A script stands in one input as often as its 65,535", runs.turns);
        println!("lines allow, up to 40 times, its time divided by that; 'in one run' is the plan once.\n");
        table(&|scripts| runs.times(scripts), Some(&|scripts| runs.times_once(scripts)))?;
        println!("\nMicroseconds by switch, M = 4 N.\n");
        growth(&|scripts| runs.times(scripts))?;
    }
    Ok(())
}

/// What both programs need for each script.
type Measure<'a> = &'a dyn Fn(&[String]) -> Result<Vec<[f64; 2]>>;

/// The row of some measures of both programs.
fn row(name: &str, cells: &[[f64; 2]]) {
    print!("| {name} |");
    for [first, second] in cells {
        print!(" {first:.2} | {second:.2} | {:.2} |", first / second);
    }
    println!();
}

/// The head of a table with such columns.
fn head(name: &str, columns: &[&str]) {
    print!("| {name} |");
    for column in columns {
        print!(" {column}: 1 | 2 | ratio |");
    }
    println!("\n|{}", "---|".repeat(1 + 3 * columns.len()));
}

fn sizes() {
    println!("\nThird walks in switches, all but the root's; 'before' is before document 02, Note 6.\n");
    println!("| Site | switches | links | ears | third walks: longest | average | before: longest | average |");
    println!("|{}", "---|".repeat(8));
    for case in cases() {
        let [switches, links, ears] = case.sizes();
        let thirds = case.third_walks().map_or("- | - | - | -".to_string(), |[now, before]| {
            format!("{} | {:.2} | {} | {:.2}", now.0, now.1, before.0, before.1)
        });
        println!("| {} | {switches} | {links} | {ears} | {thirds} |", case.name);
    }
}

/// A row for each site, and one for the start of a program alone.
fn table(measure: Measure, once: Option<Measure>) -> Result<()> {
    let columns = ["loading", "ears", "whole", "in one run"];
    head("Site", &columns[..if once.is_some() { 4 } else { 3 }]);
    for case in cases() {
        let [open, ears, _, whole] = cuts_of(&case);
        let [open, ears, all] = measure(&[open, ears, whole.clone()])?[..] else { unreachable!() };
        let mut cells = vec![open, [ears[0] - open[0], ears[1] - open[1]], all];
        if let Some(once) = once {
            cells.extend(once(&[whole])?);
        }
        row(case.name, &cells);
    }
    let empty = once.unwrap_or(measure)(&[String::new()])?[0];
    println!("\nAn empty input: {:.2} and {:.2}.", empty[0], empty[1]);
    Ok(())
}

/// To close and with all walks, divided by the number of switches.
fn growth(measure: Measure) -> Result<()> {
    head("N", &["to close", "whole"]);
    for switches in [64, 256, 1024] {
        let [_, _, close, whole] = cuts_of(&grown(switches));
        let cells = measure(&[close, whole])?;
        let by_switch = |two: &[f64; 2]| two.map(|cell| cell * 1000.0 / switches as f64);
        row(&switches.to_string(), &cells.iter().map(by_switch).collect::<Vec<_>>());
    }
    Ok(())
}

fn stacks(runs: &Runs) -> Result<()> {
    println!("| Plan | 1 | 2 |\n|---|---|---|");
    let [.., long] = cuts_of(&long_ear());
    let given = std::fs::read_to_string("examples/site-1024.plan")?;
    for (name, script) in [("`examples/site-1024.plan`", given), ("one ear of 1,000, with its walks", long)] {
        let [first, second] = runs.least_stacks(&script)?;
        println!("| {name} | {first} | {second} |");
    }
    Ok(())
}

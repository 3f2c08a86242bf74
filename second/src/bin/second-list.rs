//! `second-list PLAN` loads the network of a plan, offers its ears as one list, closes, brings over, asks for all walks
//! and for the zones of some sizes, and adds the session to a report, in functions that a profiler finds by name
//! (`bench/archive`). It prints the count of ears accepted, then the longest third walk and the average one, and both as
//! they were before document 02, Note 6; and ends with 1 where anything is refused. `second-list PLAN all` and `second-list
//! PLAN FROM TO ..` load the network and ask for the routes between all two switches, or between those told, alone; they
//! print between how many there are three walks.

use std::process::ExitCode;

use second_reading::ducts::Report;
use second_reading::lines::{read_form, Form};
use second_reading::network::{Site, MAX_SWITCHES};
use second_reading::routes::Routes;
use second_reading::session::{list_of, Session};
use second_reading::tables::Tables;
use second_reading::{Plant, Refusal};

#[no_mangle]
#[inline(never)]
pub fn measured_load(session: &mut Session, site: &Site) -> Result<(usize, usize), Refusal> {
    session.load(site, Plant::Nothing)
}

#[no_mangle]
#[inline(never)]
pub fn measured_ears(session: &mut Session, list: &[u16]) -> (usize, Option<Refusal>) {
    session.ears(list)
}

#[no_mangle]
#[inline(never)]
pub fn measured_close(session: &mut Session) -> Result<(), Refusal> {
    session.close()
}

#[no_mangle]
#[inline(never)]
pub fn measured_bring_over(session: &mut Session) -> Result<(), Refusal> {
    session.bring_over()
}

#[no_mangle]
#[inline(never)]
pub fn measured_walk(session: &Session, switch: u16, tree: u16, out: &mut [u16]) -> Result<usize, Refusal> {
    session.walk_into(switch, tree, out)
}

#[no_mangle]
#[inline(never)]
pub fn measured_zones(session: &Session, sizes: [u16; 3], out: &mut [u16]) -> Result<(), Refusal> {
    session.zones(sizes, out)
}

#[no_mangle]
#[inline(never)]
pub fn measured_report_add(session: &Session, report: &mut Report) -> Result<(), Refusal> {
    report.add(session, Plant::Nothing)
}

#[no_mangle]
#[inline(never)]
pub fn measured_routes(session: &Session, from: u16, to: u16, out: &mut [u16]) -> Result<Routes, Refusal> {
    session.routes(from, to, out)
}

/// The sizes that are asked for, in a network of so many switches.
fn sizes(n: u16) -> [[u16; 3]; 4] {
    [[1, 1, n - 2], [n / 3, n / 3, n - 2 * (n / 3)], [n - 2, 1, 1], [1, n - 2, 1]]
}

/// The site of a plan, and its ears as one list. Other lines are passed over.
fn read_plan(plan: &[u8]) -> (Site, Vec<u16>) {
    let (mut names, mut links, mut ears) = (Site::default(), Vec::new(), Vec::new());
    for form in plan.split(|&byte| byte == b'\n').filter_map(read_form) {
        match form {
            Form::Net { switches, root, first, last } => {
                names = Site { switches, root, first, last, links: Vec::new() };
            }
            Form::Link(link) => links.push(link),
            Form::Ear(ear) => ears.push(ear),
            _ => {}
        }
    }
    (Site { links, ..names }, list_of(&ears))
}

fn third_walks(session: &Session) -> String {
    let (longest, average) = session.tables().map_or((0, 0.0), Tables::third_lengths);
    format!("longest {longest}, average {average:.2}")
}

/// The pairs of switches that are told, or all; none where the words are neither.
fn pairs_of(words: &[String], switches: u16) -> Option<Vec<(u16, u16)>> {
    if words == ["all"] {
        let all = (0..switches).flat_map(|from| (0..switches).map(move |to| (from, to)));
        return Some(all.filter(|(from, to)| from != to).collect());
    }
    let numbers: Vec<u16> = words.iter().map(|word| word.parse().ok()).collect::<Option<_>>()?;
    numbers.len().is_multiple_of(2).then(|| numbers.chunks(2).map(|two| (two[0], two[1])).collect())
}

/// Asks for the routes of these pairs, and tells between how many there are walks; none where one is refused.
fn ask_routes(session: &Session, pairs: &[(u16, u16)], switches: u16) -> Option<usize> {
    let mut out = vec![0; usize::from(switches) + 4];
    let mut walks = 0;
    for &(from, to) in pairs {
        walks += usize::from(matches!(measured_routes(session, from, to, &mut out).ok()?, Routes::Walks(_)));
    }
    Some(walks)
}

fn main() -> ExitCode {
    let words: Vec<String> = std::env::args().skip(1).collect();
    let Some(Ok(plan)) = words.first().map(std::fs::read) else {
        eprintln!("second-list PLAN [all | FROM TO ..]");
        return ExitCode::from(2);
    };
    let (site, list) = read_plan(&plan);
    let mut session = Session::Empty;
    let loaded = measured_load(&mut session, &site);
    if words.len() > 1 {
        let pairs = pairs_of(&words[1..], site.switches);
        return match pairs.and_then(|pairs| ask_routes(&session, &pairs, site.switches)) {
            Some(walks) => {
                println!("{walks}");
                ExitCode::SUCCESS
            }
            None => ExitCode::FAILURE,
        };
    }
    let (accepted, refusal) = measured_ears(&mut session, &list);
    println!("{accepted}");
    if loaded.is_err() || refusal.is_some() || measured_close(&mut session).is_err() {
        return ExitCode::FAILURE;
    }
    let now = third_walks(&session);
    let before = session.set_back().is_ok().then(|| third_walks(&session));
    if measured_bring_over(&mut session).is_err() || third_walks(&session) != now {
        return ExitCode::FAILURE;
    }
    println!("third walks: {now}; before: {}", before.unwrap_or_default());
    let mut out = [0; MAX_SWITCHES];
    let mut walks = (1..=3).flat_map(|tree| (0..site.switches).map(move |switch| (switch, tree)));
    let walked = walks.all(|(switch, tree)| measured_walk(&session, switch, tree, &mut out).is_ok());
    let zoned = sizes(site.switches).into_iter().all(|sizes| measured_zones(&session, sizes, &mut out).is_ok());
    match walked && zoned && measured_report_add(&session, &mut Report::EMPTY.clone()).is_ok() {
        true => ExitCode::SUCCESS,
        false => ExitCode::FAILURE,
    }
}

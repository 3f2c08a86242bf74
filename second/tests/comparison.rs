//! The comparison finds faults that were put in on purpose, and makes the
//! script that shows them small; the second program serves as the first.

use second_reading::compare::{examine, make_small, Finding, Kind, Program};
use second_reading::follow::Counts;
use second_reading::script::script;
use second_reading::Plant;

fn finding(first: Plant, second: Plant, scripts: u64) -> Option<(Vec<u8>, Finding)> {
    let (first, second) = (Program::Second(first), Program::Second(second));
    (0..scripts).find_map(|index| {
        let script = script(5, index);
        let found = examine(&first, &second, &script, &mut Counts::default()).err()?;
        Some(make_small(&first, &second, &script, found.kind))
    })
}

fn lines(script: &[u8]) -> usize {
    script.iter().filter(|&&byte| byte == b'\n').count()
}

#[test]
fn nothing_is_found_without_a_fault() {
    assert!(finding(Plant::Nothing, Plant::Nothing, 200).is_none());
}

#[test]
fn each_planted_fault_is_found_and_made_small() {
    for plant in [
        Plant::WrongPlace,
        Plant::WrongParent,
        Plant::WrongList,
        Plant::WrongLinks,
        Plant::WrongOrder,
        Plant::WrongRule,
        Plant::WrongTie,
        Plant::WrongDuct,
        Plant::WrongRepeat,
    ] {
        let (small, finding) = finding(Plant::Nothing, plant, 200).expect("the fault is found");
        assert_eq!(finding.kind, Kind::OutputsDiffer, "{plant:?}");
        assert!(lines(&small) <= 30, "{plant:?}: {}", String::from_utf8_lossy(&small));
    }
}

/// When both programs have the same fault, only the definitions find it.
#[test]
fn the_papers_find_a_fault_of_both() {
    for plant in [
        Plant::WrongParent,
        Plant::WrongList,
        Plant::WrongLinks,
        Plant::WrongOrder,
        Plant::WrongRule,
        Plant::WrongTie,
        Plant::WrongDuct,
        Plant::WrongRepeat,
    ] {
        let (small, finding) = finding(plant, plant, 400).expect("the fault is found");
        assert_eq!(finding.kind, Kind::AgainstThePapers, "{plant:?}");
        assert!(lines(&small) <= 60, "{plant:?}: {}", String::from_utf8_lossy(&small));
    }
}

/// The scripts of a seed reach every refusal that lines can show, every answer to an empty ear, both crossed ears,
/// third walks that document 02, Note 6, made shorter, and ducts in every writing.
#[test]
fn every_refusal_is_reached() {
    let second = Program::Second(Plant::Nothing);
    let mut counts = Counts::default();
    for index in 0..300 {
        examine(&second, &second, &script(1, index), &mut counts).expect("nothing is found");
    }
    let seen: Vec<u16> = counts.refusals.keys().copied().collect();
    let all: Vec<u16> = (1..=17).chain(19..=23).collect();
    assert_eq!(seen, all);
    assert_eq!(counts.missing(), [""; 0]);
}

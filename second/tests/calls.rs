//! The calls of the archive against the second program: without a fault nothing is found, and each fault put in is.
//! Without the archive nothing is compared: what is left out says so.

#[cfg(not(archive))]
mod without_the_archive {
    use std::process::Command;

    #[test]
    #[ignore = "the archive is not built: rt lib --cpu=x86-64 in crates/threeways_c"]
    fn the_archive_is_compared() {
        panic!("the archive is not built: rt lib --cpu=x86-64 in crates/threeways_c");
    }

    #[test]
    fn the_command_says_that_it_is_not_built() {
        let ended = Command::new(env!("CARGO_BIN_EXE_second-calls")).args(["1", "10"]).output().expect("it runs");
        assert_eq!(ended.status.code(), Some(2));
        assert!(ended.stdout.is_empty());
        let said = "second-calls: the archive is not built: rt lib --cpu=x86-64 in crates/threeways_c\n";
        assert_eq!(String::from_utf8_lossy(&ended.stderr), said);
    }
}

#[cfg(archive)]
mod with_the_archive {
    use std::process::{Command, Output};

    use second_reading::calls::{run, Difference, Fault, Kind};
    use second_reading::seen::Seen;
    use second_reading::Plant;

    fn difference(plant: Plant, fault: Fault) -> Difference {
        let found = run(4, 20_000, plant, fault).err();
        found.unwrap_or_else(|| panic!("{plant:?}, {fault:?}: nothing is found"))
    }

    #[test]
    fn nothing_is_found_without_a_fault() {
        let counts = run(1, 100_000, Plant::Nothing, Fault::Nothing).unwrap_or_else(|found| panic!("{found:?}"));
        assert_eq!(counts.calls, 100_000);
        assert_eq!(counts.missing(), [""; 0]);
        let names = ["bring over", "clear", "close", "ear", "ears", "load", "parent"].into_iter();
        let names: Vec<&str> = names.chain(["report add", "report begin", "routes", "walk", "zones"]).collect();
        assert!(counts.granted.keys().eq(&names), "{counts:?}");
        assert!(counts.unknown_granted.keys().eq(names.iter().filter(|name| **name != "load")), "{counts:?}");
        // Memory that reads as empty is the second program's empty session.
        assert_eq!(counts.unknown_empty_ears.missing(), ["an empty ear refused 19"]);
        assert_eq!(counts.unknown_zones.missing(), ["zones refused 19"]);
        assert_eq!(counts.unknown_reports.missing(), ["a session of a report refused 19"]);
        assert_eq!(counts.unknown_routes.missing(), ["routes refused 19"]);
        assert!(counts.stopped > 0 && counts.wrong_lengths > 0 && counts.set_back > 0, "{counts:?}");
    }

    #[test]
    fn each_fault_of_the_second_program_is_found_in_few_steps() {
        for (plant, kind) in [
            (Plant::WrongPlace, Kind::Answer),
            (Plant::WrongParent, Kind::Field),
            (Plant::WrongList, Kind::Answer),
            (Plant::WrongLinks, Kind::Answer),
            (Plant::WrongOrder, Kind::Answer),
            (Plant::WrongSizes, Kind::Answer),
            (Plant::WrongRoom, Kind::Answer),
            (Plant::WrongRule, Kind::Field),
            (Plant::WrongTie, Kind::Field),
            (Plant::WrongRepeat, Kind::Answer),
            (Plant::WrongNone, Kind::Field),
            (Plant::WrongTwo, Kind::Field),
            (Plant::WrongTurn, Kind::Answer),
            (Plant::WrongSlice, Kind::Answer),
            (Plant::WrongTwice, Kind::Answer),
            (Plant::WrongParting, Kind::Answer),
        ] {
            let Difference { finding, steps, .. } = difference(plant, Fault::Nothing);
            assert_eq!(finding.kind, kind, "{plant:?}: {finding:?}");
            assert!(steps.len() <= 30, "{plant:?}: {steps:?}");
        }
    }

    #[test]
    fn each_fault_behind_the_archive_is_found() {
        for (fault, kind) in [
            (Fault::Session, Kind::Changed),
            (Fault::Behind, Kind::Outside),
            (Fault::Lent, Kind::Changed),
            (Fault::LentLink, Kind::Changed),
            (Fault::Duct, Kind::Field),
            (Fault::OtherDuct, Kind::Changed),
            (Fault::Report, Kind::Field),
            (Fault::RefusedReport, Kind::Changed),
            (Fault::Added, Kind::Changed),
            (Fault::Rest, Kind::Changed),
            (Fault::Copy, Kind::Copies),
            (Fault::Lengths, Kind::Lengths),
            (Fault::Accepted, Kind::Answer),
            (Fault::Order, Kind::Changed),
            (Fault::RestOfZones, Kind::Changed),
            (Fault::Zones, Kind::Answer),
            (Fault::Unwritten, Kind::Copies),
            (Fault::Third, Kind::Field),
            (Fault::OtherTree, Kind::Changed),
            (Fault::End, Kind::Answer),
            (Fault::Written, Kind::Changed),
            (Fault::Turned, Kind::Answer),
            (Fault::Exchanged, Kind::Answer),
            (Fault::RestOfRoutes, Kind::Changed),
            (Fault::RefusedRoutes, Kind::Changed),
        ] {
            let finding = difference(Plant::Nothing, fault).finding;
            assert_eq!(finding.kind, kind, "{fault:?}: {finding:?}");
        }
    }

    fn second_calls(arguments: &[&str]) -> Output {
        Command::new(env!("CARGO_BIN_EXE_second-calls")).args(arguments).output().expect("it runs")
    }

    #[test]
    fn the_command_ends_with_what_it_found() {
        for (arguments, status) in [
            (&["1", "1000"][..], 0),
            (&["1", "20000", "--plant", "1"], 1),
            (&["1"], 2),
            (&["1", "many"], 2),
            (&["1", "1000", "--plant", "15"], 2),
        ] {
            let ended = second_calls(arguments);
            assert_eq!(ended.status.code(), Some(status), "{arguments:?}");
            assert_eq!(ended.stderr.is_empty(), status < 2, "{arguments:?}");
        }
    }
}

//! The bench cards of document 01 and the settled points on reading lines.

use second_reading::dialogue::run_bytes;
use second_reading::every::{card_k_site, every_list, wheel_site, worked_site};
use second_reading::network::{Link, Site};
use second_reading::session::Session;
use second_reading::{brute, Plant, Refusal};

const WORKED: &str =
    "(net 4 (root 0) (first 1) (last 3))\n(link 0 1)\n(link 0 2)\n(link 0 3)\n(link 1 2)\n(link 1 3)\n\
                      (link 2 3)\n(open)\n";

fn answers(input: &str) -> String {
    String::from_utf8(run_bytes(input.as_bytes(), Plant::Nothing)).unwrap()
}

/// The last line that the worked network and these lines print.
fn after_opening(lines: &str) -> String {
    answers(&format!("{WORKED}{lines}")).lines().last().unwrap().to_string()
}

fn site_of(switches: u16, root: u16, first: u16, last: u16, links: &[Link]) -> Site {
    Site { switches, root, first, last, links: links.to_vec() }
}

fn closed(site: &Site, ears: &[Vec<u16>]) -> Session {
    let mut session = Session::Empty;
    session.load(site, Plant::Nothing).unwrap();
    for ear in ears {
        session.ear(ear).unwrap();
    }
    session.close().unwrap();
    session
}

#[test]
fn worked_example() {
    let input = format!("{WORKED}(ear 0 2 1)\n(ear 2 3 1)\n(close)\n(ear 0 3)\n(close)\n(walk 2 3)\n");
    let output = "(opened 4 6)\n(new 3)\n(new 1)\n(refused 23 2)\n(new 0)\n(closed)\n(walk 2 3 (2 3 0))\n";
    assert_eq!(answers(&input), output);
}

#[test]
fn cards_a_to_h() {
    for (ear, answer) in [
        ("(ear 0 2 1)", "(new 3)"),
        ("(ear 1 2 0)", "(refused 12 0)"),
        ("(ear 0 1)", "(refused 7 0)"),
        ("(ear 0 2 3 1)", "(refused 15 2)"),
        ("(ear)", "(refused 7 0)"),
    ] {
        assert_eq!(after_opening(ear), answer, "{ear}");
    }
    for (ear, answer) in [
        ("(ear 2 3 0)", "(refused 15 1)"),
        ("(ear 2 1)", "(refused 11 0)"),
        ("(ear 0 3)", "(refused 13 1)"),
        ("(ear 2 3 2)", "(refused 9 2)"),
        ("(ear 1 0)", "(refused 11 0)"),
        ("(ear)", "(new 0)"),
        ("(ear 0)", "(refused 7 0)"),
    ] {
        assert_eq!(after_opening(&format!("(ear 0 2 1)\n{ear}\n")), answer, "{ear}");
    }
}

#[test]
fn card_i_and_walks_of_the_first_network() {
    let ears = [vec![0, 2, 1], vec![2, 3, 1], vec![0, 3]];
    let session = closed(&worked_site(), &ears);
    assert_eq!(session.walk(3, 1), Ok(vec![3, 2, 0]));
    assert_eq!(session.walk(3, 2), Ok(vec![3, 1, 0]));
    assert_eq!(session.walk(3, 3), Ok(vec![3, 0]));
    assert_eq!(session.parent(1, 2), Ok(0));
    for tree in 1..=3 {
        assert_eq!(session.walk(0, tree), Ok(vec![0]));
    }
    for (switch, tree) in [(4, 1), (2, 4), (2, 0), (2, 257), (65535, 1), (2, 65535)] {
        assert_eq!(session.walk(switch, tree), Err(Refusal { number: 17, place: 0 }));
    }
}

#[test]
fn card_j() {
    let mut session = Session::Empty;
    session.load(&wheel_site(), Plant::Nothing).unwrap();
    assert_eq!(session.ear(&[0, 3, 4, 1]), Err(Refusal { number: 16, place: 2 }));
}

#[test]
fn cards_k_and_l() {
    let site = card_k_site();
    let ears = [vec![0, 2, 1], vec![2, 3, 1], vec![3, 4, 0], vec![3, 5, 4], vec![0, 5]];
    let session = closed(&site, &ears);
    assert_eq!(session.walk(5, 1), Ok(vec![5, 4, 0]));
    assert_eq!(session.walk(5, 2), Ok(vec![5, 3, 1, 0]));
    assert_eq!(session.walk(5, 3), Ok(vec![5, 0]));
    let Session::Closed(tables) = session else { panic!("the session is closed") };
    assert_eq!(tables.order, [0, 4, 5, 2, 3, 1]);
    assert!(brute::is_mondschein(&site, &ears));
}

/// A plan of `examples/`.
fn example(name: &str) -> String {
    let path = format!("{}/../examples/{name}.plan", env!("CARGO_MANIFEST_DIR"));
    std::fs::read_to_string(path).unwrap()
}

/// Long ears and one empty ear close with the replies of the same plan written out.
#[test]
fn plans_with_long_ears_only() {
    for (written_out, long_ears) in [("card-k", "long-ears"), ("site-1024", "long-ears-1024")] {
        let [one, other] = [written_out, long_ears].map(|name| {
            let replies = answers(&example(name));
            replies.split_once("(closed)\n").expect("the plan closes").1.to_string()
        });
        assert!(one == other && one.starts_with("(walk"), "{long_ears}");
    }
}

/// Each number that lines can show has a plan that ends with it.
#[test]
fn plans_that_are_refused() {
    for number in (1..=17).chain(19..=23) {
        let replies = answers(&example(&format!("refused-{number:02}")));
        let last = replies.lines().last().unwrap();
        assert!(last.starts_with(&format!("(refused {number} ")), "{number}: {last}");
    }
}

/// The plan of crossed ears: both are 14 at 1, which were 13 at 0 and 11 at 0 before document 02, Note 3.
#[test]
fn plan_with_crossed_ears() {
    let plan = example("crossed");
    let replies = "(opened 5 10)\n(new 3)\n(refused 14 1)\n(refused 14 1)\n(new 1)\n(new 1)\n(new 0)\n(closed)\n";
    assert_eq!(answers(&plan), replies);
    let former = String::from_utf8(run_bytes(plan.as_bytes(), Plant::WrongOrder)).unwrap();
    let refused: Vec<&str> = former.lines().filter(|line| line.starts_with("(refused")).collect();
    assert_eq!(refused, ["(refused 13 0)", "(refused 11 0)"]);
}

/// The plan of short third walks: that of 2 had 44 switches before document 02, Note 6, and has 8, that of 13 had 33 and
/// has 9.
#[test]
fn plan_with_short_third_walks() {
    let plan = example("short-thirds");
    let thirds = |replies: Vec<u8>| -> Vec<String> {
        let replies = String::from_utf8(replies).unwrap();
        replies.lines().filter(|line| line.starts_with("(walk") && line.contains(" 3 (")).map(String::from).collect()
    };
    let now = thirds(run_bytes(plan.as_bytes(), Plant::Nothing));
    assert_eq!(now, ["(walk 2 3 (2 4 12 20 28 36 44 0))", "(walk 13 3 (13 14 16 18 20 28 36 44 0))"]);
    let before = thirds(run_bytes(plan.as_bytes(), Plant::WrongRule));
    let wandering = |from: u16| {
        let numbers: Vec<String> = (from..=44).chain([0]).map(|s| s.to_string()).collect();
        (numbers.len(), format!("(walk {from} 3 ({}))", numbers.join(" ")))
    };
    assert_eq!([wandering(2), wandering(13)], [(44, before[0].clone()), (33, before[1].clone())]);
}

#[test]
fn limits_of_n() {
    for (n, answer) in [(3, "(refused 1 0)"), (4, "(opened 4 6)"), (1024, "(opened 1024 6)"), (1025, "(refused 1 0)")] {
        let input = WORKED.replace("(net 4 ", &format!("(net {n} "));
        assert_eq!(answers(&input).trim_end(), answer);
    }
    // Without a `net` line N is 0; five links are too few.
    assert_eq!(answers("(open)\n"), "(refused 1 0)\n");
    assert_eq!(answers(&WORKED.replace("(link 1 2)\n", "")), "(refused 1 0)\n");
}

#[test]
fn checks_of_loading_are_separate_passes() {
    let loaded = |site: &Site| Session::Empty.load(site, Plant::Nothing);
    let refused = |number, place| Err(Refusal { number, place });
    let mut links = worked_site().links;
    links[0] = (0, 0).into();
    links[5] = (2, 4).into();
    assert_eq!(loaded(&site_of(4, 0, 1, 3, &links)), refused(2, 5));
    links[5] = (2, 3).into();
    assert_eq!(loaded(&site_of(4, 0, 1, 3, &links)), refused(3, 0));
    links[0] = (2, 0).into();
    assert_eq!(loaded(&site_of(4, 0, 0, 9, &links)), refused(4, 1));
    links[0] = (0, 1).into();
    assert_eq!(loaded(&site_of(4, 0, 1, 4, &links)), refused(5, 0));
    assert_eq!(loaded(&site_of(4, 0, 1, 1, &links)), refused(5, 0));
    links.remove(2);
    links.push((1, 4).into());
    links.push((3, 4).into());
    assert_eq!(loaded(&site_of(5, 0, 1, 3, &links)), refused(6, 0));
}

#[test]
fn refusals_from_the_state() {
    assert_eq!(answers("(ear)\n(close)\n(walk 9 9)\n"), "(refused 19 0)\n".repeat(3));
    assert_eq!(after_opening("(walk 9 9)"), "(refused 21 0)");
    assert_eq!(after_opening("(net 3 (root 0) (first 0) (last 0))\n(open)"), "(refused 20 0)");
    let all = "(ear 0 2 1)\n(ear 2 3 1)\n(ear 0 3)\n(close)\n";
    for call in ["(ear)", "(close)"] {
        assert_eq!(after_opening(&format!("{all}{call}")), "(refused 22 0)");
    }
    assert_eq!(after_opening(&format!("{all}(open)")), "(refused 20 0)");
    assert_eq!(after_opening(&format!("{all}(clear)\n(open)")), "(refused 1 0)");
}

#[test]
fn limits_of_lines() {
    assert_eq!(answers(""), "");
    assert_eq!(answers("\n"), "(unread 1)\n");
    assert_eq!(answers("(clear)"), "(cleared)\n");
    assert_eq!(answers("(clear)\n\n(clear)\n"), "(cleared)\n(unread 2)\n");
    assert_eq!(answers("(clear)\r\n"), "(unread 1)\n");
    // 3,069 numbers are read and answered; a line of 6,145 bytes is not.
    let ear = format!("(ear{})", " 1".repeat(3069));
    assert_eq!(answers(&ear), "(refused 19 0)\n");
    for feed in ["", "\n"] {
        assert_eq!(answers(&format!("{}{feed}", ear.replace("(ear 1", "(ear 10"))), "(refused 19 0)\n");
        assert_eq!(answers(&format!("{}{feed}", ear.replace("(ear 1", "(ear 100"))), "(unread 1)\n");
    }
    // Line 65,536 and what follows is not read.
    let many = "(clear)\n".repeat(65_534);
    assert!(answers(&format!("{many}x\n")).ends_with("(cleared)\n(unread 65535)\n"));
    assert_eq!(answers(&format!("{many}(clear)\nx\n")), "(cleared)\n".repeat(65_535));
    // The 4,097th link is unread; a clear resets the count, an open does not.
    let links = "(link 0 1)\n".repeat(4096);
    assert_eq!(answers(&format!("{links}(open)\n(link 0 1)\n")), "(refused 1 0)\n(unread 4098)\n");
    assert_eq!(answers(&format!("{links}(clear)\n{links}(open)\n")), "(cleared)\n(refused 1 0)\n");
}

#[test]
fn what_was_collected_survives_an_open() {
    let mended = WORKED.replace("(net 4", "(net 3") + "(net 4 (root 0) (first 1) (last 3))\n(open)\n";
    assert_eq!(answers(&mended), "(refused 1 0)\n(opened 4 6)\n");
}

/// On every list of paths that parts the links of two small networks the
/// judge and Definition 9 say the same.
#[test]
fn every_list_of_small_networks() {
    for (site, both_ends) in [(worked_site(), true), (wheel_site(), false)] {
        let (mut lists, mut taken) = (0, 0);
        every_list(&site, both_ends, &mut |list| {
            let mut session = Session::Empty;
            session.load(&site, Plant::Nothing).unwrap();
            let judged = list.iter().all(|ear| session.ear(ear).is_ok()) && session.close().is_ok();
            assert_eq!(judged, brute::is_mondschein(&site, &brute::written_out(&site, list)), "{list:?}");
            lists += 1;
            taken += usize::from(judged);
        });
        assert!(lists > 1000 && taken > 0, "{lists} lists, {taken} taken");
    }
}
